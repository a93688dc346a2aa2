#!/usr/bin/env bash
# Judges recordings that begin in the middle of traffic, with --sync: what comes of an exchange that is cut at each of its places,
# of captures in which no record may begin a command, of bad rows, and of breaks, all told by hand; and drawn captures, which
# sync.py compares with what is written of the rest without the option. The last line is 'N passed, M failed'.
set -u
cd "$(dirname "$0")/../.." || exit 1
. tests/lib/tools.sh
need_tools python3
. tests/lib/judge.sh
. tests/lib/errors.sh
. tests/lib/program.sh
. tests/lib/blocks.sh

# synced WORDS STATUS TEXT [FIRST [FIELD]]: the whole of what comes of $work/capture.csv with these words and --sync; FIRST is the
# first line on standard error, and FIELD what a bad row has in the field that is wrong.
synced() {
    # shellcheck disable=SC2086
    run $1 --sync "$work/capture.csv" < /dev/null
    expect "$name: $1 --sync" "$2" "$3" "$(both_lines "${4-}" "${5-}" "$work/capture.csv")"
}

# text TEXT: makes $work/capture.csv of the header and these rows, with printf's escapes.
text() {
    printf "time_us,wire,byte\n$1" > "$work/capture.csv"
}

# told NUMBER DELAY: PLAY, acknowledged so long after it, where nothing is known of the deck: it may be in local, and have ignored it.
told() {
    echo "record $1: PLAY -> ACK, delay $2, goal unknown, shown unknown, in unknown, out unknown, local unknown, ain unknown, aout unknown"
}

# STATUS SENSE of all that is judged: a deck in remote shows REC, and STOP, and its registers are clear.
shows_rec='C 61 20 04 85 D 74 20 00 02 00 00 96'
shows_stop='C 61 20 04 85 D 74 20 00 20 00 00 B4'
clear='in clear, out clear, local no, ain clear, aout clear'

# A preset of ten records, and then three statuses of eleven. The recording begins at each record of the preset, which is passed over,
# also where it is whole: nobody knows what came before record 1. Of three statuses that show REC, STOP and REC again the goal is REC:
# STOP is on the way to each goal, and REC to none. So the run is the only one. A hand may have set the goal at any time.
#
# Without --sync the preset contradicts the first status. Without its first record it begins with 14, of a group that is the deck's;
# then 00 00 00 is a command, after which comes 10; 00 00 and 00 10 have another sum than what follows; 10 is the deck's again; a
# command that begins with 68 has eleven records; and what is left then is the reply.
records "$preset $shows_rec $shows_stop $shows_rec" > "$work/whole.csv"
while IFS='|' read -r cut alone; do
    name="an exchange without its first $cut records"
    awk -v cut="$cut" 'NR == 1 || NR > cut + 1' "$work/whole.csv" > "$work/capture.csv"
    run check "$work/capture.csv" < /dev/null
    expect "$name: check" 1 "$alone" ''
    first=$((21 - cut)) second=$((32 - cut)) third=$((43 - cut))
    yes='yes: records 33, exchanges 3, open 0'
    totals="breaks 0: records $((43 - cut)), exchanges 3, passed over $((10 - cut)), open 0"
    at_first="record $first: STATUS SENSE -> 74 20, delay 400, goal unknown, shown REC, $clear"
    at_second="record $second: STATUS SENSE -> 74 20, delay 400, goal unknown, shown STOP, $clear"
    at_third="record $third: STATUS SENSE -> 74 20, delay 400, goal REC, shown REC, $clear"
    with_hands="$at_first, panel unknown
$at_second, panel unknown
record $third: STATUS SENSE -> 74 20, delay 400, goal unknown, shown REC, $clear, panel unknown"
    run_first="record $first: goal REC, shown REC, $clear"
    run_second="record $second: goal REC, shown STOP, $clear"
    run_third="record $third: goal REC, shown REC, $clear"
    known="$at_first
$at_second
$at_third"
    synced check 0 "$yes"
    synced why 0 "$yes"
    synced 'check --all' 0 "$totals"
    synced explain 0 "$known
$yes"
    synced run 0 "$run_first
$run_second
$run_third
$yes"
    # With more words too, of one of them.
    [ "$cut" = 4 ] || continue
    for words in 'check --hands' 'why --hands' 'why --line-buffered'; do
        synced "$words" 0 "$yes"
    done
    for words in 'check --all --hands' 'why --all' 'why --hands --all' 'check --line-buffered --all'; do
        synced "$words" 0 "$totals"
    done
    for words in 'explain --line-buffered' 'explain --rate 30'; do
        synced "$words" 0 "$known
$yes"
    done
    synced 'explain --hands' 0 "$with_hands
$yes"
    synced 'explain --all' 0 "$known
$totals"
    synced 'explain --all --hands' 0 "$with_hands
$totals"
    synced 'run --hands' 0 "$run_first, panel off
$run_second, panel off
$run_third, panel off
$yes"
done <<'END'
0|no at record 21: M1 no run remains
1|no at record 1: B1 wrong group for this wire
2|no at record 4: P3 command before the reply
3|no at record 3: B2 wrong sum
4|no at record 3: B2 wrong sum
5|no at record 1: B1 wrong group for this wire
6|no at record 2: P2 reply before the end of the command
7|no at record 1: P1 reply without a command
8|no at record 1: P1 reply without a command
9|no at record 1: P1 reply without a command
END

# Where it begins at the first status, that one is passed over.
name='a recording that begins between two exchanges'
records "$shows_rec $shows_stop $shows_rec" > "$work/capture.csv"
run check "$work/capture.csv"
expect "$name: check" 0 'yes: records 33, exchanges 3, open 0' ''
synced check 0 'yes: records 22, exchanges 2, open 0'
synced why 0 'yes: records 22, exchanges 2, open 0'
synced 'check --all' 0 'breaks 0: records 33, exchanges 2, passed over 11, open 0'
synced explain 0 "record 22: STATUS SENSE -> 74 20, delay 400, goal unknown, shown STOP, $clear
record 33: STATUS SENSE -> 74 20, delay 400, goal REC, shown REC, $clear
yes: records 22, exchanges 2, open 0"
synced run 0 "record 22: goal REC, shown STOP, $clear
record 33: goal REC, shown REC, $clear
yes: records 22, exchanges 2, open 0"

# The words in another order, standard input, and a file whose name is that of the option.
name='the words'
records "D 01 11 $play" > "$work/capture.csv"
run check --hands "$work/capture.csv" --sync --all
expect "$name: --sync after the file" 0 'breaks 0: records 8, exchanges 1, passed over 2, open 0' ''
run check --sync --all --hands < "$work/capture.csv"
expect "$name: --sync before the others, on standard input" 0 'breaks 0: records 8, exchanges 1, passed over 2, open 0' ''
run run --sync < "$work/capture.csv"
judge "$name: run on standard input" has_verdict 0 'yes: records 6, exchanges 1, open 0'
cp "$work/capture.csv" "$work/--sync"
(cd "$work" && "$program" check --sync -- --sync) > "$work/out" 2> "$work/err" < /dev/null
status=$?
expect "$name: a file of this name" 0 'yes: records 6, exchanges 1, open 0' ''
(cd "$work" && "$program" check -- --sync) > "$work/out" 2> "$work/err" < /dev/null
status=$?
expect "$name: a file of this name, without the option" 1 'no at record 1: P1 reply without a command' ''

# nothing_begins NAME RECORDS: no record may begin a command, of so many.
nothing_begins() {
    local words
    name=$1
    for words in check explain run why 'check --hands' 'explain --hands' 'run --hands' 'why --hands'; do
        synced "$words" 0 'yes: records 0, exchanges 0, open 0'
    done
    for words in 'check --all' 'explain --all' 'why --all' 'check --all --hands'; do
        synced "$words" 0 "breaks 0: records $2, exchanges 0, passed over $2, open 0"
    done
}

# begins_at NAME PASSED: the first so many records are passed over, and PLAY is left with its reply.
begins_at() {
    local words
    name=$1
    for words in check why; do
        synced "$words" 0 'yes: records 6, exchanges 1, open 0'
        synced "$words --all" 0 "breaks 0: records $((6 + $2)), exchanges 1, passed over $2, open 0"
    done
    synced explain 0 "$(told $((6 + $2)) 400)
yes: records 6, exchanges 1, open 0"
    run run --sync "$work/capture.csv"
    judge "$name: run, the lines" has_lines 2
    judge "$name: run, the number" grep -q "^record $((6 + $2)): " "$work/out"
    judge "$name: run, the verdict" has_verdict 0 'yes: records 6, exchanges 1, open 0'
}

# The line rests for 10,287 microseconds, or for one more.
at_limit='+10287'
above_limit='+10288'

capture_of ''
nothing_begins 'no record' 0
capture_of 'C 20'
nothing_begins 'one record of the controller' 1
capture_of 'D 10'
nothing_begins 'one record of the deck' 1
capture_of "$ack D 71 20 00 91"
nothing_begins 'the deck alone' 7
capture_of "$ack $above_limit $ack $above_limit D 71 20 00 91"
nothing_begins 'the deck alone, with rests' 10
capture_of 'C 20 01 21 20 01 21'
nothing_begins 'the controller alone' 6
capture_of "C 20 01 21 $at_limit C 20 01 21 $at_limit C 20 01 21"
nothing_begins 'the controller alone, with rests at the limit' 9
capture_of "$play"
nothing_begins 'one exchange' 6
capture_of "C 20 $above_limit $ack $above_limit $ack"
nothing_begins 'replies after rests' 7
capture_of "C 20 $at_limit $play"
nothing_begins 'a rest at the limit after record 1' 7

capture_of "C 20 $above_limit $play"
begins_at 'a rest above the limit after record 1' 1
capture_of "C 20 01 21 $above_limit $play"
begins_at 'a rest above the limit after a command' 3
capture_of "D 11 $play"
begins_at 'the last record of a reply' 1
capture_of "D 11 +100400 $play"
begins_at 'the last record of a reply, and a rest' 1
capture_of "C 21 $at_limit D 10 01 11 $play"
begins_at 'a rest at the limit before a reply' 4

# refused NAME ROW WORD [FIELD]: the row is refused, for this field if it is one, and nothing is written.
refused() {
    local words
    name=$1
    for words in check explain run why 'check --hands' 'check --all' 'explain --all' 'why --all'; do
        synced "$words" 3 '' "unreadable at row $2: $3" "${4-}"
    done
}

# A row that can't be read, before the first that may begin a command, in its place, and where none may.
text '400,D\n800,C,20\n1200,C,01\n'
refused 'a bad row 1' 1 fields
text '400,D,10\n800,D,1G\n1200,D,11\n1600,C,20\n2000,C,01\n2400,C,22\n'
refused 'a bad row before the first command, which breaks a rule' 2 byte 1G
text '400,D,11\n800,c,20\n1200,C,01\n'
refused 'a bad row in the place of the first command' 2 wire c
text '800,D,11\n400,C,20\n800,C,01\n'
refused 'a time that falls in the place of the first command' 2 backwards 400
text '400,D,10\n800,D,01\n,D,11\n'
refused 'a bad row where no record begins a command' 3 time ''
printf 'time,wire,byte\n400,D,11\n800,C,20\n' > "$work/capture.csv"
refused 'a wrong header' 0 header time,wire,byte
: > "$work/capture.csv"
refused 'an empty text' 0 header

# The same after the first command: what was told before the row stands.
name='a bad row after an exchange'
records "D 11 $play" > "$work/capture.csv"
echo '3200,C,2' >> "$work/capture.csv"
for words in check run why 'check --hands' 'check --all' 'why --all'; do
    synced "$words" 3 '' 'unreadable at row 8: byte' 2
done
for words in explain 'explain --all'; do
    synced "$words" 3 "$(told 7 400)" 'unreadable at row 8: byte' 2
done

# Behind a break no row is looked at, unless judging goes on.
name='a bad row after a break'
records "D 11 $play C 20 01 22" > "$work/capture.csv"
echo '4400,C' >> "$work/capture.csv"
broken='no at record 10: B2 wrong sum'
why_broken="records 8 to 9 at 3200: 20 01
record 10 at 4000: C 22, 400 after the record before, sum 21
$broken"
for words in check run; do
    synced "$words" 1 "$broken"
done
synced explain 1 "$(told 7 400)
$broken"
synced why 1 "$why_broken"
synced 'check --all' 3 "$broken" 'unreadable at row 11: fields'
synced 'explain --all' 3 "$(told 7 400)
$broken" 'unreadable at row 11: fields'
synced 'why --all' 3 "$why_broken" 'unreadable at row 11: fields'

# breaks NAME EXPLAINED WHY TOTALS: the capture is a no. EXPLAINED and WHY are the whole of what explain and why write of it; with
# --all the totals come after it.
breaks() {
    local broken=${2##*$'\n'}
    name=$1
    synced check 1 "$broken"
    synced run 1 "$broken"
    synced explain 1 "$2"
    synced why 1 "$3"
    synced 'check --all' 1 "$broken
$4"
    synced 'explain --all' 1 "$2
$4"
    synced 'why --all' 1 "$3
$4"
}

# Two records of a reply are passed over, and then a rule is broken: by a second reply, which is passed over too; by the sum of a
# command; and by the first record of all.
capture_of "D 01 11 $second_reply"
broken='no at record 9: P1 reply without a command'
breaks 'a second reply' "$(told 8 400)
$broken" "records 3 to 8 at 1200: PLAY 20 01 21 -> 10 01 11
record 9 at 3600: D 10, 400 after the record before
$broken" 'breaks 1: records 11, exchanges 1, passed over 5, open 0'
capture_of 'D 01 11 C 20 01 22'
broken='no at record 5: B2 wrong sum'
breaks 'a wrong sum' "$broken" "records 3 to 4 at 1200: 20 01
record 5 at 2000: C 22, 400 after the record before, sum 21
$broken" 'breaks 1: records 5, exchanges 0, passed over 5, open 0'
capture_of 'D 01 11 C 10'
broken='no at record 3: B1 wrong group for this wire'
breaks 'a wrong group' "$broken" "record 3 at 1200: C 10
$broken" 'breaks 1: records 3, exchanges 0, passed over 3, open 0'

# The replies of the dispute contradict one another, unless a hand moved the point.
capture_of "D 01 11 $remote $preset C 60 10 70 D 74 10 00 00 00 11 95"
broken='no at record 30: M1 no run remains'
breaks 'the dispute' "record 10: STATUS SENSE -> 71 20, delay 400, goal unknown, shown unknown, in unknown, out unknown, local no, \
ain unknown, aout unknown
record 20: IN DATA PRESET -> ACK, delay 400, goal unknown, shown unknown, in 10:00:00:00, out unknown, local no, ain unknown, aout unknown
$broken" "records 3 to 10 at 1200: STATUS SENSE 61 20 01 82 -> 71 20 00 91, says local no
records 11 to 20 at 4400: IN DATA PRESET 10:00:00:00 44 14 00 00 00 10 68 -> 10 01 11
records 21 to 30 at 8400: IN DATA SENSE 60 10 70 -> 11:00:00:00 74 10 00 00 00 11 95
could show: shown any, in 10:00:00:00, out unknown, local no, ain unknown, aout unknown
$broken" 'breaks 1: records 30, exchanges 2, passed over 12, open 0'
for words in 'check --hands' 'why --hands'; do
    synced "$words" 0 'yes: records 28, exchanges 3, open 0'
done
synced 'check --all --hands' 0 'breaks 0: records 30, exchanges 3, passed over 2, open 0'

# A late reply, which with --all ends no part.
name='a late reply'
late='no at record 6: L1 late reply'
why_late="records 3 to 5 at 1200: PLAY 20 01 21
record 6 at 11400: D 10, 9400 after the record before, limit 9287
$late"
totals='breaks 1: records 8, exchanges 1, passed over 2, open 0'
capture_of "D 01 11 C 20 01 21 +9400 $ack"
for words in check explain run; do
    synced "$words" 1 "$late"
done
synced why 1 "$why_late"
synced 'check --all' 1 "$late
$totals"
synced 'explain --all' 1 "$late
$(told 8 9400)
$totals"
synced 'why --all' 1 "$why_late
$totals"

# Two parts: the sum of PLAY is wrong, the controller sends it again after a rest, and then there is a second reply.
name='two breaks'
capture_of "D 01 11 C 20 01 22 +20400 $play $second_reply"
synced check 1 'no at record 5: B2 wrong sum'
synced 'check --all' 1 'no at record 5: B2 wrong sum
no at record 18: P1 reply without a command
breaks 2: records 20, exchanges 2, passed over 8, open 0'

# Swapped wires: what the deck sent is taken for commands, and is of a group that is the deck's. The second part begins so too.
capture_of 'D 20 01 21 C 10 01 11 D 20 01 21 C 10 01 11'
name='swapped wires'
broken='no at record 4: B1 wrong group for this wire'
for words in check explain run; do
    synced "$words" 1 "$broken"
done
synced why 1 "record 4 at 1600: C 10
$broken"
synced 'check --all' 1 "$broken
no at record 10: B1 wrong group for this wire
breaks 2: records 12, exchanges 0, passed over 12, open 0"

# What is open at the end.
name='an open command'
capture_of "D 11 $play C 20 01"
for words in check why; do
    synced "$words" 0 'yes: records 8, exchanges 1, open 2'
    synced "$words --all" 0 'breaks 0: records 9, exchanges 1, passed over 1, open 2'
done

# Each reason, at the record that it has behind two that are passed over.
while IFS='|' read -r verdict blocks; do
    capture_of "D 01 11 $blocks"
    for verb in check explain run why; do
        run $verb --sync "$work/capture.csv" < /dev/null
        judge "$verb --sync, $verdict" has_verdict 1 "no at record $verdict"
    done
done <<END
9: P1 reply without a command|$play D 10
5: P2 reply before the end of the command|C 20 01 D 10
6: P3 command before the reply|C 20 01 21 20
6: L2 no reply|C 20 01 21 +9400 C 20
7: P4 command inside a reply|C 20 01 21 D 10 C 20
6: L1 late reply|C 20 01 21 +9400 D 10
4: B3 gap inside a block|C 20 $above_limit C 01
3: B1 wrong group for this wire|C 71
5: B2 wrong sum|C 20 01 20
9: P6 invalid time in a command|C 44 14 25 00 00 10 8D
8: P5 wrong kind of reply|C 60 10 70 $ack
13: P7 invalid time in a reply|C 61 0C 01 6E D 74 04 25 00 00 00 9D
18: M1 no run remains|$remote $local
END

# At a rate: a preset of 00:00:59;29, which is no time at 25 frames a second.
name='a frame that 25 frames a second have not'
capture_of "D 01 11 $remote C 44 14 29 59 00 00 DA $ack"
synced check 1 'no at record 17: P6 invalid time in a command'
synced 'check --rate 30' 0 'yes: records 18, exchanges 2, open 0'
synced 'explain --rate 29.97df' 0 'record 10: STATUS SENSE -> 71 20, delay 400, goal unknown, shown unknown, in unknown, out unknown, '\
'local no, ain unknown, aout unknown
record 20: IN DATA PRESET -> ACK, delay 400, goal unknown, shown unknown, in 00:00:59;29, out unknown, local no, ain unknown, aout unknown
yes: records 18, exchanges 2, open 0'

# With a sheet: PREVIEW, which is not listed, may change the registers, but the sheet says that it leaves them alone.
name='a command of a sheet'
capture_of "D 01 11 $remote $preset C 20 40 60 $ack C 60 10 70 D 74 10 00 00 00 11 95"
synced check 0 'yes: records 34, exchanges 4, open 0'
for words in check run; do
    synced "$words --deck decks/nine-pin-commands.toml" 1 'no at record 36: M1 no run remains'
done

# Nothing is kept of 300,000 records that are passed over: the program has 64 MB.
replies=100000
smaller replies 10000 'replies that are passed over'
name='very many replies'
records "$ack" "$replies" > "$work/capture.csv"
last=$((3 * replies))
for record in C,20 C,01 C,21 D,10 D,01 D,11 D,10; do
    last=$((last + 1))
    echo "$((400 * last)),$record"
done >> "$work/capture.csv"
for verb in check run why; do
    bounded 65536 "$program" $verb --sync < "$work/capture.csv" > "$work/out" 2> "$work/err"
    status=$?
    no="no at record $last: P1 reply without a command"
    case $verb in
        why)
            expect "$name: why --sync" 1 "records $((last - 6)) to $((last - 1)) at $((400 * (last - 6))): PLAY 20 01 21 -> 10 01 11
record $last at $((400 * last)): D 10, 400 after the record before
$no" '' ;;
        *) expect "$name: $verb --sync" 1 "$no" '' ;;
    esac
done

# Streams.
run check --sync "$work/absent.csv"
expect 'an absent file' 4 '' "cannot open
$work/absent.csv: No such file or directory"
run explain --sync .
expect 'a directory' 4 '' 'read fault at row 0
.: Is a directory'
records "D 11 $play" 40000 > "$work/long.csv"
judge_closed_pipe explain --all --sync "$work/long.csv"

# moved BY: what a view tells of a report, with the numbers of its records moved by so many. The last line counts, and stays.
moved() {
    awk -v by="$1" '/^(yes|breaks)[ :]/ { print "the last line"; next }
    {
        text = ""
        while (match($0, /[Rr]ecords? [0-9]+( to [0-9]+)?/)) {
            parts = split(substr($0, RSTART, RLENGTH), word, " ")
            text = text substr($0, 1, RSTART - 1) word[1] " " word[2] + by (parts > 2 ? " to " word[4] + by : "")
            $0 = substr($0, RSTART + RLENGTH)
        }
        print text $0
    }'
}

# What the views tell of such a capture is what they tell of the rest. A motion's number stands in a column.
for file in examples/*.csv; do
    for cut in 1 4 7; do
        awk -v cut="$cut" 'NR == 1 || NR > cut + 1' "$file" > "$work/capture.csv"
        "$program" check --sync --all "$work/capture.csv" > "$work/out" 2> "$work/err" || [ ! -s "$work/err" ] || continue
        by=$(awk -F, 'NR > 1 { if (NR > 2 && $2 == "C" && (wire == "D" || $1 - time > 10287)) exit; wire = $2; time = $1; by++ }
            END { print by + 0 }' "$work/capture.csv")
        awk -v by="$by" 'NR == 1 || NR > by + 1' "$work/capture.csv" > "$work/rest.csv"
        for words in digest delays motion 'digest --all' 'delays --all' 'motion --all'; do
            # shellcheck disable=SC2086
            "$program" $words --sync "$work/capture.csv" 2>&1 | moved 0 > "$work/out"
            # shellcheck disable=SC2086
            "$program" $words "$work/rest.csv" 2>&1 | moved "$by" > "$work/want"
            case $words in motion*) sed -i -E 's/^( .*[^ ]) +[0-9]+(  [A-Z])/\1\2/' "$work/out" "$work/want" ;; esac
            judge "$words of $(basename "$file") without its first $cut records" cmp "$work/out" "$work/want"
        done
    done
done

# A picture with --sync is that of the rest: of PLAY, that is answered too soon, and not of blocks with bytes of two commands.
capture_of '+1000 C 00 00 10 68 D +1800 10 01 11 C +15200 20 01 D +1600 10 01 11'
awk 'NR == 1 || NR > 8' "$work/capture.csv" > "$work/rest.csv"
"$program" picture --sync "$work/capture.csv" 2>&1 | moved 0 > "$work/out"
"$program" picture "$work/rest.csv" 2>&1 | moved 7 > "$work/want"
judge 'a picture of what was judged' cmp "$work/out" "$work/want"
judge 'a picture with the command' grep -q '>PLAY<' "$work/out"

drawn=500
smaller drawn 100 'drawn captures'
judge_all 'drawn captures' python3 -B tests/judging/sync.py "$program" "$drawn"

tell_counts
