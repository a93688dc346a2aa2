#!/usr/bin/env bash
# Runs `explain --bytes`: whole texts by hand; that it says of each exchange what `why` and `explain` say of it, on the examples; and
# that the views make of it what they make of an explanation. The last line is 'N passed, M failed'.
set -u
cd "$(dirname "$0")/../.." || exit 1
. tests/lib/tools.sh
need_tools jq
. tests/lib/judge.sh
. tests/lib/program.sh
. tests/lib/blocks.sh

# says WORDS STATUS TEXT: the program with these words on $work/capture.csv.
says() {
    # shellcheck disable=SC2086
    run $1 "$work/capture.csv"
    judge "$1" is_text "$2" "$3" ''
}

# ---- By hand.

# What stands for blocks: CURRENT TIME SENSE for the time code and for timer 1, a time code that is 10:00:00:00, a timer at
# 01:02:03:04, one whose bytes are no time; a NAK of two reasons; FULL EE ON.
sense_ltc='C 61 0C 01 6E'
sense_timer='C 61 0C 04 71'
ltc='D 74 04 00 00 00 10 88'
timer='D 74 00 04 03 02 01 7E'
no_time='D 74 00 FF FF FF FF 70'
nak='D 11 12 14 37'
nothing='goal unknown, shown unknown, in unknown, out unknown, local unknown, ain unknown, aout unknown'

capture_of "$sense_ltc $ltc $sense_timer $timer $sense_timer $no_time $sense_ltc $nak C 20 61 81 $ack"
says 'explain --bytes' 0 "records 1 to 11 at 400: CURRENT TIME SENSE 61 0C 01 6E -> 10:00:00:00 74 04 00 00 00 10 88, delay 400, $nothing
records 12 to 22 at 4800: CURRENT TIME SENSE 61 0C 04 71 -> 01:02:03:04 74 00 04 03 02 01 7E, delay 400, $nothing
records 23 to 33 at 9200: CURRENT TIME SENSE 61 0C 04 71 -> 74 00 FF FF FF FF 70, delay 400, $nothing
records 34 to 41 at 13600: CURRENT TIME SENSE 61 0C 01 6E -> 11 12 14 37, delay 400, $nothing
records 42 to 47 at 16800: 20 61 81 -> 10 01 11, delay 400, $nothing
yes: records 47, exchanges 5, open 0"
# A frame of 24 is a time at 25 frames a second, and none at 24.
capture_of "$sense_timer D 74 00 24 00 00 10 A8"
says 'explain --bytes' 0 "records 1 to 11 at 400: CURRENT TIME SENSE 61 0C 04 71 -> 10:00:00:24 74 00 24 00 00 10 A8, delay 400, $nothing
yes: records 11, exchanges 1, open 0"
says 'explain --rate 24 --bytes' 0 "records 1 to 11 at 400: CURRENT TIME SENSE 61 0C 04 71 -> 74 00 24 00 00 10 A8, delay 400, $nothing
yes: records 11, exchanges 1, open 0"
says 'explain --bytes --rate 29.97df' 0 "records 1 to 11 at 400: CURRENT TIME SENSE 61 0C 04 71 -> 10:00:00;24 74 00 24 00 00 10 A8, delay 400, $nothing
yes: records 11, exchanges 1, open 0"
# What a status says, a preset's time, hands, and a name of a sheet; the same line in `why`.
printf '[names]\n"20 61" = "FULL EE ON"\n"21 61" = "FULL EE WITH A BYTE"\n[forgets]\n"20 61" = "nothing"\n' > "$work/named.toml"
full_ee='C 20 61 81'
lost='C 60 10 70 D 74 10 00 00 00 00 84'
capture_of "C 61 20 03 84 D 73 20 00 20 00 B3 $preset $full_ee $ack C 21 61 00 82 $ack $preset C 60 10 70 D 74 10 00 00 00 10 94 $lost"
known='out unknown, local no, ain unknown, aout unknown'
says "explain --bytes --deck $work/named.toml" 1 "records 1 to 10 at 400: STATUS SENSE 61 20 03 84 -> 73 20 00 20 00 B3, says local no, shown STOP, delay 400, goal unknown, shown STOP, in unknown, $known
records 11 to 20 at 4400: IN DATA PRESET 10:00:00:00 44 14 00 00 00 10 68 -> 10 01 11, delay 400, goal unknown, shown unknown, in 10:00:00:00, $known
records 21 to 26 at 8400: FULL EE ON 20 61 81 -> 10 01 11, delay 400, goal unknown, shown unknown, in 10:00:00:00, $known
records 27 to 33 at 10800: FULL EE WITH A BYTE 21 61 00 82 -> 10 01 11, delay 400, goal unknown, shown unknown, in unknown, $known
records 34 to 43 at 13600: IN DATA PRESET 10:00:00:00 44 14 00 00 00 10 68 -> 10 01 11, delay 400, goal unknown, shown unknown, in 10:00:00:00, $known
records 44 to 53 at 17600: IN DATA SENSE 60 10 70 -> 10:00:00:00 74 10 00 00 00 10 94, delay 400, goal unknown, shown unknown, in 10:00:00:00, $known
no at record 63: M1 no run remains" 2> /dev/null
run explain --hands --bytes --deck "$work/named.toml" "$work/capture.csv"
judge 'the panel stands at the end' [ "$(grep -cE ', panel (unknown|on)$' "$work/out")" = 7 ]
# Without the sheet nothing stands before the bytes, in `why` too.
capture_of "$full_ee $ack $ack"
says why 1 "records 1 to 6 at 400: 20 61 81 -> 10 01 11
record 7 at 2800: D 10, 400 after the record before
no at record 7: P1 reply without a command"
says "why --deck $work/named.toml" 1 "records 1 to 6 at 400: FULL EE ON 20 61 81 -> 10 01 11
record 7 at 2800: D 10, 400 after the record before
no at record 7: P1 reply without a command"
# A complete command whose reply breaks a rule has its name; one that is not complete has none.
capture_of "$full_ee D 10 C 20"
says "why --deck $work/named.toml" 1 "records 1 to 3 at 400: FULL EE ON 20 61 81
records 4 to 4 at 1600: -> 10, 1 of 3 bytes
record 5 at 2000: C 20, 400 after the record before
no at record 5: P4 command inside a reply"
capture_of 'C 20 61 D 10'
says "why --deck $work/named.toml" 1 "records 1 to 2 at 400: 20 61, 2 of 3 bytes
record 3 at 1200: D 10, 400 after the record before
no at record 3: P2 reply before the end of the command"
# The time in the reply to CURRENT TIME SENSE stands in `why` too.
capture_of "$sense_ltc $ltc $ack"
says why 1 "records 1 to 11 at 400: CURRENT TIME SENSE 61 0C 01 6E -> 10:00:00:00 74 04 00 00 00 10 88
record 12 at 4800: D 10, 400 after the record before
no at record 12: P1 reply without a command"
# With --all records keep their numbers, and a late reply's line comes before that of its exchange; with --sync too.
capture_of "$play $ack C 20 01 21 +9400 $ack"
says 'explain --all --bytes' 1 "records 1 to 6 at 400: PLAY 20 01 21 -> 10 01 11, delay 400, goal unknown, shown unknown, in unknown, out unknown, local unknown, ain unknown, aout unknown
no at record 7: P1 reply without a command
no at record 13: L1 late reply
records 10 to 15 at 4000: PLAY 20 01 21 -> 10 01 11, delay 9400, goal unknown, shown unknown, in unknown, out unknown, local unknown, ain unknown, aout unknown
breaks 2: records 15, exchanges 2, passed over 3, open 0"
capture_of "$ack $play"
says 'explain --sync --bytes' 0 "records 4 to 9 at 1600: PLAY 20 01 21 -> 10 01 11, delay 400, goal unknown, shown unknown, in unknown, out unknown, local unknown, ain unknown, aout unknown
yes: records 6, exchanges 1, open 0"

# ---- The examples: behind the reply stands what any explanation says, and before it what `why` says.

# told FORM: each exchange by the number of its last record, and what stands from the delay on.
told() { sed -E "s/$1.*, delay ([0-9]+), goal /\1: delay \2, goal /"; }
bare='^record ([0-9]+): '
whole='^records [0-9]+ to ([0-9]+) at [0-9]+: '
for file in examples/*.csv examples/views/*.csv; do
    for words in '' --hands --all '--deck decks/nine-pin-commands.toml'; do
        # shellcheck disable=SC2086
        "$program" explain $words "$file" > "$work/named" 2> /dev/null
        told "$bare" < "$work/named" > "$work/want"
        # shellcheck disable=SC2086
        "$program" explain --bytes $words "$file" > "$work/lines" 2> /dev/null
        told "$whole" < "$work/lines" > "$work/out"
        judge "explain --bytes $words $file" cmp "$work/out" "$work/want"
        # shellcheck disable=SC2086
        "$program" why $words "$file" 2> /dev/null | grep -E ': [^-].* -> ' | sed 's/, says .*//' > "$work/contradicting"
        sed 's/, says .*//; s/, delay .*//' "$work/lines" > "$work/all"
        # The last reply that contradicts others is the one that breaks, which no explanation has.
        judge "why $words $file" [ "$(grep -cvxFf "$work/all" "$work/contradicting")" -le "$(grep -c ': M1 ' "$work/lines")" ]
    done
done

# ---- Views make the same of it, and JSON has more.

for file in session hands keeps-playing several-breaks late-replies; do
    words=--hands
    case $file in several-breaks | late-replies) words=--all ;; esac
    for view in digest delays motion; do
        "$program" $view $words "examples/views/$file.csv" > "$work/want"
        run $view --bytes $words "examples/views/$file.csv"
        judge "$view of $file" eval 'cmp "$work/out" "$work/want" && [ -s "$work/out" ]'
    done
    "$program" json $words "examples/views/$file.csv" > "$work/want"
    "$program" json --bytes $words "examples/views/$file.csv" > "$work/more"
    # What was not obeyed has its time either way.
    jq -c 'if .line == "not_obeyed" then . else del(.first_record, .time_us, .command_time, .command_bytes, .reply_time, .reply_bytes, .says) end' \
        "$work/more" > "$work/out"
    judge "json of $file" cmp "$work/out" "$work/want"
    judge "json of $file has the bytes of each exchange" \
        [ "$(jq -r 'select(.line == "exchange") | .command_bytes + .reply_bytes' "$work/more" | grep -c ' ')" = "$(grep -c '"exchange",' "$work/want")" ]
done

tell_counts
