#!/usr/bin/env bash
# Runs `ninecheck try`, and what `why` says to ask next: on captures whose lines are written here, and on drawn ones, of which each
# line is what `check` says with its words. The last line is 'N passed, M failed'.
set -u
cd "$(dirname "$0")/../.." || exit 1
. tests/lib/tools.sh
need_tools python3
. tests/lib/judge.sh
. tests/lib/program.sh
. tests/lib/blocks.sh
. tests/lib/drawing.sh

# ask WORDS...: the program; its streams are left in $work/out and $work/err.
ask() {
    "$program" "$@" > "$work/out" 2> "$work/err"
    status=$?
}

# both RATE ANSWER ANSWER: two lines, without hands and with.
both() {
    echo "--rate $1: $2
--rate $1 --hands: $3"
}

drop_frame=$(
    both 25 'no at record 15: P6 invalid time in a command' 'no at record 15: P6 invalid time in a command'
    both 24 'no at record 15: P6 invalid time in a command' 'no at record 15: P6 invalid time in a command'
    both 30 'no at record 34: M1 no run remains' 'yes: records 34, exchanges 4, open 0'
    both 29.97df 'yes: records 34, exchanges 4, open 0' 'yes: records 34, exchanges 4, open 0'
)
ask try examples/drop-frame.csv
expect 'drop frame' 0 "$drop_frame" 'yes with --rate 29.97df'
ask try < examples/drop-frame.csv
expect 'drop frame on standard input' 0 "$drop_frame" 'yes with --rate 29.97df'
cat examples/drop-frame.csv | ask try
expect 'drop frame from a pipe' 0 "$drop_frame" 'yes with --rate 29.97df'

dispute=$(for rate in 25 24 30 29.97df; do
    both $rate 'no at record 28: M1 no run remains' 'yes: records 28, exchanges 3, open 0'
done)
ask try examples/disputed-in-point.csv
expect 'a dispute' 0 "$dispute" 'yes with --hands'
yes=$(for rate in 25 24 30 29.97df; do
    both $rate 'yes: records 6, exchanges 1, open 0' 'yes: records 6, exchanges 1, open 0'
done)
ask try examples/play.csv
expect 'a yes' 0 "$yes" ''
late=$(for rate in 25 24 30 29.97df; do
    both $rate 'no at record 4: L1 late reply' 'no at record 4: L1 late reply'
done)
ask try examples/late-reply.csv
expect 'a no with all words' 1 "$late" ''

# A deck that loses its points when it ejects, with the sheet that says so, and without.
eject=$(for rate in 25 24 30 29.97df; do
    both $rate 'no at record 32: M1 no run remains' 'yes: records 32, exchanges 4, open 0'
    both "$rate --deck" 'yes: records 32, exchanges 4, open 0' 'yes: records 32, exchanges 4, open 0'
done)
ask try --deck examples/eject.toml examples/eject.csv
expect 'a sheet' 0 "$eject" 'yes with --deck'
ask try --deck=examples/eject.toml < examples/eject.csv
expect 'a sheet, and standard input' 0 "$eject" 'yes with --deck'
ask try --deck absent.toml examples/play.csv
expect 'a sheet that is not there' 4 '' 'cannot open
absent.toml: No such file or directory'
ask try --deck examples/play.csv examples/play.csv
expect 'a sheet that is none' 3 '' 'unreadable deck sheet
examples/play.csv: line 1: not TOML'

# One's own rate comes first, and where it is a yes it is named.
ask try --rate 30 examples/disputed-in-point.csv
own=$(for rate in 30 25 24 29.97df; do
    both $rate 'no at record 28: M1 no run remains' 'yes: records 28, exchanges 3, open 0'
done)
expect "one's own rate" 0 "$own" 'yes with --hands'
ask try --rate 24 examples/drop-frame.csv
judge 'another rate than one'"'"'s own' eval '[ "$status" = 0 ] && [ "$(cat "$work/err")" = "yes with --rate 29.97df" ] && [ "$(head -n 1 "$work/out")" = "--rate 24: no at record 15: P6 invalid time in a command" ]'

# What in the capture bears on the answers is said below them: it begins inside traffic, and its wires are swapped.
records "D 11 $play" > "$work/inside.csv"
ask try "$work/inside.csv"
inside=$(for rate in 25 24 30 29.97df; do
    both $rate 'no at record 1: P1 reply without a command' 'no at record 1: P1 reply without a command'
done)
expect 'a capture that begins inside a reply, without --sync' 1 "$inside" 'look at: begins inside traffic, at record 1: no command with a right checksum begins there; ask with --sync'
sed 's/,C,/,X,/; s/,D,/,C,/; s/,X,/,D,/' examples/play.csv > "$work/swapped.csv"
ask try "$work/swapped.csv"
judge 'swapped wires' eval '[ "$status" = 1 ] && grep -qx "look at: the wires are swapped, at record 1: .*" "$work/err"'

# With --all a line has the totals, and a yes is no break. With --sync all are judged from the first record that may begin a
# command.
ask try --all examples/views/several-breaks.csv
several=$(for rate in 25 24 30 29.97df; do
    both $rate 'breaks 4: records 78, exchanges 9, passed over 6, open 2' 'breaks 4: records 78, exchanges 9, passed over 6, open 2'
done)
expect 'several breaks' 1 "$several" ''
ask try --all examples/play.csv
expect 'no break' 0 "${yes//yes: records 6, exchanges 1, open 0/breaks 0: records 6, exchanges 1, passed over 0, open 0}" ''
ask try --sync "$work/inside.csv"
expect 'a capture that begins inside a reply' 0 "$yes" ''

# A bad row that no asking comes past, one that some come to, and a file that is not there.
ask try examples/bad-byte.csv
"$program" check examples/bad-byte.csv 2> "$work/said"
expect 'a bad row' 3 '' "$(cat "$work/said")"
{ cat examples/drop-frame.csv; echo '99999,C,2'; } > "$work/bad.csv"
ask try "$work/bad.csv"
bad=$(
    both 25 'no at record 15: P6 invalid time in a command' 'no at record 15: P6 invalid time in a command'
    both 24 'no at record 15: P6 invalid time in a command' 'no at record 15: P6 invalid time in a command'
    both 30 'no at record 34: M1 no run remains' 'unreadable at row 35: byte'
    both 29.97df 'unreadable at row 35: byte' 'unreadable at row 35: byte'
)
expect 'a bad row behind a break' 1 "$bad" "record 15 keeps the rules with --rate 29.97df; then row 35 can't be read"
ask try absent.csv
expect 'a file that is not there' 4 '' 'cannot open
absent.csv: No such file or directory'

# Of 200 drawn captures each line is what `check` says with its words.
draw_captures 200 "$work" > "$work/list"
answers=0
while read -r number _; do
    ask try "$work/$number.csv"
    while read -r words; do
        # shellcheck disable=SC2086
        echo "$words: $("$program" check $words "$work/$number.csv")"
    done < <(cut -d : -f 1 "$work/out") > "$work/want"
    judge "drawn capture $number" cmp "$work/out" "$work/want"
    answers=$((answers + $(grep -c ': yes: \|: no ' "$work/out")))
done < "$work/list"
judge "drawn captures have eight lines each: $answers" [ "$answers" = 1600 ]

# What `why` says to ask next: blocks of a capture, words, and the line. DF42 is the deck's clock at 10:00:00;02, which has the flag of
# drop frame, and DF61 at 10:00:00;21. AUTO is a STOP, and an AUTO EDIT in which the deck shows SHUTTLE, JOG, PLAY and REC: 65 records.
# JOGGED is a STOP, and a VAR for which the deck shows JOG: 39 records.
shown='C 61 20 12 93 D 72 20'
stopped="$remote C 20 00 20 $ack $shown 20 00 B2"
auto="$stopped C 20 42 62 $ack $shown 00 20 B2 $shown 00 10 A2 $shown 01 80 13 $shown 02 80 14"
jogged="$stopped C 21 12 40 73 $ack $shown 00 10 A2"
while IFS='|' read -r name words blocks line; do
    blocks=${blocks//AUTO/$auto}
    blocks=${blocks//JOGGED/$jogged}
    for frames in 42:CA 43:CB 44:CC 61:E9 62:EA 63:EB; do
        blocks=${blocks//DF${frames%:*}/C 61 0C 01 6E D 74 04 ${frames%:*} 00 00 10 ${frames#*:}}
    done
    capture_of "$blocks"
    # shellcheck disable=SC2086
    "$program" why --quiet $words "$work/capture.csv" > "$work/want_out"
    for way in file input pipe; do
        if [ $way = file ]; then
            # shellcheck disable=SC2086
            ask why $words "$work/capture.csv"
        elif [ $way = input ]; then
            # shellcheck disable=SC2086
            ask why $words < "$work/capture.csv"
        else
            # shellcheck disable=SC2086
            ask why $words < <(cat "$work/capture.csv")
        fi
        judge "$name, $way: what why writes" cmp "$work/out" "$work/want_out"
        judge "$name, $way: its status" [ "$status" = 1 ]
        printf '%s' "$line${line:+
}" > "$work/want_err"
        judge "$name, $way: what to ask next" cmp "$work/err" "$work/want_err"
    done
    # shellcheck disable=SC2086
    ask why --quiet $words "$work/capture.csv"
    judge "$name, quiet" eval 'cmp "$work/out" "$work/want_out" && [ "$status" = 1 ] && [ ! -s "$work/err" ]'
done <<'END'
frame 29 at 25||C 44 14 29 59 00 00 DA|next: 00:00:59:29 is not valid at --rate 25: the last frame is 24; yes with --rate 30 and --rate 29.97df
frame 24 at 24|--rate 24|C 44 15 24 00 00 10 8D|next: 10:00:00:24 is not valid at --rate 24: the last frame is 23; yes with --rate 25
a label that drop frame leaves out|--rate 29.97df|C 24 31 01 00 01 10 67|next: 10:01:00;01 is not valid at --rate 29.97df: drop frame leaves out frames 00 and 01 in second 00 of minute 01; yes with --rate 24, --rate 25 and --rate 30
frame 30||C 44 14 30 00 00 00 88|next: 00:00:00:30 is not valid at any rate: the last frame is 29
hour 24||C 44 14 00 00 00 24 7C|next: 24:00:00:00 is not valid at any rate: the last hour is 23
minute 60||C 44 14 00 00 60 00 B8|next: 00:60:00:00 is not valid at any rate: the last minute is 59
second 60||C 44 14 00 60 00 00 B8|next: 00:00:60:00 is not valid at any rate: the last second is 59
a digit that is not decimal||C 44 14 0A 00 00 00 62|next: 00:00:00:0A is not valid at any rate: the frame 0A has a digit that is not decimal
flags are no part of the digits||C 44 14 E9 D9 80 C0 5A|next: 00:00:59:29 is not valid at --rate 25: the last frame is 24; yes with --rate 30 and --rate 29.97df
a time in a reply||C 61 0C 01 6E D 74 04 25 00 00 00 9D|next: 00:00:00:25 is not valid at --rate 25: the last frame is 24; yes with --rate 30 and --rate 29.97df
a time in a reply whose deck tells drop frame||DF61 DF62 DF63 C 61 0C 01 6E D 74 04 65 00 00 10 ED|next: 10:00:00:25 is not valid at --rate 25: the last frame is 24; yes with --rate 29.97df
a wrong preset, and the deck tells drop frame|--rate 29.97df|DF42 DF43 DF44 C 24 31 01 00 01 10 67|next: 10:01:00;01 is not valid at --rate 29.97df: drop frame leaves out frames 00 and 01 in second 00 of minute 01; no other frame rate fits
a dispute||C 61 20 01 82 D 71 20 00 91 C 44 14 00 00 00 10 68 D 10 01 11 C 60 10 70 D 74 10 00 00 00 11 95|next: yes with --hands
a dispute at one's own rate|--rate 24|C 61 20 01 82 D 71 20 00 91 C 44 14 00 00 00 10 68 D 10 01 11 C 60 10 70 D 74 10 00 00 00 11 95|next: yes with --hands
a dispute that nothing settles||C 61 20 01 82 D 71 20 00 91 C 61 20 11 92 D 71 20 3F D0|next: no frame rate, hand on the panel or sheet of the program explains it
the same, with --all behind a break|--all|C 20 01 21 D 10 01 11 D 10 01 11 C 61 20 01 82 D 71 20 00 91 C 61 20 11 92 D 71 20 3F D0|next: no frame rate, hand on the panel or sheet of the program explains it
an honest AUTO EDIT||AUTO|next: yes with --deck 9pin (AUTO EDIT at record 24)
an honest AUTO EDIT behind a break|--all|C 20 01 21 D 10 01 11 D 10 01 11 AUTO|next: record 74 keeps the rules with --deck 9pin (AUTO EDIT at record 33)
an honest AUTO EDIT behind a late reply|--all|C 20 01 21 +9688 D 10 01 11 AUTO|next: record 71 keeps the rules with --deck 9pin (AUTO EDIT at record 30)
an honest AUTO EDIT, and a sheet of one's own|--deck jog|AUTO|next: yes with --deck 9pin beside your own (AUTO EDIT at record 24)
an honest AUTO EDIT at another rate||C 44 14 29 59 00 00 DA D 10 01 11 AUTO|next: 00:00:59:29 is not valid at --rate 25: the last frame is 24; yes with --rate 30 --deck 9pin (AUTO EDIT at record 34)
points lost after an AUTO EDIT||C 61 20 01 82 D 71 20 00 91 C 44 14 00 00 00 10 68 D 10 01 11 AUTO C 61 20 31 B2 D 71 20 00 91|next: yes with --deck 9pin --deck edit (AUTO EDIT at record 42)
points lost after EJECT||C 61 20 01 82 D 71 20 00 91 C 44 14 00 00 00 10 68 D 10 01 11 C 20 0F 2F D 10 01 11 C 61 20 31 B2 D 71 20 01 92 C 61 20 31 B2 D 71 20 00 91|next: yes with --deck eject (EJECT at record 19)
JOG shown for VAR||JOGGED|next: yes with --deck jog (VAR FWD at record 24)
JOG shown for VAR, and a dispute that nothing settles||JOGGED C 61 20 11 92 D 71 20 3F D0|next: record 39 keeps the rules with --deck jog (VAR FWD at record 24); then record 47 breaks M1
a late reply||C 20 01 21 +9688 D 10|
a second reply||C 20 01 21 D 10 01 11 D 10 01 11|
an invalid time behind a late reply|--all|C 20 01 21 +9688 D 10 01 11 C 44 14 29 59 00 00 DA|next: 00:00:59:29 is not valid at --rate 25: the last frame is 24; record 13 keeps the rules with --rate 30 and --rate 29.97df
END

# More than 128 MiB are not kept, most of which are empty lines here. At P6 the first of them are enough.
empty_lines() { head -c 134217728 /dev/zero | tr '\0' '\n'; }
for words in '' --all; do
    # shellcheck disable=SC2086
    ask why $words < <(cat examples/disputed-in-point.csv && empty_lines)
    judge "a capture that is not kept, why $words" eval '[ "$status" = 1 ] &&
        [ "$(cat "$work/err")" = "next: ninecheck try asks at each frame rate, with a hand on the panel and with the sheets of the program" ]'
done
ask why < <(cat examples/drop-frame.csv && empty_lines)
judge 'a time before all that is not kept' grep -q '^next: 00:00:59:29 is not valid at --rate 25' "$work/err"

# The same of captures that are stored: with a sheet that does not fit, and of one whose sheets explain more than a hand.
while IFS='|' read -r words line; do
    # shellcheck disable=SC2086
    ask why $words
    judge "what to ask next, $words" eval '[ "$status" = 1 ] && [ "$(cat "$work/err")" = "$line" ]'
done <<'END'
--deck 9pin examples/lost-in-point.csv|next: yes without --deck
examples/rewind-at-the-end.csv|next: yes with --deck rewind (PLAY at record 9)
examples/auto-edit.csv|next: yes with --deck 9pin --deck edit (AUTO EDIT at record 35)
END

# What lies further back than is looked at first: a preset, 70,000 records of a poll, and another IN point.
polls=8750
smaller polls 300 'polls between a preset and another IN point'
{ records "$remote $preset"; records "$remote" "$polls" | tail -n +2 | awk -F, -v OFS=, '{ $1 += 100000; print }'; } > "$work/long.csv"
last=$(tail -n 1 "$work/long.csv" | cut -d , -f 1)
records 'C 60 10 70 D 74 10 00 00 00 11 95' | tail -n +2 | awk -F, -v OFS=, -v last="$last" '{ $1 += last + 20000; print }' >> "$work/long.csv"
ask why "$work/long.csv"
judge 'a cause that lies far back' eval '[ "$status" = 1 ] && [ "$(cat "$work/err")" = "next: yes with --hands" ]'

# Below the answers of `try` stands the same, and one rate alone: that of the signs.
capture_of "$auto"
ask try "$work/capture.csv"
judge 'try of an honest AUTO EDIT' eval '[ "$(cat "$work/err")" = "yes with --deck 9pin (AUTO EDIT at record 24)" ]'
capture_of 'C 61 0C 01 6E D 74 04 29 00 00 10 B1'
for rate in 25 24; do
    ask try --rate $rate "$work/capture.csv"
    judge "try of frame 29, --rate $rate" eval '[ "$(cat "$work/err")" = "yes with --rate 30 and --rate 29.97df" ]'
done

# Where there is nothing to ask next, or the words are wrong, nothing is added.
ask why examples/play.csv
expect 'why of a yes' 0 'yes: records 6, exchanges 1, open 0' ''
ask why examples/bad-byte.csv
expect 'why of a bad row' 3 '' "$(cat "$work/said")"
ask why --line-buffered examples/drop-frame.csv
judge 'why that is watched' [ "$status" = 1 -a ! -s "$work/err" ]
ask why --help
judge 'the help of why' eval '[ "$status" = 0 ] && grep -q -e --quiet "$work/out"'
for word in check run explain json 'json why' touches; do
    # shellcheck disable=SC2086
    ask $word --quiet examples/play.csv
    judge "$word takes no --quiet" [ "$status" = 2 ]
done

# Frame rates as people call them, with every word that takes one.
for word in check explain run why digest touches; do
    while IFS='|' read -r rate line; do
        ask $word --rate $rate examples/play.csv
        judge "$word --rate $rate" eval '[ "$status" = 2 ] && [ ! -s "$work/out" ] && [ "$(tail -n 1 "$work/err")" = "$line" ]'
        ask $word --rate=$rate examples/play.csv
        judge "$word --rate=$rate" eval '[ "$status" = 2 ] && [ "$(tail -n 1 "$work/err")" = "$line" ]'
    done <<'END'
29.97|for 29.97 frames a second ask with --rate 29.97df if it is drop frame, or with --rate 30 if it is not
23.976|for 23.976 frames a second ask with --rate 24
END
    ask $word --rate 50 examples/play.csv
    judge "$word at a rate that is none" eval '[ "$status" = 2 ] && ! grep -q "frames a second" "$work/err"'
done

tell_counts
