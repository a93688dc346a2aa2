#!/usr/bin/env bash
# Draws the examples that break a rule and drawn captures, and looks at what stands where: `picture.py` reads the pictures, and has
# the picture of each reason rendered. Here are the streams, and what people ask the script. The last line is 'N passed, M failed'.
set -u
cd "$(dirname "$0")/../.." || exit 1
. tests/lib/tools.sh
need_tools python3 rsvg-convert=librsvg2-bin
. tests/lib/judge.sh
. tests/lib/errors.sh
. tests/lib/program.sh
. tests/lib/closed.sh

judge_all 'what stands where' python3 -B tests/views/picture.py

# Streams that fail, at the picture of a record and at that of a contradiction.
for capture in examples/late-reply.csv examples/disputed-in-point.csv; do
    "$program" picture "$capture" > /dev/full 2> "$work/err"
    status=$?
    : > "$work/out"
    expect "$capture on a full device" 4 '' "$(both_lines 'write fault')"
    "$program" picture "$capture" >&- 2> "$work/err"
    status=$?
    expect "$capture, standard output is closed" 4 '' "$(both_lines 'write fault')"
    cp "$capture" "$work/in"
    into_closed "$program" picture
    expect "$capture, a reader that has gone" 4 '' ''
    into_closed ./ninecheck picture
    expect "$capture, a reader of the script that has gone" 4 '' ''
done
run picture < .
expect 'a directory as input' 4 '' "read fault
the text can't be read to its end"
run picture < /dev/null
expect 'an empty device' 3 '' "$(both_lines 'unreadable at row 0: header')"
memory=262144
smaller memory 24576 'kilobytes of memory for a row without end'
bounded "$memory" "$program" picture < /dev/zero > "$work/out" 2> "$work/err"
status=$?
judge 'a row without end' is_out_of_memory capture
TMPDIR=$work/none run picture examples/late-reply.csv
judge 'no folder for temporary files' eval '[ "$status" = 1 ] && cmp "$work/out" docs/pictures/late-reply.svg && [ ! -s "$work/err" ]'

# The script hands its words on, and says below what the program says how to ask at a frame rate that has another name.
./ninecheck picture --width=700 --hands -- examples/late-reply.csv > "$work/out" 2> "$work/err"
status=$?
"$program" picture --width 700 --hands examples/late-reply.csv > "$work/want"
judge 'the script' eval '[ "$status" = 1 ] && cmp "$work/out" "$work/want" && [ ! -s "$work/err" ]'
./ninecheck picture --rate 23.976 examples/late-reply.csv > "$work/out" 2> "$work/err"
status=$?
judge 'a rate that has another name' eval '[ "$status" = 2 ] && [ ! -s "$work/out" ] &&
    [ "$(tail -n 1 "$work/err")" = "for 23.976 frames a second ask with --rate 24" ]'

tell_counts
