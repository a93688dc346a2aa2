#!/usr/bin/env bash
# Goes on after each break: draws captures, damages them, and compares what the built program writes with --all with what is composed
# of what it writes without, where late replies are told too; and looks at the statuses and the streams. The last line is
# 'N passed, M failed'.
set -u
cd "$(dirname "$0")/../.." || exit 1
. tests/lib/tools.sh
need_tools python3
. tests/lib/judge.sh
. tests/lib/errors.sh
. tests/lib/program.sh
. tests/lib/blocks.sh
. tests/lib/drawing.sh

# How many captures are drawn, every second of them with hands, and every fifth with a sheet of a deck that acts by itself; and how often
# the long ones have their exchange.
drawn=1000
smaller drawn 200 'drawn captures'
many=40000
smaller many 4000 'parts, and late replies'

# is_composed FILE STATUS: the last run wrote this, said nothing, and ended with this status.
is_composed() {
    [ "$status" = "$2" ] && cmp "$work/out" "$1" && [ ! -s "$work/err" ]
}

# ask LIST: what the program writes of each capture of the list, from its file and from standard input, with the words in another order,
# and its status: each below a line that tells its words.
ask() {
    local name hands deck words verb quiet
    while read -r name hands deck; do
        words=
        [ "$hands" = 0 ] || words=--hands
        [ "$deck" = - ] || words="${words:+$words }--deck $deck"
        for verb in check explain why; do
            quiet=
            [ "$verb" != why ] || quiet=--quiet
            echo "capture $name: $verb --all $words"
            # shellcheck disable=SC2086
            "$program" $verb $quiet --all $words "$work/$name.csv"
            echo "status $?"
            echo "capture $name: $verb $words --all from standard input"
            # shellcheck disable=SC2086
            "$program" $verb $words $quiet --all < "$work/$name.csv"
            echo "status $?"
        done
    done < "$1" 2>&1
}

# at_least LEAST FORM: of a thousand captures that many lines of what was composed have this form.
at_least() {
    [ "$(grep -cE "$2" "$work/composed")" -ge $((($1 * drawn + 999) / 1000)) ]
}

draw_captures $drawn "$work" > "$work/list"
damage_captures $drawn "$work"
# At the beginning of each part all may be going on that the sheet names.
printf '%s\n' '[loses]' '"20 0F" = "points"' '"20 40" = "registers"' '[runs]' '"20 01" = ["JOG"]' '"20 40" = ["REC", "SHUTTLE"]' > "$work/acting.toml"
while read -r number hands _; do
    deck=-
    [ $((number % 5)) != 0 ] || deck=$work/acting.toml
    echo "$number-damaged $hands $deck"
done < "$work/list" > "$work/damaged"
# A processor has a part of them.
split -n "r/$(nproc)" "$work/damaged" "$work/part-"
for part in "$work"/part-*; do
    mkdir "$part.d"
    {
        python3 -B tests/judging/composing.py "$program" "$work" "$part.d" "$part" "$part.want" > "$part.composed"
        ask "$part" > "$part.came"
    } &
done
wait
for kind in composed came want; do cat "$work"/part-*."$kind" > "$work/$kind"; done
judge_all 'the captures' python3 -B tests/judging/asked.py "$work/want" "$work/came"

# What was drawn has what is to be seen.
for reason in P1 P2 P3 L2 P4 L1 B3 B1 B2 P6 P5 P7 M1; do
    judge "breaks by $reason" at_least 15 "^[^ ]* $reason$"
done
judge 'late replies' at_least 300 ' L1$'
judge 'parts with two late replies and more' at_least 60 ' late ([2-9]|[1-9][0-9]+), then '
judge 'late replies, and the part goes on to the end' at_least 30 ' late [0-9]+, then none$'
for reason in P2 P4 B1 P7; do
    judge "late replies, and the part ends by $reason" at_least 5 " late [0-9]+, then $reason$"
done
judge 'late replies, and no run remains' at_least 50 ' late [0-9]+, then M1$'
judge 'captures of one part' at_least 10 ' of 1 parts'
judge 'captures of two parts' at_least 50 ' of 2 parts'
judge 'captures of five parts and more' at_least 50 ' of ([5-9]|[1-9][0-9]+) parts'
judge 'captures of which nothing is passed over' at_least 10 'passed over 0$'

# PLAY and two acknowledgements, many times: a part each, of which nothing is kept. The program has 64 MB.
records "$second_reply" "$many" > "$work/many.csv"
{
    for ((k = 0; k < many; k++)); do echo "no at record $((9 * k + 7)): P1 reply without a command"; done
    echo "breaks $many: records $((9 * many)), exchanges $many, passed over $((3 * many)), open 0"
} > "$work/want"
bounded 65536 "$program" check --all < "$work/many.csv" > "$work/out" 2> "$work/err"
status=$?
judge 'many parts' is_composed "$work/want" 1
bounded 65536 "$program" why --all < "$work/many.csv" > "$work/out" 2> "$work/err"
status=$?
grep -E '^(no|breaks) ' "$work/out" > "$work/breaks"
mv "$work/breaks" "$work/out"
judge 'why of many parts' is_composed "$work/want" 1

# PLAY and a late acknowledgement, many times: one part. To say why it breaks its exchanges are kept.
records 'C 20 01 21 +9400 D 10 01 11' "$many" > "$work/late.csv"
{
    for ((k = 0; k < many; k++)); do echo "no at record $((6 * k + 4)): L1 late reply"; done
    echo "breaks $many: records $((6 * many)), exchanges $many, passed over 0, open 0"
} > "$work/want"
run check --all "$work/late.csv"
judge 'many late replies' is_composed "$work/want" 1
run why --all "$work/late.csv"
grep -E '^(no|breaks) ' "$work/out" > "$work/breaks"
mv "$work/breaks" "$work/out"
judge 'why of many late replies' is_composed "$work/want" 1

# A row that can't be read, among records that are passed over and in the last part; and streams that fail. `second` breaks twice.
second=$work/second.csv
records "$second_reply $play D 10" > "$second"
{
    cat examples/second-reply.csv
    echo '4000,D,1G'
} > "$work/bad.csv"
broken='no at record 7: P1 reply without a command'
run check --all "$work/bad.csv"
judge 'a bad row that is passed over' is_text 3 "$broken" "$(both_lines 'unreadable at row 10: byte' 1G "$work/bad.csv")"
run check --all "$second"
judge 'two breaks' is_text 1 "$broken
no at record 16: P1 reply without a command
breaks 2: records 16, exchanges 2, passed over 4, open 0" ''
(cat "$second"; echo 'no row') | "$program" check --all > "$work/out" 2> "$work/err"
status=$?
judge 'a bad row after the last break' is_text 3 "$broken
no at record 16: P1 reply without a command" "$(both_lines 'unreadable at row 17: fields')"
run check --all "$work/absent.csv"
judge 'an absent file' is_text 4 '' "cannot open
$work/absent.csv: No such file or directory"
run explain --all .
judge 'a directory' is_text 4 '' 'read fault at row 0
.: Is a directory'
for verb in check explain why; do
    "$program" $verb --all "$second" >&- 2> "$work/err"
    status=$?
    : > "$work/out"
    judge "a closed output, $verb" is_text 4 '' "$(both_lines 'write fault')"
done
run run --all "$second"
judge 'run has no --all' [ "$status" = 2 -a ! -s "$work/out" ]

tell_counts
