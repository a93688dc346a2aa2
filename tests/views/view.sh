#!/usr/bin/env bash
# Runs what the program makes of a capture, digest, delays, motion and json, and its clock: the examples with the whole of what they
# write, long captures that are made here, objects as other programs read them, statuses and streams. tests/cases/ has the small
# captures. The last line is 'N passed, M failed'.
set -u
cd "$(dirname "$0")/../.." || exit 1
. tests/lib/tools.sh
need_tools python3 jq
. tests/lib/judge.sh
. tests/lib/errors.sh
. tests/lib/program.sh
. tests/lib/blocks.sh
. tests/lib/closed.sh

# writes STATUS FILE: the last run ended so, and wrote this text and nothing else.
writes() {
    [ "$status" = "$1" ] && cmp "$work/out" "$2" && [ ! -s "$work/err" ]
}

# ---- The examples, from a file and from standard input. The status is that of the report that is asked for.

while IFS='|' read -r words capture want; do
    case $words in '#'*) continue ;; esac
    case $words in *--all*) report='check --all' ;; *) report=check ;; esac
    case $words in *--hands*) report="$report --hands" ;; *--rate*) report="$report --rate 29.97df" ;; esac
    # shellcheck disable=SC2086
    "$program" $report "examples/views/$capture" > /dev/null
    want_status=$?
    # shellcheck disable=SC2086
    run $words "examples/views/$capture" < /dev/null
    judge "$words $capture" writes "$want_status" "examples/views/$want"
    # shellcheck disable=SC2086
    run $words --line-buffered < "examples/views/$capture"
    case $words in
        'json run'*) judge "$words takes no --line-buffered" [ "$status" = 2 ] ;;
        *) judge "$words < $capture" writes "$want_status" "examples/views/$want" ;;
    esac
done < examples/views/ANSWERS

# ---- Objects, as other programs read them: jq and Python.

judge_all 'objects that Python reads' python3 -B tests/views/json_lines.py "$program" "$work/objects"
jq -c . "$work/objects" > "$work/out" 2> "$work/err"
judge 'jq reads each object as it stands' cmp "$work/out" "$work/objects"

# Names of a sheet that JSON escapes.
printf '[names]\n"20 61" = "\\"EE\\" \\\\ ON <&> \\u00e4"\n' > "$work/sheet.toml"
capture_of "C 20 61 81 $ack"
run json --deck "$work/sheet.toml" "$work/capture.csv"
if [ "$status" = 0 ]; then
    judge 'a name with quotes' [ "$(jq -r 'select(.command).command' "$work/out")" = '"EE" \ ON <&> ä' ]
else
    judge 'a name that no sheet has' grep -q '^unreadable deck sheet' "$work/err"
fi

# ---- Captures that are too long for a table.

# Two hundred replies to PLAY after 1 to 200 microseconds, in no order, and one to STOP after 700.
capture_of "$(for ((k = 1; k <= 200; k++)); do echo "C 20 01 21 D +$((k * 77 % 201)) 10 01 11"; done) C 20 00 20 D +700 10 01 11"
run delays "$work/capture.csv"
head -n 4 "$work/out" > "$work/read"
printf '%s\n' 'replies  least middle   99th greatest  command' '    200      1    100    198      200  PLAY' \
    '      1    700    700    700      700  STOP' '    201      1    101    199      700  all' > "$work/want"
judge 'the 99th of a hundred' cmp "$work/read" "$work/want"

# 103 late replies, each delay once and in no order.
capture_of "$(for ((k = 0; k < 103; k++)); do echo "C 20 01 21 D +$((9288 + k * 37 % 103)) 10 01 11"; done)"
{
    printf '%s\n' 'replies  least middle   99th greatest  command' '    103   9288   9339   9389     9390  PLAY' \
        '    103   9288   9339   9389     9390  all'
    for ((k = 0; k <= 9000; k += 500)); do printf '%4d to %4d | 0\n' $k $((k < 9000 ? k + 499 : 9287)); done
    echo '  limit 9287 |--------------------------------------------------'
    for ((k = 0; k < 100; k++)); do
        echo "        $((9288 + k * 37 % 103)) |late reply at record $((6 * k + 4)), $((1 + k * 37 % 103)) above the limit"
    done
    echo '         ... |and 3 late replies more'
    echo 'breaks 103: records 618, exchanges 103, passed over 0, open 0'
} > "$work/want"
run delays --all "$work/capture.csv"
judge 'more late replies than are listed' writes 1 "$work/want"

# 102 times STOP, of a deck that shows PLAY: a turn has 15 records, 605,600 microseconds.
records "C 20 00 20 $ack C +600000 61 20 12 93 D 72 20 01 00 93" 102 > "$work/capture.csv"
for ((k = 0; k < 102; k++)); do
    printf 'record %d, %d.%06d s: STOP: STOP not shown, 1 status over 0.603200 s (PLAY 1)\n' \
        $((15 * k + 6)) $(((605600 * k + 2400) / 1000000)) $(((605600 * k + 2400) % 1000000))
done > "$work/lines"
{
    echo 'what the deck did after each transport command that it acknowledged; nothing is judged, a deck may take any time'
    cat "$work/lines"
    printf '%s\n' 'commands  shown  never    slowest s  at record  command' '     102      0    102            -          -  STOP' \
        'worth looking at: 102'
    head -n 100 "$work/lines" | sed 's/^/    /'
    printf '%s\n' '    ... and 2 more' 'yes: records 1530, exchanges 204, open 0'
} > "$work/want"
run motion "$work/capture.csv"
judge 'more to look at than is listed' writes 0 "$work/want"

# ---- The clock of texts that a table can't have.

while IFS='|' read -r name text want; do
    # shellcheck disable=SC2059
    printf "$text" > "$work/in"
    # shellcheck disable=SC2059
    printf "$want" > "$work/want"
    run clock < "$work/in"
    judge "the clock of $name" writes 0 "$work/want"
    run clock "$work/in"
    judge "the clock of $name in a file" writes 0 "$work/want"
done <<'END'
the end of a line, CRLF|it broke at 400\r\nit broke at 400:\r\nit broke at 400\n|it broke at 00:00:00.000400\r\nit broke at 00:00:00.000400:\r\nit broke at 00:00:00.000400\n
a last line without a line feed|record 1 at 400: D 10\nrecord 2 at 800: D 10|record 1 at 00:00:00.000400: D 10\nrecord 2 at 00:00:00.000800: D 10
a last line that ends with a time|it broke at 400|it broke at 00:00:00.000400
nothing||
bytes that are no text|\377\200 at 400: \001\n|\377\200 at 00:00:00.000400: \001\n
END
"$program" why --quiet examples/disputed-in-point.csv > "$work/in"
sed 's/ at 400:/ at 00:00:00.000400:/; s/ at 3600:/ at 00:00:00.003600:/; s/ at 7600:/ at 00:00:00.007600:/' "$work/in" > "$work/want"
run clock < "$work/in"
judge 'the clock of why' writes 0 "$work/want"
head -c 300000 /dev/zero | tr '\0' x > "$work/in"
run clock < "$work/in"
judge 'a long line' writes 0 "$work/in"

# ---- What stands before a bad row stays, and the status is that of the row.

sed 's/^11[0-9]*,.*/bad/' examples/views/session.csv > "$work/capture.csv"
for words in digest 'digest --all' motion json delays 'json check' 'json run' 'json why'; do
    # shellcheck disable=SC2086
    "$program" explain "$work/capture.csv" > /dev/null 2> "$work/want_err"
    # shellcheck disable=SC2086
    run $words "$work/capture.csv"
    judge "$words of a bad row" eval '[ "$status" = 3 ] && cmp "$work/err" "$work/want_err"'
    case $words in
        digest*) judge "$words, before a bad row" [ "$(head -n 1 "$work/out")" = "$(head -n 1 examples/views/session-digest.txt)" ] ;;
        json) judge "$words, before a bad row" [ "$(jq -r .record "$work/out" | head -n 1)" = 8 ] ;;
        motion) ;;
        *) judge "$words, nothing before a bad row" [ ! -s "$work/out" ] ;;
    esac
done

# ---- Streams.

memory=262144
smaller memory 24576 'kilobytes of memory for a row without end'
for words in digest delays motion json 'json check' 'json run' 'json why' clock info try; do
    # shellcheck disable=SC2086
    "$program" $words examples/play.csv > /dev/full 2> "$work/err"
    status=$?
    : > "$work/out"
    judge "$words: a full device" eval '[ "$status" = 4 ] && [ "$(head -n 1 "$work/err")" = "write fault" ]'
    # shellcheck disable=SC2086
    "$program" $words examples/play.csv >&- 2> "$work/err"
    status=$?
    judge "$words: standard output is closed" eval '[ "$status" = 4 ] && [ "$(head -n 1 "$work/err")" = "write fault" ]'
    cp examples/play.csv "$work/in"
    # shellcheck disable=SC2086
    into_closed "$program" $words
    judge "$words: a reader that has gone" eval '[ "$status" = 4 ] && [ ! -s "$work/err" ]'
    # shellcheck disable=SC2086
    run $words "$work/none"
    judge "$words: no such file" is_text 4 '' "cannot open
$work/none: No such file or directory"
    # shellcheck disable=SC2086
    run $words examples
    judge "$words: a directory" eval '[ "$status" = 4 ] && [ ! -s "$work/out" ] && grep -q "^examples: Is a directory$" "$work/err"'
    # shellcheck disable=SC2086
    TMPDIR=$work/none run $words examples/play.csv
    judge "$words: no folder for temporary files" eval '[ "$status" = 0 ] && [ -s "$work/out" ] && [ ! -s "$work/err" ]'
    # shellcheck disable=SC2086
    run $words --quux
    judge "$words: an unknown option" eval '[ "$status" = 2 ] && [ ! -s "$work/out" ] && grep -qxF "Usage: ninecheck '"$words"' [OPTIONS] [FILE]" "$work/err"'
    # shellcheck disable=SC2086
    run $words examples/play.csv examples/play.csv
    judge "$words: two files" eval '[ "$status" = 2 ] && grep -qF "unexpected argument" "$work/err"'
    # shellcheck disable=SC2086
    bounded "$memory" "$program" $words < /dev/zero > "$work/out" 2> "$work/err"
    status=$?
    case $words in
        'json run' | 'json why') kept=exchanges ;;
        try) kept=capture ;;
        clock) kept=line ;;
        *) kept= ;;
    esac
    judge "$words: a row without end" is_out_of_memory $kept
done
records "$play" 40000 > "$work/long.csv"
for word in digest json; do judge_closed_pipe $word "$work/long.csv"; done

# ---- The script: names that a shell might take for something else, a missing TMPDIR, and statuses as they are.

mkdir "$work/odd"
for name in 'a night.csv' '-x.csv' 'rate=30' 'a\tb.csv' "it's.csv" 'ä.csv' $'a\nb.csv' why; do
    cp examples/views/session.csv "$work/odd/$name"
    (cd "$work/odd" && TMPDIR=$work/none "$OLDPWD/ninecheck" digest -- "$name") > "$work/out" 2> "$work/err"
    status=$?
    judge "a capture called $name" writes 1 examples/views/session-digest.txt
done
mkfifo "$work/odd/pipe"
cat examples/views/session.csv > "$work/odd/pipe" &
writer=$!
./ninecheck digest "$work/odd/pipe" > "$work/out" 2> "$work/err"
status=$?
kill "$writer" 2> /dev/null
judge 'a capture that comes only once' writes 1 examples/views/session-digest.txt
./ninecheck json -- why > "$work/out" 2> "$work/err"
judge 'a file that is called like a report is not there' [ $? = 4 ]

tell_counts
