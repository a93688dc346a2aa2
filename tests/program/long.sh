#!/usr/bin/env bash
# Judges captures of more than 4,000,000 rows: with --all to their end, and else to the row that is one too many; and cuts one into
# parts. The last line is 'N passed, M failed'.
set -u
cd "$(dirname "$0")/../.." || exit 1
. tests/lib/judge.sh
. tests/lib/errors.sh
. tests/lib/program.sh
. tests/lib/blocks.sh

# told RECORD: PLAY and its acknowledgement, where nothing is known of the deck: it may be in local, and have ignored it.
told() {
    echo "record $1: PLAY -> ACK, delay 400, goal unknown, shown unknown, in unknown, out unknown, local unknown, ain unknown, aout unknown"
}

# is_refused LINES: the last run ended at the row that is one too many, after so many lines.
is_refused() {
    printf '%s\n' 'unreadable at row 4000001: too many rows' \
        "$work/long.csv: expected at most 4000000 rows; --all judges a longer capture" > "$work/want"
    [ "$status" = 3 ] && has_lines "$1" && cmp -s "$work/err" "$work/want"
}

# ends_so STATUS LINE...: the last run ended with this status and these lines, and said nothing.
ends_so() {
    printf '%s\n' "${@:2}" > "$work/want"
    [ "$status" = "$1" ] && tail -n $(($# - 1)) "$work/out" | cmp -s - "$work/want" && [ ! -s "$work/err" ]
}

# 4,000,001 rows: 666,666 exchanges of six, and five of the next. On a trial there are fewer, and so no row is one too many.
exchanges=666667
smaller exchanges 2000 'exchanges'
rows=$((6 * exchanges))
records "$play" "$exchanges" > "$work/whole.csv"
head -n "$rows" "$work/whole.csv" > "$work/long.csv"
if ! needs_make 'the row that is one too many'; then
    run check < <(head -n 4000001 "$work/long.csv")
    expect 'as many rows as may be' 0 'yes: records 4000000, exchanges 666666, open 4' ''
    for words in check run why; do
        run $words "$work/long.csv"
        judge "$words of a row too many" is_refused 0
    done
    run explain "$work/long.csv"
    judge 'explain of a row too many' is_refused 666666
    judge 'explain of a row too many, the last line' [ "$(tail -n 1 "$work/out")" = "$(told 3999996)" ]
    run check --sync "$work/long.csv"
    judge 'check --sync of a row too many' is_refused 0
fi
totals="breaks 0: records $((rows - 1)), exchanges $((exchanges - 1)), passed over 0, open 5"
# The program has 64 MB, so it keeps nothing of what it has judged.
bounded 65536 "$program" check --all < "$work/long.csv" > "$work/out" 2> "$work/err"
status=$?
expect 'check --all' 0 "$totals" ''
run explain --all "$work/long.csv"
judge 'explain --all, the lines' has_lines "$exchanges"
judge 'explain --all, the last two' ends_so 0 "$(told $((rows - 6)))" "$totals"
run why --all "$work/long.csv"
expect 'why --all' 0 "$totals" ''
run check --sync --all "$work/long.csv"
expect 'check --sync --all' 0 "breaks 0: records $((rows - 1)), exchanges $((exchanges - 2)), passed over 6, open 5" ''

# Its parts: the last byte but one begins an exchange.
if ! needs_make 'parts of a long capture'; then
    (cd "$work" && "$program" split --to part long.csv) > "$work/out" 2> "$work/err"
    status=$?
    expect 'split' 0 'part-001.csv
part-002.csv' ''
    run check "$work/part-001.csv"
    expect 'its first part' 0 'yes: records 3999996, exchanges 666666, open 0' ''
    run check "$work/part-002.csv"
    expect 'its second part' 0 'yes: records 5, exchanges 0, open 5' ''
    judge 'its parts have all rows' eval '{ cat "$work/part-001.csv" && tail -n +2 "$work/part-002.csv"; } | cmp -s - "$work/long.csv"'
    rm "$work"/part-*.csv
fi

# The last exchange whole, and then a second reply; then a row that can't be read.
echo "$((400 * (rows + 1))),D,10" >> "$work/whole.csv"
broken="no at record $((rows + 1)): P1 reply without a command"
totals="breaks 1: records $((rows + 1)), exchanges $exchanges, passed over 1, open 0"
run check --all "$work/whole.csv"
expect 'check --all, a break behind so many rows' 1 "$broken
$totals" ''
run explain --all "$work/whole.csv"
judge 'explain --all, a break behind so many rows' ends_so 1 "$(told "$rows")" "$broken" "$totals"
run why --all "$work/whole.csv"
expect 'why --all, a break behind so many rows' 1 "records $((rows - 5)) to $rows at $((400 * (rows - 5))): PLAY 20 01 21 -> 10 01 11
record $((rows + 1)) at $((400 * (rows + 1))): D 10, 400 after the record before
$broken
$totals" ''
echo "$((400 * (rows + 2))),C" >> "$work/whole.csv"
run check --all "$work/whole.csv"
expect 'check --all, a bad row behind so many others' 3 "$broken" "$(both_lines "unreadable at row $((rows + 2)): fields" '' "$work/whole.csv")"

tell_counts
