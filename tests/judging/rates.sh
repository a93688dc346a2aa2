#!/usr/bin/env bash
# Runs the built program with `--rate` in every place of the command line, and with words that are no rate. What each rate makes of
# a capture is in tests/cases/rates.txt. The last line is 'N passed, M failed'.
set -u
cd "$(dirname "$0")/../.." || exit 1
. tests/lib/judge.sh
. tests/lib/program.sh

# is_refused: the words were refused, and the four rates are listed.
is_refused() {
    local rate
    [ "$status" = 2 ] && [ ! -s "$work/out" ] || return 1
    for rate in 24 25 30 29.97df; do
        grep -qwF -- "$rate" "$work/err" || return 1
    done
}

# The example, at each rate.
file=examples/drop-frame.csv
invalid='no at record 15: P6 invalid time in a command'
yes='yes: records 34, exchanges 4, open 0'
for verb in check explain run why; do
    run $verb $file
    judge "$verb without a rate" has_verdict 1 "$invalid"
    for rate in 24 25; do
        run $verb --rate $rate $file
        judge "$verb at $rate" has_verdict 1 "$invalid"
    done
    run $verb --rate 30 $file
    judge "$verb at 30" has_verdict 1 'no at record 34: M1 no run remains'
    for words in "--rate 29.97df $file" "$file --rate 29.97df" "--rate=29.97df $file" '--rate 29.97df' "--hands --rate 29.97df $file" \
        "--rate 29.97df $file --hands"; do
        # shellcheck disable=SC2086
        run $verb $words < $file
        judge "$verb $words" has_verdict 0 "$yes"
    done
done

# Words that are no rate, and a rate where there can be none.
for verb in check explain run why; do
    for rate in 23 29 29.97 30df 29.97DF 29.97ndf 60 NTSC ''; do
        run $verb --rate "$rate" $file
        judge "$verb at '$rate'" is_refused
    done
    run $verb --rate
    judge "$verb and no rate" [ "$status" = 2 -a ! -s "$work/out" ]
    run $verb --rate 30 --rate 30 $file
    judge "$verb and two rates" [ "$status" = 2 -a ! -s "$work/out" ]
done
run --rate 30 check $file
judge 'a rate before the subcommand' [ "$status" = 2 -a ! -s "$work/out" ]

tell_counts
