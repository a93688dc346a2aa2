#!/usr/bin/env bash
# Draws captures, and compares what the built program says of them with the plain deck of tests/lib/deck. The last line is
# 'N passed, M failed'.
set -u
cd "$(dirname "$0")/../.." || exit 1
. tests/lib/tools.sh
need_tools python3
. tests/lib/judge.sh
. tests/lib/program.sh
. tests/lib/drawing.sh

# How many captures are drawn, every second of them with hands, and every third of a deck with a sheet.
drawn=2400
smaller drawn 480 'drawn captures'

# What the program says of each capture of the list.
ask() {
    local number hands said deck words
    while read -r number hands said _; do
        deck=
        [ "$said" = - ] || deck="--deck $work/$number.toml"
        words="$deck"
        [ "$hands" = 0 ] || words="--hands $deck"
        echo "capture $number"
        # shellcheck disable=SC2086
        {
            echo '- check'
            "$program" check $deck "$work/$number.csv"
            echo '- check --hands'
            "$program" check --hands $deck "$work/$number.csv"
            echo '- why'
            "$program" why --quiet $words "$work/$number.csv"
            echo '- run'
            "$program" run $deck "$work/$number.csv"
            echo '- run --hands'
            "$program" run --hands $deck "$work/$number.csv"
            echo '- touches'
            [ "$hands" = 0 ] || "$program" touches $deck "$work/$number.csv"
        }
    done 2>&1
}

# compare RESULTS [WORDS...]: what the plain deck says to them.
compare() {
    python3 -B tests/judging/drawn.py "$work/list" "$@"
}

# is_refused HOW ALL [WORDS...]: the comparison, with these words, refuses all of the results that are wrong in this way, or none; they are
# ten at least of 2,400 captures.
is_refused() {
    local results=$work/spoilt/$1 all=$2 captures
    captures=$(grep -c '^capture ' "$results")
    compare "$results" "${@:3}" > "$results-compared"
    [ "$captures" -ge $((10 * drawn / 2400)) ] && grep -qx "captures $captures, refused $((all * captures))" "$results-compared"
}

# at_least LEAST LABEL N: of 2,400 captures that many were drawn.
at_least() {
    [ "$(sed -nE "s/^$2 without hands ([0-9]+), with hands ([0-9]+), .*/\\$3/p" "$work/compared")" -ge $(($1 * drawn / 2400)) ]
}

draw_captures $drawn "$work" --sheets > "$work/list"
# A processor asks of a part of them.
split -n "l/$(nproc)" "$work/list" "$work/part-"
for part in "$work"/part-*; do ask < "$part" > "$part.results" & done
wait
cat "$work"/part-*.results > "$work/results"
compare "$work/results" --fewest > "$work/compared"
cat "$work/compared"

# Each capture is a case.
refused=$(sed -n 's/^captures [0-9]*, refused //p' "$work/compared")
passed=$((drawn - ${refused:-$drawn}))
failed=${refused:-$drawn}
judge 'all were compared' grep -q "^captures $drawn, " "$work/compared"
judge 'captures without hands that are a no' at_least 500 'no run' 1
judge 'captures with hands that are a no' at_least 500 'no run' 2
judge 'captures without hands that are a yes' at_least 500 yes 1
judge 'captures with hands that are a yes' at_least 500 yes 2
compared=$(sed -n 's/^runs of a yes without hands, compared with those with hands: //p' "$work/compared")
judge 'captures that nobody has to touch' [ "${compared:-0}" -ge $((700 * drawn / 2400)) ]
by_itself='yes by what a deck does by itself'
judge 'captures without hands that are a yes by what a deck does by itself' at_least 80 "$by_itself" 1
judge 'captures with hands that are a yes by what a deck does by itself' at_least 60 "$by_itself" 2
touches=$(sed -n 's/^touches compared: \([0-9]*\),.*/\1/p' "$work/compared")
judge 'touches of a hand' [ "${touches:-0}" -ge $((100 * drawn / 2400)) ]

mkdir "$work/spoilt"
python3 -B tests/judging/spoiling.py "$work/list" "$work/results" "$work/spoilt"
for how in left-out added earlier shown register local says time record yes state other-run panel kept swapped; do
    judge "results that are wrong: $how" is_refused "$how" 1
done
judge 'runs with more moves of a hand than needed, where the fewest are wanted' is_refused hand 1 --fewest
judge 'the same, where any run will do' is_refused hand 0

tell_counts
