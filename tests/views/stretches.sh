#!/usr/bin/env bash
# A page of a stretch of a capture that breaks a rule never says that the capture keeps the rules, wherever the stretch lies: of drawn
# captures with faults, each page as a person reads it in chromium. stretches.sh [PAGES]: the gate takes 20. The last line is 'N passed, M
# failed'.
set -u
cd "$(dirname "$0")/../.." || exit 1
. tests/lib/tools.sh
need_tools node=nodejs chromium python3
. tests/lib/judge.sh
. tests/lib/program.sh
. tests/lib/drawing.sh

pages=${1:-20}

# Every fourth capture or so has no fault, or with other words none.
draw_captures $((pages * 2)) "$work" > /dev/null
damage_captures $((pages * 2)) "$work"
for ((k = 1; k <= pages * 2; k++)); do echo "$work/$k-damaged.csv"; done > "$work/captures"
python3 -B tests/views/stretches.py < "$work/captures" > "$work/drawn"

# make_page CAPTURE WORDS STRETCH: the page, where the capture breaks a rule when it is judged with these words.
made=0
make_page() {
    local totals
    # shellcheck disable=SC2086
    totals=$("$program" check --all $2 "$1" | tail -n 1)
    [[ $totals =~ ^'breaks '([1-9][0-9]*): ]] || return
    made=$((made + 1))
    # shellcheck disable=SC2086
    "$program" page $2 $3 "$1" > "$work/$made.html" 2> "$work/err"
    status=$?
    judge "the page of $2 $3 $1" [ "$status" = 1 ]
    echo "$made ${BASH_REMATCH[1]} $2 $3" >> "$work/asked"
}

while IFS='|' read -r capture words stretch && [ $made -lt "$pages" ]; do
    make_page "$capture" "$words" "$stretch"
done < "$work/drawn"
judge "pages of captures that break: $made" [ "$made" = "$pages" ]
judge_all 'the pages in chromium' node tests/views/stretches.js "$work"

tell_counts
