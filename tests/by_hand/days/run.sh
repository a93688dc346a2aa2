#!/usr/bin/env bash
# Walks the day of each frame rate by a plain counter, label by label, beside the calls of a TimeCode, and reads all 100,000,000
# codes of eight decimal digits at each: as many of those without a flag are read as the day has frames, and a flag changes
# nothing. Run by hand: it proves and builds a program of its own. The last line is 'N passed, M failed'.
set -u
cd "$(dirname "$0")/../../.." || exit 1
. tests/lib/judge.sh
. tests/lib/workspace.sh

build_over tc25 tc25_days tests/by_hand/days/main.rattle
"$program" > "$work/out" || echo "the program ended with status $?"

# Each rate, how many labels its day has, and how many codes are read.
while read -r row; do
    judge "at $row" grep -qxF "$row" "$work/out"
done <<'ROWS'
24 2073600 2073600
25 2160000 2160000
30 2592000 2592000
29.97df 2589408 2589408
ROWS

tell_counts
