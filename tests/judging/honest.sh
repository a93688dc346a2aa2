#!/usr/bin/env bash
# Draws sessions with an honest deck that runs edits by itself, and loses its points some time after EJECT; and each of them with one
# reply that no such deck gives. With a sheet that says so the former are a yes, and the latter a no at that reply. honest.sh [SESSIONS].
# The last line is 'N passed, M failed'.
set -u
cd "$(dirname "$0")/../.." || exit 1
. tests/lib/tools.sh
need_tools python3
. tests/lib/judge.sh
. tests/lib/program.sh

# How many sessions are drawn.
sessions=${1:-200}
[ $# -gt 0 ] || smaller sessions 40 'drawn sessions'

# What the deck does by itself: an edit cues, plays and stops, and AUTO EDIT records besides; IN and OUT are lost after EJECT.
cat > "$work/honest.toml" <<'END'
[forgets]
"20 40" = "nothing"
"20 41" = "nothing"
"20 42" = "nothing"
"20 43" = "nothing"
[runs]
"20 40" = ["CUED", "JOG", "PLAY", "SHUTTLE"]         # PREVIEW
"20 41" = ["CUED", "JOG", "PLAY", "SHUTTLE"]         # REVIEW
"20 42" = ["CUED", "JOG", "PLAY", "REC", "SHUTTLE"]  # AUTO EDIT
"20 43" = ["CUED", "JOG", "PLAY", "SHUTTLE"]         # OUTPOINT PREVIEW
[loses]
"20 0F" = "points"                                   # EJECT
END
sed '/^\[runs\]/,$d' "$work/honest.toml" > "$work/resting.toml"

# ask: what the program says of each session of a list, by the sheet and by one without what the deck does by itself.
ask() {
    local name
    while read -r name _; do
        echo "$name $("$program" check --deck "$work/honest.toml" "$work/$name.csv" 2>&1)"
        echo "$name $("$program" check --deck "$work/resting.toml" "$work/$name.csv" 2>&1)" >&3
    done
}

python3 -B tests/judging/honest.py "$sessions" "$work" > "$work/list"
# A processor asks of a part of them.
split -n "l/$(nproc)" "$work/list" "$work/part-"
for part in "$work"/part-*; do ask < "$part" > "$part.said" 3> "$part.rested" & done
wait
cat "$work"/part-*.said > "$work/said"
cat "$work"/part-*.rested > "$work/rested"
judge 'sessions' [ "$(wc -l < "$work/list")" = $((4 * sessions)) ]
while IFS='|' read -r want said; do
    judge "session $want, came: $said" [ "$said" = "$want" ]
done < <(paste -d '|' "$work/list" "$work/said")
# A deck that does nothing by itself gives none of them.
judge 'a deck that does nothing by itself' eval '! grep -q "^[0-9]* yes" "$work/rested"'

tell_counts
