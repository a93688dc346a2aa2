#!/usr/bin/env bash
# Measures the exchanges that a Tracker<SpanSet> takes against the same exchanges on a plain Rust set of states.
# Proves and builds the Rattle side in a workspace of its own, over what earlier checks of the crates kept; from
# nothing that takes some ten minutes. Each line: what is measured, nanoseconds an exchange in Rattle, in Rust, and
# their ratio, each the best of five runs in turn.
set -eu
cd "$(dirname "$0")/../.."
work=$(mktemp -d)
trap 'rm -rf "$work"' EXIT
. tests/lib/workspace.sh
build_over 'tc25 sets25 capture9 block9 deck9 track9' track9_exchanges bench/tracker/rattle/main.rattle
rustc --edition 2024 -O -o "$work/rust" bench/tracker/rust/main.rs
for _ in 1 2 3 4 5; do
    "$program" > "$work/rattle.txt"
    "$work/rust" > "$work/rust.txt"
    paste -d ' ' "$work/rattle.txt" "$work/rust.txt"
done | awk '
    $1 != $4 || $3 != $6 { print "the two sides differ: " $0; bad = 1; exit }
    !($1 in rattle) { order[++count] = $1; rattle[$1] = $2; rust[$1] = $5 }
    $2 < rattle[$1] { rattle[$1] = $2 }
    $5 < rust[$1] { rust[$1] = $5 }
    END {
        if (bad) exit 1
        for (place = 1; place <= count; place++) {
            name = order[place]
            calls = name == "presets-in-local" ? 10000 : 1000000
            printf "%-20s %8.1f %8.1f  %5.2f\n", name, rattle[name] / calls, rust[name] / calls, rattle[name] / rust[name]
        }
    }'
