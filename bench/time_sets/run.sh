#!/usr/bin/env bash
# Measures the calls of a SpanSet against the same calls on a plain Rust Vec<(u32, u32)>.
# Proves and builds the Rattle side in a workspace of its own, which takes a few minutes.
# Each line: spans, call, nanoseconds a call in Rattle, in Rust, and their ratio.
set -eu
cd "$(dirname "$0")/../.."
work=$(mktemp -d)
trap 'rm -rf "$work"' EXIT
. tests/lib/workspace.sh
build_over 'tc25 sets25' sets25_calls bench/time_sets/rattle/main.rattle
rustc --edition 2024 -O -o "$work/rust" bench/time_sets/rust/main.rs
"$program" > "$work/rattle.txt"
"$work/rust" > "$work/rust.txt"
paste -d ' ' "$work/rattle.txt" "$work/rust.txt" | awk '
    $1 != $5 || $2 != $6 || $4 != $8 { print "the two sides differ: " $0; bad = 1; next }
    { calls = $1 == 400000 ? 10000 : 100000
      printf "%6d  %-16s %10.1f %10.1f  %5.2f\n", $1, $2, $3 / calls, $7 / calls, $3 / $7 }
    END { exit bad }'
