#!/usr/bin/env bash
# Runs each command line that the program prints as advice, or puts on a page, over the examples and drawn captures, and looks whether it
# gives what is said of it. The last line is 'N passed, M failed'.
set -u
cd "$(dirname "$0")/../.." || exit 1
. tests/lib/tools.sh
need_tools python3
. tests/lib/judge.sh
. tests/lib/program.sh
. tests/lib/blocks.sh

captures=$work/captures
mkdir "$captures"
cp examples/*.csv examples/eject.toml "$captures"
for capture in examples/views/*.csv; do cp "$capture" "$captures/view-${capture##*/}"; done
# Faults of which it is known who is to blame; and those of a tap, at length.
python3 -B tests/judging/blamed.py "$work" 1 0 > /dev/null
rm "$work"/clocks-* # they are long
mv "$work"/{short,hole,rate}-0.csv* "$captures"
needs_make 'the advice on most drawn captures' || {
    mv "$work"/*-0.csv* "$captures"
    python3 -B bench/info/drawn.py "$captures" advice 0 1
}
# Replies that nothing makes a yes, a time that no rate has, and one of another rate, where what came before is of this one; a capture that begins inside a reply, under a name that a shell takes for
# something else; lists that a page cuts, and breaks.
records "$remote C 61 20 11 92 D 71 20 3F D0" > "$captures/no-mode.csv"
records 'C 44 14 30 00 00 00 88' > "$captures/frame-30.csv"
shifted='C 44 14 24 00 00 00 7C D 10 01 11 C 40 18 58 D 10 01 11 C 60 10 70 D 74 10 00 01 00 00 85'
records "$remote $shifted C 44 14 29 00 00 00 81" > "$captures/frame-29.csv"
records "D 10 01 11 $play" > "$captures/a night's.csv"
records "$play" 250 > "$captures/plays.csv"
records "$play +298000" 310 > "$captures/slow-plays.csv"
records 'C 20 01 21 +9400 D 10 01 11' 1003 > "$captures/late-plays.csv"
judge_all 'what is advised' python3 -B tests/views/advice.py "$program" "$captures" eject.toml

tell_counts
