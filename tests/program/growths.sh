#!/usr/bin/env bash
# Runs the built program, and tests of refused growths, with the first growth of memory refused, with the second, and so on until a run
# refuses none: the program must answer what is right, or that it is out of memory. Each test of track9 must pass, and each of the rows
# of capture9 tell row 0 while the header is read, then row 1, and then the whole answer. The last line is 'N passed, M failed', where a
# test counts once, and so do the words of a program.
set -u
cd "$(dirname "$0")/../.." || exit 1
. tests/lib/tools.sh
need_tools cc=gcc python3
. tests/lib/judge.sh
. tests/lib/program.sh
. tests/lib/blocks.sh

# Run-time checks have memory of their own, which the preloaded library does not see.
if needs_make 'growths of memory that are refused'; then
    tell_counts
    exit
fi

cc -shared -fPIC -O2 -o "$work/refuse_growth.so" tests/program/refuse_growth.c -ldl || exit 1

# try_words STATUS WORDS...: the program with these words, which ends so. $lines is how many lines stand where the last growth is refused.
# What `why` says to ask next has a test of its own.
lines=
try_words() {
    local words=${*:2}
    echo "$1|$lines|${words/#why/why --quiet}" >> "$work/list"
}

# try_blocks STATUS WORDS RECORDS: the same on a capture of these records.
captures=0
try_blocks() {
    captures=$((captures + 1))
    records "$3" > "$work/$captures.csv"
    try_words "$1" "$2" "$work/$captures.csv"
}

try_words 0 check examples/play.csv
try_words 0 check --hands examples/play.csv
try_words 0 check
try_words 0 explain --hands
try_words 1 explain examples/second-reply.csv
try_words 3 check examples/bad-byte.csv
try_words 1 check --deck decks/nine-pin-commands.toml examples/lost-in-point.csv
try_words 3 check --deck examples/play.csv examples/play.csv
try_words 4 check absent.csv
try_words 0 check --sync examples/fast-forward.csv
try_words 0 explain --sync examples/play.csv
try_words 2 frob
try_words 0 --version
try_words 0 explain examples/fast-forward.csv
try_words 1 explain examples/disputed-in-point.csv
try_words 0 run examples/fast-forward.csv
try_words 0 run --hands
try_words 1 run examples/disputed-in-point.csv
try_words 3 run examples/bad-byte.csv
try_words 0 why examples/fast-forward.csv
try_words 1 why examples/disputed-in-point.csv
try_words 1 why examples/late-reply.csv
try_words 3 why examples/bad-byte.csv

# PLAY and its reply more often than a run puts marks close together on its way back.
try_blocks 0 run "$(repeated 257 "$play")"

entry="C 40 10 50 $ack"
# An IN point that is captured and sensed twice, and in a remote deck sensed as two.
try_blocks 0 explain "$entry C 60 10 70 D 74 10 00 00 00 05 89 C 60 10 70 D 74 10 00 00 00 05 89"
try_blocks 1 check "$remote $entry C 60 10 70 D 74 10 00 00 00 05 89 C 60 10 70 D 74 10 01 00 00 05 8A"
# Shifts: over midnight; three, and one back, in a local deck, which may do some of them.
try_blocks 0 check "$remote C 44 14 24 59 59 23 51 $ack C 40 18 58 $ack C 60 10 70 D 74 10 00 00 00 00 84"
try_blocks 0 explain "$local_at_10 C 40 18 58 $ack C 40 18 58 $ack C 40 18 58 $ack C 60 10 70 D 74 10 02 00 00 10 96"
try_blocks 1 check "$local_at_10 C 40 19 59 $ack C 60 10 70 D 74 10 01 00 00 10 95"
# Runs that are found backwards: of shifts that a deck in local may do, and of a point that only a hand can have moved.
try_blocks 0 run "$local_at_10 C 40 18 58 $ack C 40 18 58 $ack C 40 18 58 $ack C 60 10 70 D 74 10 02 00 00 10 96"
moved="$remote $preset C 60 10 70 D 74 10 00 00 00 11 95"
try_blocks 1 run "$moved"
try_blocks 0 'run --hands' "$moved"
try_blocks 1 why "$moved"
try_blocks 0 'why --hands' "$moved"

# Two parts that break, and a third with replies that contradict one another: what was written of whole parts stands. The last
# growth is for what is said of the third, so the first two have their lines then: three and three.
for verb in check explain why; do
    [ $verb != why ] || lines=6
    try_blocks 1 "$verb --all" "$play D 10 $play D 10 $moved"
    lines=
done

# A late reply, one that has a wrong group besides, and a part with replies that contradict one another. The last growth is for what is
# said of that, so why has three lines then, and six.
late="C 20 01 21 +9400 $ack C 20 01 21 +9400 D 20 01 21"
for verb in check explain why; do
    [ $verb != why ] || lines=9
    try_blocks 1 "$verb --all" "$late $moved"
    lines=
done

# tests_of CRATE: the program of its tests, where it is built.
tests_of() {
    local built=crates/$1/out/$1_tests
    if [ -x "$built" ]; then echo "$PWD/$built"; else echo "needs \`.ci/run\`: growths that are refused in the tests of ${1%_tests}" >&2; fi
}

judge_all 'growths that are refused' python3 -B tests/program/growths.py "$work/refuse_growth.so" "$program" "$work/list" \
    "${TRACK9_TESTS:-$(tests_of track9_tests)}" "${BLOCK9_TESTS:-$(tests_of block9_tests)}"

tell_counts
