#!/usr/bin/env bash
# Makes 1,000,000 drawn calls on a SpanSet of up to 115,000 spans, each of their three rounds with 128 calls at its end that
# shift, widen and keep the whole set, and the same on a plain Rust list of spans and on a ListSet; what they show must be the
# same after each call. Then makes 200 calls with each growth of memory refused in turn: a refused call must leave its set as it
# was, succeed when it is made once more, and give then what it gives of the ListSet; and the calls end as if none had been
# refused. Run by hand: it proves and builds a program of its own. The last line is 'N passed, M failed'.
set -u
cd "$(dirname "$0")/../../.." || exit 1
. tests/lib/tools.sh
need_tools cc=gcc
. tests/lib/judge.sh
. tests/lib/workspace.sh

build_over 'tc25 sets25' sets25_drawn tests/by_hand/time_sets/main.rattle
rustc --edition 2024 -O -o "$work/plain" tests/by_hand/time_sets/plain.rs || exit 1
cc -shared -fPIC -O2 -o "$work/refuse_growth.so" tests/program/refuse_growth.c -ldl || exit 1

# is_as_plain: the program ended well, and shows what the plain list shows.
is_as_plain() {
    "$program" > "$work/out" && cmp "$work/out" "$work/wanted"
}

"$work/plain" > "$work/wanted"
judge 'the calls on a plain list' is_as_plain
echo "1000000 drawn calls, of up to $(cut -d ' ' -f 3 "$work/wanted" | sort -n | tail -n 1) spans"

# is_few: the last run of 200 calls ended as if no growth had been refused. Status 5 is a growth refused before the calls: of the
# words of the command line. No line was written then, as the first is written before the set is made; a call that is refused
# twice has a status of its own.
is_few() {
    case $status in
        0) [ -s "$work/out" ] && cmp "$work/out" "$work/few" ;;
        5) [ "$growth" -gt 0 ] && [ ! -s "$work/out" ] && before=$((before + 1)) ;;
        *) false ;;
    esac
}

# refusing N: 200 calls with growth N refused, or none where N is 0.
refusing() {
    GROWTHS="$work/count" FAIL_AT=$1 LD_PRELOAD="$work/refuse_growth.so" "$program" few > "$work/out" 2> "$work/err"
    status=$?
}

refusing 0
cp "$work/out" "$work/few"
growths=$(cat "$work/count")
before=0
for ((growth = 0; growth <= growths; growth++)); do
    refusing $growth
    judge "growth $growth refused" is_few
done
echo "200 calls with each of $growths growths refused, $before of them before the calls"

tell_counts
