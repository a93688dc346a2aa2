#!/usr/bin/env bash
# Runs the built program with each of its reads, and each of its writes to standard output, failing in turn.
# The last line is 'N passed, M failed', where a way to fail counts once.
set -u
cd "$(dirname "$0")/../.." || exit 1
. tests/lib/tools.sh
need_tools cc=gcc
. tests/lib/judge.sh
. tests/lib/program.sh
. tests/lib/errors.sh
. tests/lib/blocks.sh

library=$work/fail_call.so
cc -shared -fPIC -O2 -o "$library" tests/program/fail_call.c -ldl || exit 1

# PLAY and its reply, 1,000 times: more than the buffer holds, where each exchange has a line.
many=1000
smaller many 200 'exchanges'
records "$play" "$many" > "$work/long.csv"

# The same with two acknowledgements: a break each, and a part after it. `three.csv` has two breaks, and a part after them.
records "$second_reply" $((7 * many / 10)) > "$work/parts.csv"
head -n 25 "$work/parts.csv" > "$work/three.csv"

# The same with acknowledgements that come late: a break each, and one part.
records 'C 20 01 21 +9400 D 10 01 11' "$many" > "$work/late.csv"

# run_failing WORDS FILE CALL N HOW: the program with call N failing. Leaves its status and its streams, and in $reads and
# $writes how often it called.
run_failing() {
    capture=$2
    rm -f "$work/calls"
    CALLS="$work/calls" CALL=$3 FAIL_AT=$4 FAIL_HOW=$5 LD_PRELOAD="$library" \
        "$program" ${1/#why/why --quiet} "$2" > "$work/out" 2> "$work/err"
    status=$?
    read -r reads writes < "$work/calls"
}

show() {
    echo "status $status, reads $reads, writes $writes"
    cat "$work/err"
}

# has_begun: what was written is a first part of what is right.
has_begun() {
    cmp -s -n "$(wc -c < "$work/out")" "$work/out" "$work/whole"
}

# is_right: the answer is right, whole, and nothing is said beside it. It is a yes, unless $answer is the status of another.
answer=0
is_right() {
    [ "$status" = "$answer" ] && cmp -s "$work/out" "$work/whole" && [ ! -s "$work/err" ]
}

# is_write_fault: the program ended with the write that failed, and has written a first part and not the whole.
is_write_fault() {
    [ "$status" = 4 ] && [ "$(cat "$work/err")" = "$(both_lines 'write fault')" ] && [ "$writes" = "$at" ] &&
        has_begun && ! cmp -s "$work/out" "$work/whole"
}

# is_said_of_first: standard error has a first line, the second that belongs to it, and no more.
is_said_of_first() {
    [ "$(cat "$work/err")" = "$(both_lines "$(head -n 1 "$work/err")" '' "$capture")" ]
}

# is_read_fault: the program ended with the read that failed, at some row of the text, and wrote no verdict, and of a
# run or of why nothing.
is_read_fault() {
    [ "$status" = 4 ] && [[ $(head -n 1 "$work/err") =~ ^'read fault at row '[0-9]+$ ]] && is_said_of_first && [ "$reads" = "$at" ] &&
        has_begun && ! grep -q '^yes\|^no' "$work/out" && { [[ $verb != run && $verb != why ]] || [ ! -s "$work/out" ]; }
}

# is_read_fault_of_parts: the same with --all. Each break before this row was written, as `whole` has it, and there are no totals.
is_read_fault_of_parts() {
    local row breaks
    [ "$status" = 4 ] && [[ $(head -n 1 "$work/err") =~ ^'read fault at row '([0-9]+)$ ]] || return 1
    row=${BASH_REMATCH[1]}
    breaks=$(awk -v row="$row" '/^no at record / && $4 + 0 < row' "$work/whole")
    is_said_of_first && [ "$reads" = "$at" ] && has_begun && [ "$(grep '^no ' "$work/out")" = "$breaks" ] &&
        ! grep -q '^breaks ' "$work/out"
}

# try WORDS FILE CALL HOW CONDITION: each such call failing in turn, with what has to hold then.
try() {
    local verb=$1 file=$2 call=$3 how=$4 condition=$5 count
    run_failing "$verb" "$file" none 0 none
    cp "$work/out" "$work/whole"
    count=$reads
    [ "$call" = read ] || count=$writes
    if ! is_right || [ "$count" = 0 ]; then
        fail "$verb $(basename "$file") as it is"
        return
    fi
    for at in $(seq "$count"); do
        run_failing "$verb" "$file" "$call" "$at" "$how"
        if ! "$condition"; then
            fail "$verb $(basename "$file"), $call $at $how"
            return
        fi
    done
    pass
    echo "$verb $(basename "$file"): right with each of $count calls of $call: $how"
}

# try_all WORDS FILE CONDITION: each call failing in each way; this has to hold where a read fails.
try_all() {
    local how condition=$3
    for how in EIO EINTR ENOSPC zero; do
        try "$1" "$2" write "$how" is_write_fault
    done
    try "$1" "$2" write short is_right
    for how in EIO EINTR; do
        try "$1" "$2" read "$how" "$condition"
    done
    try "$1" "$2" read short is_right
}

# begin NAME WORDS CONDITION FILE...: tries all of these files, side by side with what else has begun, in a folder of its own.
begin() {
    mkdir "$work/$1"
    (
        work=$work/$1 passed=0 failed=0
        for file in "${@:4}"; do try_all "$2" "$file" "$3"; done
        tell_counts
    ) > "$work/$1.counts" 2>&1 &
}

for verb in check explain run why; do
    begin $verb $verb is_read_fault examples/play.csv "$work/long.csv"
done
# The same where records are passed over at the beginning, and where all are.
begin sync 'check --sync' is_read_fault examples/play.csv "$work/long.csv"
# The same of why a verdict is a no, where a rule of timing is broken and where no run remains.
answer=1
begin no why is_read_fault examples/late-reply.csv examples/disputed-in-point.csv
# With --all, in each part: the last read of three.csv, which finds the end, comes in the third. And where late replies are told.
for verb in check explain why; do
    begin $verb-all "$verb --all" is_read_fault_of_parts "$work/three.csv" "$work/parts.csv" "$work/late.csv"
done
wait
for counts in "$work"/*.counts; do judge_all "${counts##*/}" cat "$counts"; done

run_failing 'why --all' "$work/three.csv" none 0 none
at=$reads
cp "$work/out" "$work/whole"
run_failing 'why --all' "$work/three.csv" read "$at" EIO
judge 'a read that fails in the third part' is_read_fault_of_parts
judge 'what was written of two parts' [ "$(wc -l < "$work/out")" = 6 ]
answer=0

# expect_row N WANT: the row that is named where read N of PLAY fails.
expect_row() {
    run_failing check examples/play.csv read "$1" EIO
    judge "read $1 of PLAY" is_text 4 '' "$(both_lines "read fault at row $2" '' examples/play.csv)"
}

# The first read fails in the header; the last, which finds the end, comes after the six rows.
run_failing check examples/play.csv none 0 none
last=$reads
expect_row 1 0
expect_row "$last" 7

tell_counts
