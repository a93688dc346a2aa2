#!/usr/bin/env bash
# Watches captures while they grow: with --line-buffered each line is out before the next row comes, and in any case the no of a
# judging that ends at the first break. The last line is 'N passed, M failed'.
set -u
cd "$(dirname "$0")/../.." || exit 1
. tests/lib/judge.sh
. tests/lib/errors.sh
. tests/lib/program.sh
. tests/lib/blocks.sh

# begin WORDS...: the program on a capture that grows for as long as descriptor 7 is open.
begin() {
    rm -f "$work/growing"
    mkfifo "$work/growing"
    : > "$work/out"
    "$program" "$@" < "$work/growing" > "$work/out" 2> "$work/err" &
    exec 7> "$work/growing"
    rows=-1
}

# grow ROWS: the capture has so many rows now.
grow() {
    sed -n "$((rows + 2)),$(($1 + 1))p" "$work/capture.csv" >&7
    rows=$1
}

# end: it ends.
end() {
    exec 7>&-
    wait $!
    status=$?
}

# ends_soon LINE: within twenty seconds the last line that was written begins so.
ends_soon() {
    local tries
    for ((tries = 0; tries < 400; tries++)); do
        case $(tail -n 1 "$work/out") in "$1"*) [ -n "$1" ] || [ ! -s "$work/out" ] && return ;; esac
        sleep 0.05
    done
    return 1
}

# A sense of IN that is answered with 00:00:00:00.
lost='C 60 10 70 D 74 10 00 00 00 00 84'

# Three exchanges; a second reply, which ends the part; then an exchange, and one with a late reply. Behind the number of rows stands
# how the last line of `check`, `explain` and `why` begins, with --all, once they are there.
capture_of "$remote $play $second_reply $preset C 20 01 21 +12400 $ack"
p1='no at record 21: P1 reply without a command'
l1='no at record 37: L1 late reply'
steps="0|||
7|||
8||record 8: STATUS SENSE|
14||record 14: PLAY|
20||record 20: PLAY|
21|$p1|$p1|$p1
32|$p1|$p1|$p1
33|$p1|record 33: IN DATA PRESET|$p1
36|$p1|record 33: IN DATA PRESET|$p1
37|$l1|$l1|$l1
39|$l1|record 39: PLAY|$l1"
for verb in check explain why; do
    begin $verb --line-buffered --all
    while IFS='|' read -r count in_check in_explain in_why; do
        case $verb in check) want=$in_check ;; explain) want=$in_explain ;; why) want=$in_why ;; esac
        grow "$count"
        judge "$verb, after $count rows" ends_soon "$want"
    done <<< "$steps"
    end
    judge "$verb, at the end" has_verdict 1 'breaks 2: records 39, exchanges 5, passed over 3, open 0'
    # Without the option nothing is out before the end, and the text is the same.
    cp "$work/out" "$work/want"
    begin $verb --all
    grow 39
    sleep 0.5
    judge "$verb without --line-buffered, before the end" [ ! -s "$work/out" ]
    end
    judge "$verb without --line-buffered, the same text" cmp "$work/out" "$work/want"
done

# The same of views. A digest tells a break once it is known whether an equal one follows.
for steps in 'digest 8=record~8,~ 14=record~14,~ 33=record~33,~ 37=no~at~record~37:~L1 39=record~39,~' \
    'json 8={"line":"exchange","record":8, 21={"line":"verdict","verdict":"no","record":21, 37={"line":"late_reply","record":37,' \
    'motion 20=record~14,~0.005600~s:~PLAY 21=record~20,~0.008000~s:~PLAY 39=record~20,'; do
    verb=${steps%% *}
    begin "$verb" --line-buffered --all
    for step in ${steps#* }; do
        grow "${step%%=*}"
        want=${step#*=}
        judge "$verb, after ${step%%=*} rows" ends_soon "${want//\~/ }"
    done
    end
    judge "$verb, at the end" eval '[ "$status" = 1 ] && [ ! -s "$work/err" ]'
done

# To the first break: the no is told, and the program ends, before another row comes and while the capture may still grow.

# ends_by_itself: within twenty seconds the program has ended; else it is ended.
ends_by_itself() {
    local tries
    for ((tries = 0; tries < 400; tries++)); do
        kill -0 $! 2> "$work/gone" || return 0
        sleep 0.05
    done
    kill $!
    return 1
}

# tells_no RECORDS ROW NO: of a capture of these records the no at this row is told once the row has come, by each verb, line by line
# and not.
tells_no() {
    local words
    capture_of "$1"
    for words in check explain 'why --quiet' run 'check --line-buffered' 'explain --line-buffered' 'why --line-buffered'; do
        # shellcheck disable=SC2086
        begin $words
        grow $(($2 - 1))
        sleep 0.1
        judge "$words, before: $3" kill -0 $!
        grow "$2"
        judge "$words ends at: $3" ends_by_itself
        wait $!
        status=$?
        judge "$words: $3" has_verdict 1 "$3"
        exec 7>&-
    done
}
tells_no "$second_reply" 7 'no at record 7: P1 reply without a command'
tells_no "$remote C 20 01 22 $ack" 11 'no at record 11: B2 wrong sum'
tells_no "$remote C 20 01 21 +12400 $ack" 12 'no at record 12: L1 late reply'
tells_no "$remote $preset $lost" 28 'no at record 28: M1 no run remains'

# The same text of each example, and the same status.
other=
for file in examples/*.csv examples/*/*.csv; do
    for words in check explain why 'check --all' 'explain --all' 'why --all'; do
        # shellcheck disable=SC2086
        run $words "$file"
        mv "$work/out" "$work/want" && mv "$work/err" "$work/said" && want_status=$status
        # shellcheck disable=SC2086
        run $words --line-buffered "$file"
        cmp -s "$work/out" "$work/want" && cmp -s "$work/err" "$work/said" && [ "$status" = "$want_status" ] || other+="$file with $words; "
    done
done
judge "each example is told alike: $other" [ -z "$other" ]

# A line that can't be written.
for verb in check explain why; do
    "$program" $verb --line-buffered examples/play.csv > /dev/full 2> "$work/err"
    status=$?
    : > "$work/out"
    expect "a full device, $verb" 4 '' "$(both_lines 'write fault')"
done
records "$play" 40000 > "$work/long.csv"
judge_closed_pipe explain --line-buffered "$work/long.csv"

tell_counts
