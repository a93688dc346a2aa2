# To be sourced by a script of tests that runs the built program, after judge.sh: where that is, and how it is run. It may be one that
# was compiled for a trial, which has run-time checks, is much slower, and does not run under a bound of its address space.

program=${NINECHECK:-$PWD/crates/ninecheck/out/ninecheck}
on_trial=false
! grep -sqaF __asan_init "$program" || on_trial=true

# smaller NAME NUMBER WHAT: on a trial $NAME, which tells how many of these are taken, is this number instead, and that is said.
smaller() {
    $on_trial || return 0
    echo "at a smaller size: $2 in place of ${!1} $3"
    printf -v "$1" %s "$2"
}

# needs_make WHAT: holds on a trial, where this is left out, and says so.
needs_make() {
    $on_trial && echo "needs \`make\`: $1"
}

# bounded KILOBYTES COMMAND...: runs it with so much memory.
bounded() {
    (
        if $on_trial; then
            export ASAN_OPTIONS="soft_rss_limit_mb=$(($1 / 1024)):allocator_may_return_null=1:quarantine_size_mb=1"
        else
            ulimit -v "$1"
        fi
        "${@:2}"
    )
}

# is_out_of_memory [KEPT]: the last run ended so, of a word that keeps this. On a trial the run-time checks have lines of their own before.
is_out_of_memory() {
    ! $on_trial || sed -i '/AddressSanitizer: soft rss limit /d' "$work/err"
    is_text 5 '' "$(both_lines 'out of memory' "${1-}")"
}

# run WORDS...: the program with these words, on the standard input that it is given; its streams are left in $work/out and
# $work/err. What `why` says to ask next is left out: tests/views/try.sh has that.
run() {
    "$program" "$@" > "$work/out" 2> "$work/err"
    status=$?
    case ${1-} in why) sed -i '/^next: /d' "$work/err" ;; esac
}

# has_verdict STATUS LINE: the last run ended with this status and this last line, and said nothing.
has_verdict() {
    [ "$status" = "$1" ] && [ "$(tail -n 1 "$work/out")" = "$2" ] && [ ! -s "$work/err" ]
}

# has_lines N: the last run wrote so many lines.
has_lines() {
    [ "$(wc -l < "$work/out")" = "$1" ]
}

# judge_closed_pipe WORDS...: a pipe that closes after the first line of a long text ends the program, which says nothing of it.
judge_closed_pipe() {
    {
        "$program" "$@" 2> "$work/err"
        echo $? > "$work/status"
    } | head -n 1 > "$work/out"
    status=$(cat "$work/status")
    judge 'a closed pipe, the status' [ "$status" = 4 ]
    judge 'a closed pipe, standard error' [ ! -s "$work/err" ]
    judge 'a closed pipe, the first line' has_lines 1
}
