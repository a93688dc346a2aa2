# To be sourced by a script of tests: the folder $work that it works in, which goes with it; how it counts what passed and what
# failed; and what it shows of what failed.

work=$(mktemp -d)
trap 'rm -rf "$work"' EXIT
passed=0
failed=0

# judge NAME CONDITION...: counts whether this command succeeds.
judge() {
    if "${@:2}"; then pass; else fail "$1"; fi
}

pass() {
    passed=$((passed + 1))
}

fail() {
    failed=$((failed + 1))
    echo "FAILED $1"
    show
}

# What is shown of what failed: the status, and the beginning of both streams, as far as a script keeps them. A script that
# has something else to show has a `show` of its own.
show() {
    [ -z "${status-}" ] || echo "status $status"
    local stream
    for stream in out err; do
        [ ! -s "$work/$stream" ] || head -n 20 "$work/$stream"
    done
}

# expect NAME STATUS TEXT ERROR: counts whether the last run was this.
expect() {
    judge "$1" is_text "${@:2}"
}

# is_text STATUS TEXT ERROR: the last run ended with this status, and wrote this text to standard output and this to standard
# error. Both are given without their last line feed, and must have it.
is_text() {
    : > "$work/want"
    : > "$work/want_err"
    [ -z "$2" ] || printf '%s\n' "$2" > "$work/want"
    [ -z "$3" ] || printf '%s\n' "$3" > "$work/want_err"
    [ "$status" = "$1" ] && cmp -s "$work/out" "$work/want" && cmp -s "$work/err" "$work/want_err"
}

# judge_all NAME COMMAND...: counts what another script of checks counts, whose last line is 'N passed, M failed', and shows what it finds
# wrong. One without that line has failed.
judge_all() {
    "${@:2}" > "$work/judged" 2>&1
    if [[ $(tail -n 1 "$work/judged") =~ ^([0-9]+)' passed, '([0-9]+)' failed'$ ]]; then
        passed=$((passed + BASH_REMATCH[1]))
        failed=$((failed + BASH_REMATCH[2]))
        sed '$d' "$work/judged"
    else
        cat "$work/judged"
        fail "$1"
    fi
}

# tell_counts: the last line of a script, whose status it answers.
tell_counts() {
    echo "$passed passed, $failed failed"
    [ "$failed" = 0 ]
}
