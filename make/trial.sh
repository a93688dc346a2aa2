#!/usr/bin/env bash
# Answers where the program is not built: from the same code with run-time checks and without its proof, which make/keep.sh compiles
# once and keeps. It has the caller's words, folder and streams; the first lines on standard error are this script's. Status 125: there
# is no answer. Every other status is the program's.
set -u
top=$(cd "$(dirname "$0")/.." && pwd) || exit 125
keep=$top/make/keep.sh

say() { printf 'ninecheck: %s\n' "$@" >&2; }
give_up() {
    say "no answer: $1" "$2"
    exit 125
}

# A signal that this script gets is handed on to what runs, and once that has ended the script ends by it too.
child=
caught=
hand_on() {
    caught=$1
    [ -z "$child" ] || kill "-$1" "$child" 2> /dev/null
}
trap 'hand_on INT' INT
trap 'hand_on TERM' TERM
trap 'hand_on HUP' HUP
end_by() {
    trap - "$1"
    kill "-$1" $$
}

# run COMMAND...: leaves how it ended in $status. It runs behind the script, since a shell takes no notice of a signal before a command
# in front of it has ended.
run() {
    [ -z "$caught" ] || end_by "$caught"
    (trap - INT QUIT TERM HUP && exec "$@") <&0 &
    child=$!
    wait "$child" 2> /dev/null
    status=$?
    while kill -0 "$child" 2> /dev/null; do
        wait "$child" 2> /dev/null
        status=$?
    done
    child=
    [ -z "$caught" ] || end_by "$caught"
}

# has_first WORD: the program `first` answers this word: each that makes nothing of a capture, and one that is none.
has_first() {
    case $1 in
        digest | delays | motion | json | clock | info | try | touches | picture | page | convert | split) false ;;
        *) [ -f "$top/make/first_maker.rattle" ] ;;
    esac
}

# A standard input that is closed is one that has ended.
[ -e /dev/fd/0 ] || exec < /dev/null
# A program with run-time checks reserves more addresses than any machine has memory.
[ "$(ulimit -v)" = unlimited ] || give_up 'it is not built here, and what is compiled for a trial does not run below a bound of `ulimit -v`' \
    'take the bound off, or run `make`: it proves and builds the program'
kind=whole
whole=$("$keep" path whole) || exit 125
program=$whole
if [ ! -x "$program" ] && has_first "${1-}"; then
    kind=first
    program=$("$keep" path first) || exit 125
fi
if [ -x "$program" ]; then
    # make/check.sh says it once.
    [ -n "${NINECHECK_TRIAL-}" ] ||
        say 'not built yet: this answer comes from the same code with run-time checks and without its proof; `make` proves and builds it'
else
    run "$keep" make "$kind" < /dev/null > /dev/null
    [ "$status" = 0 ] || exit 125
    # What it is made from may have changed meanwhile.
    program=$("$keep" path "$kind") && [ -x "$program" ] || give_up 'the code was changed while it was compiled' 'ask again'
fi
[ "$kind" = whole ] || "$keep" behind "$whole"

# At most 4 GB of memory, so that a row without end is told as want of memory.
export ASAN_OPTIONS="${ASAN_OPTIONS-soft_rss_limit_mb=4096:allocator_may_return_null=1}"
run "$program" "$@"
case $status in
    129) end_by HUP ;;
    130) end_by INT ;;
    143) end_by TERM ;;
    126 | 127) give_up 'the program that was kept is gone' 'ask again' ;;
    137) give_up 'the program was killed, most likely since memory is short' 'run `make`: it proves and builds the program, which needs less' ;;
esac
[ "$status" -le 128 ] || give_up 'a run-time check stopped the program' \
    'the code has a fault there: where it was changed, `make` says what can not be proved'
exit "$status"
