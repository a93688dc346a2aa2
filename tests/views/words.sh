#!/usr/bin/env bash
# Runs the script under each shell: what it makes of words and files, and by a symlink; and each word's help. The last line is
# 'N passed, M failed'.
set -u
cd "$(dirname "$0")/../.." || exit 1
. tests/lib/tools.sh
need_tools busybox dash
. tests/lib/judge.sh
. tests/lib/program.sh

nine=$PWD/ninecheck
shell=

# ask WORDS...: the script, under the shell in $shell; its streams are left in $work/out and $work/err.
ask() {
    $shell "$nine" "$@" > "$work/out" 2> "$work/err"
    status=$?
}

# is_view STATUS FILE: the last run ended so, and wrote this text and nothing else.
is_view() {
    [ "$status" = "$1" ] && cmp "$work/out" "$2" && [ ! -s "$work/err" ]
}

# Names that a shell might take for something else, and a capture that comes only once.
odd_names() {
    local name
    mkdir "$work/odd"
    for name in 'a night.csv' '-x.csv' 'a\tb.csv' "it's.csv" 'ä.csv'; do
        cp examples/views/session.csv "$work/odd/$name"
        (cd "$work/odd" && $shell "$nine" digest -- "$name") > "$work/out" 2> "$work/err"
        status=$?
        judge "$shell: a capture called $name" is_view 1 examples/views/session-digest.txt
    done
    mkfifo "$work/odd/pipe"
    cat examples/views/session.csv > "$work/odd/pipe" &
    ask digest "$work/odd/pipe"
    judge "$shell: a pipe" is_view 1 examples/views/session-digest.txt
    rm -r "$work/odd"
}

for shell in dash bash 'busybox sh'; do
    ask json why --all examples/views/several-breaks.csv < /dev/null
    judge "$shell: words and a file" is_view 1 examples/views/several-breaks-why-json.txt
    ask digest < examples/views/session.csv
    judge "$shell: standard input" is_view 1 examples/views/session-digest.txt
    odd_names
done
shell=

# By a symlink, from another folder.
ln -s "$nine" "$work/linked"
cp examples/views/session.csv "$work/capture.csv"
(cd "$work" && ./linked digest capture.csv) > "$work/out" 2> "$work/err"
status=$?
judge 'by a symlink' is_view 1 examples/views/session-digest.txt

# Help: each word has its own, and `help` names it.
ask help
cp "$work/out" "$work/help"
for word in check explain run why digest delays motion json clock info try touches picture page split \
    'convert sigrok' 'convert saleae' 'convert log'; do
    # shellcheck disable=SC2086
    ask $word --help
    judge "$word --help" [ "$status" = 0 -a ! -s "$work/err" ]
    judge "$word --help has its usage" grep -q "^Usage: ninecheck $word " "$work/out"
    judge "help names $word" grep -q "^  $word  " "$work/help"
    case $word in *' '*) continue ;; esac
    cp "$work/out" "$work/want"
    ask help $word
    judge "help $word says the same" eval '[ "$status" = 0 ] && cmp "$work/out" "$work/want"'
done

tell_counts
