#!/usr/bin/env bash
# Each word ends by itself on every example with 512 kilobytes of stack. `stack.sh least` finds instead by halving how much each needs on
# them, and prints a line for each word. The last line is 'N passed, M failed'.
set -u
cd "$(dirname "$0")/../.." || exit 1
. tests/lib/judge.sh
. tests/lib/program.sh

if needs_make 'each word with little stack'; then
    tell_counts
    exit
fi

# What is asked of each capture, and of each export.
of_captures='check
check --all
check --hands --deck=9pin
explain --bytes --all --hands
run
run --hands --deck=9pin
why
why --hands
why --all --deck=9pin
digest --all
delays --all
motion --all
json --bytes --hands
json check --all
json run --hands
json why --all
clock
info
try
try --all --deck=9pin
touches
picture
picture --all --hands
page
page --hands --deck=9pin
split --to=part'
of_exports='convert sigrok --samplerate=2000000
convert saleae --controller=Editor --deck=Deck
convert saleae
convert log --controller=COM3 --deck=COM4
convert log --controller=COM3 --deck=COM4 --live'
of_nothing='--help
--version
help page
check absent.csv
check --rate=31
json --from=x'

# ask KILOBYTES WORDS FILE: the program with so much stack, in a folder that has no parts of a split.
room=$work/room
mkdir "$room"
ask() {
    # shellcheck disable=SC2086
    (cd "$room" && ulimit -s "$1" && exec "$program" $2 ${3:+"$3"}) > "$work/out" 2> "$work/err" < /dev/null
    status=$?
    case $2 in split*) rm -f "$room"/part-* ;; esac
}

# ends_in KILOBYTES WORDS: the words end by themselves on each of their files, which are in `files`.
ends_in() {
    local file
    for file in "${files[@]}"; do
        ask "$1" "$2" "$file"
        [ "$status" -le 5 ] || return
    done
}

# tell_least WORDS: the least stack, to 4 kilobytes.
tell_least() {
    local low=4 high=8192 middle
    while [ $((high - low)) -gt 4 ]; do
        middle=$(((low + high) / 8 * 4))
        if ends_in "$middle" "$1"; then high=$middle; else low=$middle; fi
    done
    echo "$high kB: $1"
}

# judge_words WORDS_IN_LINES FILE...: each of these words on each of these files.
judge_words() {
    local words file
    files=("${@:2}")
    while IFS= read -r words; do
        if $is_least; then tell_least "$words"; continue; fi
        for file in "${files[@]}"; do
            ask 512 "$words" "$file"
            judge "$words ${file#"$PWD/"}" [ "$status" -le 5 ]
        done
    done <<< "$1"
}

is_least=false
[ "${1-}" != least ] || is_least=true
judge_words "$of_captures" "$PWD"/examples/*.csv "$PWD"/examples/views/*.csv
judge_words "$of_exports" "$PWD"/examples/exports/*
judge_words "$of_nothing" ''

tell_counts
