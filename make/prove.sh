#!/usr/bin/env bash
# Proves every crate but those of tests, side by side where none waits for another, and builds the program. A line tells when
# a crate is begun and when it is proved. What was proved stays: where this is interrupted, the next run goes on from there.
#
# Each crate is proved in a copy of the crates that shares their files, since two at work in one folder would wait for each
# other; what was made there comes back by a rename, with a checksum of all that it was made from.
set -um
top=$(cd "$(dirname "$0")/.." && pwd) || exit 1
cd "$top" || exit 1
work=$top/.proving

command -v rt > /dev/null || {
    echo 'nothing can be proved: `rt`, the command of the Rattle kit, is not on the path' >&2
    exit 1
}
mkdir -p "$work"
exec 9> "$work/lock"
flock -n 9 || {
    echo 'another `make` is proving here: wait until it has ended' >&2
    exit 1
}

# crates.txt: the crates, lowest first, and the libraries of each.
order=()
declare -A libraries
while IFS=: read -r crate uses; do
    case $crate in '' | '#'* | *_tests) continue ;; esac
    order+=("$crate")
    libraries[$crate]=$uses
done < crates.txt

# How many lines are still to be proved from a crate on, along the longest line of crates of which each uses the one before.
declare -A ahead=()
for ((at = ${#order[@]} - 1; at >= 0; at--)); do
    crate=${order[at]}
    longest=0
    for user in "${order[@]:at + 1}"; do
        case " ${libraries[$user]} " in *" $crate "*) [ "${ahead[$user]}" -le "$longest" ] || longest=${ahead[$user]} ;; esac
    done
    ahead[$crate]=$((longest + $(find "crates/$crate/src" "crates/$crate/specs" "crates/$crate/proofs" -type f -exec cat {} + 2> /dev/null | wc -l)))
done

# The time since the start, as minutes and seconds.
since() { printf '%3d:%02d' $((SECONDS / 60)) $((SECONDS % 60)); }

# A checksum of all that a crate is made from: its files, those of the libraries of this repository that it uses, and the kit.
declare -A made_from
sum_of() {
    local library
    {
        rt version
        cat HANDLES
        grep "^$1:" crates.txt
        find "crates/$1" -path "crates/$1/out" -prune -o -path "crates/$1/must-fail" -prune -o -type f -print | sort | xargs sha256sum
        for library in ${libraries[$1]}; do echo "${made_from[$library]-}"; done
    } | sha256sum
}

# How many jobs there can be at a time: one takes a processor, and at most 1.6 GB of memory.
processors=$(nproc)
fit=$(awk '/^MemAvailable:/ { print int($2 / 1600000) }' "${MEMINFO:-/proc/meminfo}")

# jobs_for NICENESS: how many jobs a crate gets beside those that are at work. The one on which most waits gets all that are left, and half
# of all at least; others get half of what is left. Each has one at least.
jobs_for() {
    local job taken=0 jobs
    for job in "${!crate_of[@]}"; do taken=$((taken + jobs_of[$job])); done
    jobs=$((processors - taken))
    if [ "$1" != 0 ]; then
        jobs=$((jobs / 2))
    elif [ "$jobs" -lt $(((processors + 1) / 2)) ]; then
        jobs=$(((processors + 1) / 2))
    fi
    [ "$jobs" -le $((fit - taken)) ] || jobs=$((fit - taken))
    [ "$jobs" -ge 1 ] || jobs=1
    echo "$jobs"
}

# prove CRATE SUM NICENESS JOBS: in a copy, and then back. The work of a run that was interrupted is taken up again.
prove() {
    local copy=$work/$1 out=crates/$1/out ask="rt lib --jobs $4"
    if [ -d "$copy/$out" ]; then
        rm -rf "$out"
        mv "$copy/$out" "$out"
    fi
    rm -rf "$copy"
    mkdir "$copy" && cp -l crates.txt HANDLES "$copy" && copy_for "$1" "$copy" || return
    rm -f "$copy/$out/made-from"
    [ "$1" != ninecheck ] || ask='rt run -- check'
    # The program is run once it is built, on the capture beside it.
    (cd "$copy/crates/$1" && exec nice -n "$3" $ask) < "$(capture_for "$1")" > "$work/$1.log" 2>&1 || return
    echo "$2" > "$copy/$out/made-from"
    rm -rf "$out"
    mv "$copy/$out" "$out"
    rm -rf "$copy"
}
# copy_for CRATE COPY: all but what comes of crates that are not proved yet, which may be renamed at any time.
copy_for() {
    local entry crate
    for entry in crates/*/*; do
        crate=${entry#crates/} crate=${crate%%/*}
        [ "${entry##*/}" != out ] || [ "$crate" = "$1" ] || [ "${state[$crate]-}" = proved ] || continue
        mkdir -p "$2/crates/$crate" && cp -rl "$entry" "$2/crates/$crate" || return
    done
}
capture_for() { [ "$1" = ninecheck ] && echo crates/ninecheck/stdin || echo /dev/null; }

declare -A state=() crate_of=() jobs_of=()
proved=0
failed=

# stands CRATE: tells that it is proved, and how many are.
stands() {
    state[$1]=proved
    proved=$((proved + 1))
    echo "$(since)  $1 $2 ($proved of ${#order[@]})"
}

# begin CRATE: unless it waits for a library, or was proved before as it stands. It gives way to a crate on which more waits.
begin() {
    local library other niceness=0 jobs
    for library in ${libraries[$1]}; do
        [ ! -d "crates/$library" ] || [ "${state[$library]-}" = proved ] || return
    done
    made_from[$1]=$(sum_of "$1")
    if [ "${made_from[$1]}" = "$(cat "crates/$1/out/made-from" 2> /dev/null)" ]; then
        stands "$1" 'was proved before'
        return
    fi
    for other in "${crate_of[@]}"; do
        [ "${ahead[$other]}" -le "${ahead[$1]}" ] || niceness=10
    done
    state[$1]=begun
    echo "$(since)  $1 begun"
    # The program is proved by one.
    jobs=1
    [ "$1" = ninecheck ] || jobs=$(jobs_for "$niceness")
    prove "$1" "${made_from[$1]}" "$niceness" "$jobs" 9>&- &
    crate_of[$!]=$1
    jobs_of[$!]=$jobs
}

begin_all() {
    local crate
    for crate in "${order[@]}"; do
        [ -n "${state[$crate]-}" ] || begin "$crate"
    done
}

# What runs side by side takes no notice of an interrupt, so it is ended with the script.
stop() {
    local job
    for job in "${!crate_of[@]}"; do kill -TERM -- "-$job" 2> /dev/null; done
    wait 2> /dev/null
    echo 'interrupted: `make` goes on from here' >&2
    exit 130
}
trap stop INT TERM HUP

begin_all
while [ ${#crate_of[@]} -gt 0 ]; do
    wait -n -p job "${!crate_of[@]}"
    ended=$?
    crate=${crate_of[$job]}
    unset "crate_of[$job]"
    if [ "$ended" = 0 ]; then
        stands "$crate" proved
        [ -n "$failed" ] || begin_all
    else
        failed="$failed $crate"
        echo "$(since)  $crate NOT PROVED" >&2
        cat "$work/$crate.log" >&2
    fi
done
[ -z "$failed" ] || exit 1
exec 9>&-
rm -rf "$work"
echo 'The program is proved and built. Ask it: ./ninecheck check examples/play.csv'
