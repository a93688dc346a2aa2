#!/usr/bin/env bash
# Each script can be run by its path, and shellcheck finds nothing in it: no warning and no error. The last line is 'N passed, M failed'.
set -u
cd "$(dirname "$0")/../.." || exit 1
. tests/lib/tools.sh
need_tools shellcheck
. tests/lib/judge.sh

scripts=(ninecheck .ci/run make/*.sh web/*.sh tests/[!l]*/*.sh tests/by_hand/*/*.sh bench/*/*.sh)
for script in "${scripts[@]}"; do
    judge "$script can be run" [ -x "$script" ]
    judge "$script says what runs it" grep -q '^#!/' <(head -n 1 "$script")
done

# What a script sources is looked at with it.
for script in "${scripts[@]}"; do
    judge "$script" eval 'shellcheck -x -S warning "$script" > "$work/out" 2>&1'
done

tell_counts
