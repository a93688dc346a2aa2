#!/usr/bin/env bash
# Tries every edit that the prover must refuse: those that the gate tries, in crates/NAME/must-fail, and all others, in
# audit/NAME, on a copy of the crates. It ends with status 0 where each was refused. The last lines count them.
#
#   make/audit.sh [CRATE...]   the edits of these crates alone
set -u
cd "$(dirname "$0")/.." || exit 1
work=$(mktemp -d) || exit 1
trap 'rm -rf "$work"' EXIT
trap 'exit 130' INT TERM HUP

# The copy shares the files, what was proved of them included, so that the edits begin there.
cp -rl crates crates.txt HANDLES "$work" 2> /dev/null || cp -r crates crates.txt HANDLES "$work" || exit 1
cp -r audit/. "$work/audit"
crates=("$@")
[ $# -gt 0 ] || mapfile -t crates < <(cd "$work" && printf '%s\n' crates/*/must-fail audit/* | sed -E 's,^(crates|audit)/([^/]*).*,\2,' | sort -u)
wanted=0
for crate in "${crates[@]}"; do
    mkdir -p "$work/crates/$crate/must-fail"
    for edit in "audit/$crate"/*.edit; do
        [ -e "$edit" ] || continue
        [ ! -e "$work/crates/$crate/must-fail/${edit##*/}" ] || { echo "the edit ${edit##*/} of $crate is there twice" >&2; exit 1; }
        cp "$edit" "$work/crates/$crate/must-fail"
    done
    wanted=$((wanted + $(find "$work/crates/$crate/must-fail" -name '*.edit' | wc -l)))
done

(cd "$work" && rt must-fail "${crates[@]}") 2>&1 | tee "$work/said"
# tried PATTERN: how many edits were told so.
tried() { grep -cE "must-fail [^ ]*: $1" "$work/said"; }
by_name=$(tried 'refused, as it must be \(only because a proof file names')
by_limit=$(tried 'refused, as it must be \(only by a limit')
refused=$(tried 'refused, as it must be')
by_clause=$((refused - by_name - by_limit))
echo "Of $wanted edits $refused were refused: $by_clause by a clause, $by_name only because a name was missing, $by_limit only by a limit of the prover."
echo "It took $((SECONDS / 60)) min $((SECONDS % 60)) s."
echo "$refused passed, $((wanted - refused)) failed"
[ "$refused" = "$wanted" ]
