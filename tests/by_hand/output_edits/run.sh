#!/usr/bin/env bash
# Makes each edit of edits.txt in a copy of the sources, compiles the copy with run-time checks (make/keep.sh), and sees that the edit's
# script fails on what was compiled, while it passes on what is compiled of the sources as they are. It takes some minutes for each edit.
#
#   run.sh [EDIT...]   the edits with these names alone
#
# The last line is 'N passed, M failed'.
set -u
cd "$(dirname "$0")/../../.." || exit 1
. tests/lib/tools.sh
need_tools perl
. tests/lib/judge.sh
show() { tail -n 5 "$work/said"; }

# copy_sources: a copy of what the program is compiled from, in $copy.
copy=$work/copy
copy_sources() {
    rm -rf "$copy"
    mkdir -p "$copy/crates"
    cp -r ninecheck make crates.txt HANDLES "$copy"
    local crate
    for crate in crates/*; do mkdir "$copy/$crate" && cp -r "$crate/src" "$copy/$crate" || exit 1; done
}

# replace FILE OLD NEW: puts the one text in place of the other, which must stand there once.
replace() {
    OLD=$2 NEW=$3 perl -0pi -e 'BEGIN { $old = $ENV{OLD} } $count += s/\Q$old\E/$ENV{NEW}/g; END { exit($count == 1 ? 0 : 1) }' "$1"
}

# passes SCRIPT TREE: the script, which may have words behind it, passes on the program that was compiled in this tree.
passes() {
    # shellcheck disable=SC2086
    NINECHECK=$("$2/make/keep.sh" path whole) NINECHECK_TRIAL=said $1 > "$work/said" 2>&1
}
# fails_so SCRIPT TREE: it finds something wrong there, and not all.
fails_so() {
    ! passes "$@" && grep -qE '^[1-9][0-9]* passed, [1-9][0-9]* failed$' <(tail -n 1 "$work/said")
}

make/keep.sh make whole || exit 1
names=" $* "
declare -A sound=()
while IFS='|' read -r name file old new script; do
    case $name in '#'* | '') continue ;; esac
    [ $# = 0 ] || [[ $names = *" $name "* ]] || continue
    if [ -z "${sound[$script]-}" ]; then
        sound[$script]=asked
        judge "$script on the sources as they are" passes "$script" .
    fi
    copy_sources
    judge "$name: the text stands in $file once" replace "$copy/$file" "$old" "$new"
    judge "$name: it compiles" "$copy/make/keep.sh" make whole
    judge "$name: $script finds it" fails_so "$script" "$copy"
done < tests/by_hand/output_edits/edits.txt

tell_counts
