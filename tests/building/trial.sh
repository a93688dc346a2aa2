#!/usr/bin/env bash
# A copy of the repository where nothing is built answers: from a part that make/keep.sh compiles first, and then from the whole, which it
# compiles behind that. Each word that is asked answers as the built program. It takes some minutes. The last line is 'N passed, M failed'.
set -u
cd "$(dirname "$0")/../.." || exit 1
. tests/lib/judge.sh
. tests/lib/program.sh

# Where nothing is built, the scripts run on what make/keep.sh has compiled here.
copy=$PWD
if ! $on_trial; then
    copy="$work/a copy"
    mkdir -p "$copy/crates"
    cp -r ninecheck ./make crates.txt HANDLES examples decks "$copy"
    for crate in crates/*; do mkdir "$copy/$crate" && cp -r "$crate/src" "$copy/$crate" || exit 1; done
fi

# ask WORDS...: the script of the copy, and what the program says of the same. What the script itself says stands in $work/said.
ask() {
    (cd "$copy" && ./ninecheck "$@") > "$work/out" 2> "$work/err" < /dev/null
    status=$?
    sed -n '/^ninecheck: /p' "$work/err" > "$work/said"
    sed -i '/^ninecheck: /d' "$work/err"
    "$program" "$@" > "$work/want" 2> "$work/want_err" < /dev/null
    wanted=$?
}
is_same() { [ "$status" = "$wanted" ] && cmp "$work/out" "$work/want" && cmp "$work/err" "$work/want_err"; }

# On a trial the scripts are told that they run on one, and the script says nothing.
if ! $on_trial; then
    ask check examples/play.csv
    judge 'the first answer' is_same
    judge 'it tells that it compiles' grep -q '^ninecheck: not built yet: this compiles a part of the same code' "$work/said"
    ask why examples/disputed-in-point.csv
    judge 'the next answer, which is not compiled again' is_same
    judge 'it tells that it is not proved' grep -q '^ninecheck: not built yet: this answer comes from the same code' "$work/said"
fi
while IFS= read -r words; do
    # shellcheck disable=SC2086
    ask $words
    judge "$words" is_same
done <<'END'
digest examples/in-point.csv
delays --all examples/views/session.csv
motion examples/fast-forward.csv
json why examples/gap.csv
info examples/views/several-breaks.csv
try examples/drop-frame.csv
touches examples/in-point.csv
picture examples/late-reply.csv
page examples/views/late-replies.csv
convert sigrok --samplerate 2000000 examples/exports/sigrok.txt
check examples/play.csv
clock --help
END
judge 'the whole program is kept' [ "$(find "$copy/out/trial" -name 'whole-*' -perm -u+x -size +0 | wc -l)" -ge 1 ]

tell_counts
