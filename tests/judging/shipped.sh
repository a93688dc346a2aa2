#!/usr/bin/env bash
# Runs the built program with several sheets, and with those that it has in itself: each is that of decks/, a name without a slash is the one
# inside, and a capture that one is for is a no without it and a yes with it. The last line is 'N passed, M failed'.
set -u
cd "$(dirname "$0")/../.." || exit 1
. tests/lib/judge.sh
. tests/lib/program.sh

judge 'the sheets inside the program are those of decks/' make/decks.sh --check

# The short name of each sheet, and its file, as the program has them.
names=$(sed -n 's/^ *"\(.*\)" => Some(\(.*\)),$/\1 \2/p' crates/program9/src/shipped.rt)
judge 'there are nine or more' [ "$(wc -l <<< "$names")" -ge 9 ]
judge 'each is tried where what to ask next is sought' \
    [ "$(sed -n 's/^ *Habit::[A-Za-z]* => "\(.*\)",$/\1/p' crates/asking9/src/habit.rt | sort)" = "$(cut -d ' ' -f 1 <<< "$names" | sort)" ]
while read -r name constant; do
    file=decks/$(tr 'A-Z_' 'a-z-' <<< "$constant").toml
    for capture in examples/*.csv; do
        "$program" why --all --deck "$file" "$capture" > "$work/by-file" 2> "$work/by-file-err"
        by_file=$?
        "$program" why --all --deck "$name" "$capture" > "$work/out" 2> "$work/err"
        [ $? = "$by_file" ] && cmp -s "$work/by-file" "$work/out" && cmp -s "$work/by-file-err" "$work/err" || echo "$capture"
    done > "$work/differ"
    judge "$name answers as $file on every example" [ ! -s "$work/differ" ]
done <<< "$names"

# What each is for: a no without it, and a yes with it.
while read -r name capture; do
    run check "examples/$capture.csv"
    judge "$capture is a no without a sheet" [ "$status" = 1 ]
    run check --deck "$name" "examples/$capture.csv"
    judge "$capture is a yes with $name" [ "$status" = 0 ]
done << 'END'
eject eject
eject points-lost-later
jog jog-for-var
no-bit no-motion-bit
rewind rewind-at-the-end
user-bits user-bits
END

# After AUTO EDIT the points are lost: that needs both sheets, in either order.
capture=examples/auto-edit.csv
for words in '' '--deck 9pin' '--deck edit'; do
    run check $words $capture
    judge "a no with '$words'" [ "$status" = 1 ]
done
yes='yes: records 100, exchanges 11, open 0'
for words in '--deck 9pin --deck edit' '--deck edit --deck=9pin' '--deck 9pin --deck edit --deck 9pin' '--deck edit --deck examples/auto-edit.toml'; do
    run check $words $capture
    expect "$words" 0 "$yes" ''
done
run page --deck 9pin --deck edit $capture
judge 'the page names both' grep -q ', deck sheet 9pin and edit <code>--all --deck 9pin --deck edit</code>' "$work/out"
run try --deck 9pin --deck edit $capture
judge 'try asks with both at once' grep -qx -- "--rate 25 --deck: $yes" "$work/out"

# What two say differently, by both files; what they say alike is taken.
printf '[passes]\nVAR = ["JOG"]\n' > "$work/one.toml"
printf '[passes]\nVAR = ["JOG", "JOG"]\nSTOP = []\n' > "$work/alike.toml"
printf '[passes]\nSTOP = ["REW"]\nVAR = ["PLAY"]\n' > "$work/other.toml"
run check --deck "$work/one.toml" --deck "$work/alike.toml" --deck jog examples/jog-for-var.csv
expect 'what is said alike' 0 'yes: records 39, exchanges 5, open 0' ''
run check --deck rewind --deck "$work/one.toml" --deck "$work/alike.toml" --deck "$work/other.toml" absent.csv
expect 'what is said differently' 3 '' "unreadable deck sheet
$work/other.toml: [passes] \"VAR\": said otherwise in $work/one.toml"
run check --deck 9pin --deck user-bits absent.csv
expect 'a selector' 3 '' 'unreadable deck sheet
user-bits: [replies] "61 0C 01": said otherwise in 9pin'
# All are opened first, and then the first that is wrong is told.
printf '[runs\n' > "$work/torn.toml"
run check --deck jog --deck "$work/torn.toml" --deck var-play absent.csv
expect 'the first that is wrong' 3 '' "unreadable deck sheet
$work/torn.toml: line 1: not TOML"
run check --deck "$work/torn.toml" --deck "$work/absent.toml" absent.csv
expect 'one that is not there' 4 '' "cannot open
$work/absent.toml: No such file or directory"

# A name without a slash is the sheet inside; with one it is a file.
printf '[passes]\nVAR = ["PLAY"]\n' > "$work/jog"
top=$PWD
cd "$work" || exit 1
run check --deck jog "$top/examples/jog-for-var.csv"
judge 'the name wins' [ "$status" = 0 ]
run check --deck ./jog "$top/examples/jog-for-var.csv"
judge 'with a slash it is the file' [ "$status" = 1 ]
cd "$top" || exit 1

# --help, the man page and the completions name all.
run check --help
for name in $(cut -d ' ' -f 1 <<< "$names"); do
    for page in "$work/out" package/ninecheck.bash package/ninecheck.zsh package/ninecheck.fish docs/DECKS.md; do
        judge "$name in $page" grep -qw -- "$name" "$page"
    done
    judge "$name in the man page" grep -qxF -- ".B ${name//-/\\-}" package/ninecheck.1
done

tell_counts
