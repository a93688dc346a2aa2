#!/usr/bin/env bash
# Runs `make` and `make audit` with a stand-in for `rt`: which crates are proved, over what, in which order, and what is said;
# what an interrupted run leaves to the next; and how refused edits are counted. The last line is 'N passed, M failed'.
set -u
cd "$(dirname "$0")/../.." || exit 1
. tests/lib/tools.sh
need_tools make
. tests/lib/judge.sh

tree=$work/tree
mkdir -p "$work/bin" "$work/told"
export TOLD=$work/told

# new_tree LINES: a tree with these lines as its crates.txt, and a file in each crate.
new_tree() {
    rm -rf "$tree" "$work"/told/*
    mkdir -p "$tree"
    cp -r make Makefile HANDLES ninecheck "$tree/"
    printf '%s\n' "$1" > "$tree/crates.txt"
    for crate in $(sed -n 's/^\([a-z_]*\):.*/\1/p' "$tree/crates.txt"); do
        mkdir -p "$tree/crates/$crate/src"
        echo "$crate" > "$tree/crates/$crate/src/lib.rt"
    done
    echo 'a capture' > "$tree/crates/ninecheck/stdin"
}

# An `rt` that proves: it tells what it was asked, and what was made of other crates, in out/how; a program echoes its words. It
# proves no crate that has a file `wrong`; one that is told to be slow waits, with work in out/part; and one that is told to
# meet another ends only once the other is begun.
cat > "$work/bin/rt" <<'END'
#!/bin/sh
[ "$1" != version ] || { echo 'a kit'; exit 0; }
crate=${PWD##*/}
echo "$crate" >> "$TOLD/order"
[ ! -e src/wrong ] || { echo "not proved: $crate"; exit 1; }
mkdir -p out
[ ! -e out/part ] || cp out/part "$TOLD/taken-up"
while [ -e "$TOLD/slow-$crate" ]; do
    echo "half of $crate" > out/part
    touch "$TOLD/begun-$crate"
    sleep 0.1
done
for other in $(cat "$TOLD/meets-$crate" 2> /dev/null); do
    touch "$TOLD/met-$crate"
    for tenth in $(seq 600); do [ -e "$TOLD/met-$other" ] || sleep 0.1; done
    [ -e "$TOLD/met-$other" ] || exit 1
done
echo "$* $crate over:" $(cat ../*/out/name 2> /dev/null) > out/how
echo "$crate" > out/name
[ "$1" = run ] || exit 0
cat > out/input
printf '#!/bin/sh\necho "$@"; cat; exit 7\n' > out/ninecheck
chmod +x out/ninecheck
END
chmod +x "$work/bin/rt"

# without_times: what make says, without the times and the lines of make itself.
without_times() { sed -E 's/^ *[0-9]+:[0-9]{2}  //; /^make(:|\[)/d'; }

# make_tree WORDS...: make in the tree.
make_tree() {
    (cd "$tree" && PATH="$work/bin:$PATH" make "$@") > "$work/said" 2> "$work/said_err" < /dev/null
    status=$?
    without_times < "$work/said" > "$work/out"
    without_times < "$work/said_err" > "$work/err"
}

crates='# lowest first
low: csv
high: low csv
high_tests: low high
ninecheck: low high'
end='The program is proved and built. Ask it: ./ninecheck check examples/play.csv'
new_tree "$crates"
touch "$tree/crates/high/src/wrong"
make_tree
judge 'a crate that is not proved' is_text 2 'low begun
low proved (1 of 3)
high begun' 'high NOT PROVED
not proved: high'
rm "$tree/crates/high/src/wrong" "$work/told/order"
make_tree
judge 'what was proved is not proved again' is_text 0 "low was proved before (1 of 3)
high begun
high proved (2 of 3)
ninecheck begun
ninecheck proved (3 of 3)
$end" ''
judge 'nothing else is proved' eval '[ "$(tr "\n" " " < "$work/told/order")" = "high ninecheck " ]'
judge 'the program is built last, and run on its capture' eval '[ "$(cat "$tree/crates/ninecheck/out/input")" = "a capture" ]'
judge 'nothing but the work of rt stays' eval '[ "$(cd "$tree" && ls -A | LC_ALL=C sort | tr "\n" " ")" = "HANDLES Makefile crates crates.txt make ninecheck " ]'
echo 'a row' | "$tree/ninecheck" two words > "$work/out" 2> "$work/err"
status=$?
judge 'the script runs the program that was built' is_text 7 'two words
a row' ''
make_tree
judge 'make again' is_text 0 "low was proved before (1 of 3)
high was proved before (2 of 3)
ninecheck was proved before (3 of 3)
$end" ''
echo 'another text' > "$tree/crates/high/src/lib.rt"
make_tree
judge 'a crate that changed, and what stands on it' is_text 0 "low was proved before (1 of 3)
high begun
high proved (2 of 3)
ninecheck begun
ninecheck proved (3 of 3)
$end" ''

# Side by side: each of two crates here ends only once the other is begun. Each is proved over what was made of those below it.
new_tree 'low:
left: low
right: low
ninecheck: left right'
echo right > "$work/told/meets-left"
echo left > "$work/told/meets-right"
make_tree
(cd "$tree" && cat crates/*/out/how) | sed 's/ --jobs [0-9]*//' > "$work/out"
judge 'crates side by side' is_text 0 'lib left over: low
lib low over:
run -- check ninecheck over: left low right
lib right over: low' ''

# How many jobs each gets, by processors and memory: `left` and `right` are at work side by side, and on `left` most waits.
# is_given PROCESSORS GIGABYTES LOW LEFT RIGHT: so many each.
is_given() {
    new_tree 'low:
left: low
right: low
top: left
ninecheck: right top'
    echo right > "$work/told/meets-left"
    echo left > "$work/told/meets-right"
    printf '#!/bin/sh\necho %s\n' "$1" > "$work/bin/nproc"
    chmod +x "$work/bin/nproc"
    echo "MemAvailable: $(($2 * 1000000)) kB" > "$work/memory"
    MEMINFO=$work/memory make_tree
    (cd "$tree" && cat crates/{low,left,right}/out/how) | sed 's/^lib --jobs \([0-9]*\) .*/\1/' | tr '\n' ' ' > "$work/out"
    judge "jobs of $1 processors and $2 GB" [ "$(cat "$work/out")" = "$3 $4 $5 " ]
    rm "$work/bin/nproc"
}
is_given 4 24 4 4 1
is_given 16 24 15 15 1
is_given 8 8 5 5 1
is_given 1 24 1 1 1
is_given 4 1 1 1 1

# Interrupted in the middle of a crate: the next run takes up what that crate's proof had come to.
new_tree "$crates"
touch "$work/told/slow-high"
(cd "$tree" && PATH="$work/bin:$PATH" exec make/prove.sh) > "$work/said" 2> "$work/err" < /dev/null &
job=$!
for _ in $(seq 600); do [ -e "$work/told/begun-high" ] || sleep 0.1; done
(cd "$tree" && PATH="$work/bin:$PATH" make/prove.sh) > "$work/second" 2>&1 < /dev/null
judge 'a second make beside the first is refused' grep -qxF 'another `make` is proving here: wait until it has ended' "$work/second"
kill -TERM "$job"
wait "$job"
status=$?
without_times < "$work/said" > "$work/out"
judge 'an interrupt' is_text 130 'low begun
low proved (1 of 3)
high begun' 'interrupted: `make` goes on from here'
rm "$work/told/slow-high"
make_tree
judge 'make goes on where it was interrupted' is_text 0 "low was proved before (1 of 3)
high begun
high proved (2 of 3)
ninecheck begun
ninecheck proved (3 of 3)
$end" ''
judge 'with what the crate had come to' eval '[ "$(cat "$work/told/taken-up")" = "half of high" ]'

# Where nothing is built, what needs it says what to do.
new_tree "$crates"
for target in install deb dist; do
    make_tree "$target"
    judge "make $target where nothing is built" is_text 2 '' 'nothing is built yet: run make first, it proves and builds the program'
done

# Without `rt` nothing can be proved: what proves says so, and runs nothing.
mkdir "$work/few" "$tree/.ci"
for tool in bash dirname env mkdir mktemp rm; do ln -s "$(command -v $tool)" "$work/few/$tool"; done
cp .ci/run "$tree/.ci"
for script in make/prove.sh .ci/run; do
    (cd "$tree" && PATH="$work/few" "./$script") > "$work/out" 2> "$work/err" < /dev/null
    status=$?
    cat "$work/err" >> "$work/out"
    : > "$work/err"
    said='nothing can be proved: `rt`, the command of the Rattle kit, is not on the path'
    [ "$script" = make/prove.sh ] || said="$said
0 passed, 1 failed"
    judge "$script where there is no rt" is_text 1 "$said" ''
done

# The audit: every edit of both places, on a copy, and how each was refused.
mkdir -p "$tree/crates/low/must-fail" "$tree/audit/low" "$tree/audit/high"
touch "$tree/crates/low/must-fail/one.edit" "$tree/audit/low/two.edit" "$tree/audit/high/three.edit"
# auditing SAID: an `rt` that finds the edits, and says this of the one of high.
auditing() {
    cat > "$work/bin/rt" <<END
#!/bin/sh
for edit in crates/*/must-fail/*.edit; do
    crate=\${edit#crates/}
    case \$edit in
        */one.edit) said='refused, as it must be: note: a clause' ;;
        */two.edit) said='refused, as it must be (only because a proof file names what the edit took away)' ;;
        *) said='$1' ;;
    esac
    echo "rt: must-fail \${crate%%/*}/\${edit##*/}: \$said"
done
END
    chmod +x "$work/bin/rt"
}
# audit: make audit. Of what it says the last lines are kept, but for that of the time.
audit() {
    make_tree audit
    tail -n 3 "$work/said" | sed '2d' > "$work/out"
}
auditing 'refused, as it must be (only by a limit of the prover)'
audit
judge 'an audit' is_text 0 'Of 3 edits 3 were refused: 1 by a clause, 1 only because a name was missing, 1 only by a limit of the prover.
3 passed, 0 failed' ''
for said in 'NOT REFUSED: the crate is still proved' 'BAD EDIT: it changes nothing' 'NOT TRIED: its check was killed'; do
    auditing "$said"
    audit
    judge "an edit of which is said: $said" is_text 2 'Of 3 edits 2 were refused: 1 by a clause, 1 only because a name was missing, 0 only by a limit of the prover.
2 passed, 1 failed' ''
done
judge 'the audit leaves the tree as it was' eval '[ "$(cd "$tree" && find . -name "*.edit" | sort | tr "\n" " ")" = "./audit/high/three.edit ./audit/low/two.edit ./crates/low/must-fail/one.edit " ]'

tell_counts
