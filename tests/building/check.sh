#!/usr/bin/env bash
# Runs make/check.sh in a tree of a few tests, with a stand-in for the program: which tests run, what is told of one that
# fails, and how checks are counted. The last line is 'N passed, M failed'.
set -u
cd "$(dirname "$0")/../.." || exit 1
. tests/lib/judge.sh

tree="$work/a tree"
mkdir -p "$tree/make" "$tree/tests/lib" "$tree/tests/cases" "$tree/tests/one" "$tree/tests/two"
cp make/check.sh "$tree/make"
cp pytest.ini "$tree"
cp tests/conftest.py "$tree/tests"
cp tests/lib/*.py tests/lib/blocks.txt "$tree/tests/lib"

# script NAME LINES: a script of tests that does this.
script() {
    printf '#!/bin/sh\n%s\n' "$2" > "$tree/tests/$1"
    chmod +x "$tree/tests/$1"
}
# It says yes, but for a capture of none.
script ../program 'read -r header; read -r row || { echo none; exit 3; }; echo "$1: yes"'
cat > "$tree/tests/cases/answers.txt" <<'END'
case a row
ask info
records C 20
status 0
out info: yes

case not a row
ask info
ask touches
records
status 3
out none
END
cp "$tree/tests/cases/answers.txt" "$tree/answers"
script one/passes.sh 'echo "40 passed, 0 failed"'
script one/more.sh 'echo "needs \`make\`: a part"; echo "2 passed, 0 failed"'
script two/fails.sh 'echo "FAILED a check"; echo "5 passed, 3 failed"; exit 1'
script two/stops.sh 'echo "so far"; exit 7'
script two/wrong.sh 'echo "6 passed, 0 failed"; exit 1'
cat > "$tree/tests/two/test_more.py" <<'END'
def test_right(): assert 1 + 1 == 2
def test_wrong(): assert 'one' == 'two'
END

# check WORDS...: make/check.sh in the tree. What it says is left in $work/out.
check() {
    (cd "$tree" && NINECHECK="$tree/program" make/check.sh -p no:cacheprovider -n 1 "$@") > "$work/out" 2>&1
    status=$?
}
# ends STATUS LINE: it ended so.
ends() { [ "$status" = "$1" ] && [ "$(tail -n 1 "$work/out")" = "$2" ]; }
# says LINE...: it said these lines, whole.
says() {
    local line
    for line; do grep -qxF -- "$line" "$work/out" || return 1; done
}
# ran N: so many tests ran.
ran() { [ "$(grep -c "^$1 tests in [0-9]* s, the slowest: " "$work/out")" = 1 ]; }

check tests/one
judge 'a room' ends 0 '42 passed, 0 failed'
judge 'a room: its tests' ran 2
judge 'a part that is left out' says 'needs `make`: a part (tests/one/more.sh)' \
    '1 parts were left out, and 0 made smaller: the lines above say which, and what they need.'
check tests/one/passes.sh tests/two/test_more.py::test_right
judge 'a script, and a function' ends 0 '41 passed, 0 failed'
check tests/cases
judge 'a table' ends 0 '3 passed, 0 failed'
judge 'a table: its cases' ran 2
check 'tests/cases/answers.txt::a row'
judge 'a case by its name' ends 0 '1 passed, 0 failed'
check -k 'not a row'
judge 'a case by what its name has, with blanks' ends 0 '2 passed, 0 failed'
check -k 'cases and not fails'
judge 'an expression' ends 0 '3 passed, 0 failed'
check -k 'no such name'
judge 'a name that no test has' ends 5 '0 passed, 1 failed'
check tests/two/fails.sh
judge 'a script that fails' ends 1 '5 passed, 3 failed'
judge 'a script that fails: what it says, and how to run it alone' says 'FAILED a check' 'make/check.sh tests/two/fails.sh'
check tests/two/stops.sh
judge 'a script without its last line' ends 1 '0 passed, 1 failed'
judge 'a script without its last line: what it says' says 'so far' 'no last line, which is `N passed, M failed`'
check tests/two/wrong.sh
judge 'a script whose status is another' ends 1 '6 passed, 1 failed'
check tests/two/test_more.py
judge 'a function that fails' ends 1 '1 passed, 1 failed'
judge 'a function that fails: how to run it alone' says 'make/check.sh tests/two/test_more.py::test_wrong'
check tests/two/none.sh
judge 'a test that is not there' [ "$status" != 0 ]
check
judge 'all' ends 1 '57 passed, 6 failed'

# A table in which something is wrong.
sed -i 's/^status 3/status 1/' "$tree/tests/cases/answers.txt"
check tests/cases
judge 'a case that fails' ends 1 '1 passed, 2 failed'
judge 'a case that fails: what came, and how to run it alone' says touches '-status 1' '+status 3' "make/check.sh 'tests/cases/answers.txt::not a row'"
cp "$tree/answers" "$tree/tests/cases/answers.txt"
echo 'of no kind' >> "$tree/tests/cases/answers.txt"
check tests
judge 'a table that can not be read' says 'tests/cases/answers.txt:7: a line of no kind: of'
judge 'a table that can not be read: all else runs' ends 1 '54 passed, 7 failed'

# Where pytest is not there.
mkdir "$work/bin"
for tool in bash dirname; do ln -s "$(command -v $tool)" "$work/bin/$tool"; done
printf '#!/bin/sh\nexit 1\n' > "$work/python"
chmod +x "$work/python"
sed "s,/usr/bin/python3,$work/python," make/check.sh > "$tree/make/check.sh"
(cd "$tree" && make/check.sh) > "$work/out" 2> "$work/err"
status=$?
expect 'without pytest' 1 'pytest and its xdist are not there: `make tools` installs them
0 passed, 1 failed' ''

tell_counts
