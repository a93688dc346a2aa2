#!/usr/bin/env bash
# Runs the tests of tests/ on the built program, side by side: as many at a time as there are processors, since some wait for what
# takes a moment on a machine that is not busy. Nothing is proved. Where nothing is built, they run on the program that make/keep.sh
# compiles with run-time checks: some at a smaller size, and without what needs the built one, which they say. The last lines tell the
# slowest, and count all checks.
#
#   make/check.sh [TEST...] [WORDS OF PYTEST...]   these alone: a room, a script, a table, a case; tests/README.md tells more
set -u
cd "$(dirname "$0")/.." || exit 1
python=/usr/bin/python3
"$python" -c 'import pytest, xdist' 2> /dev/null || {
    echo 'pytest and its xdist are not there: `make tools` installs them'
    echo '0 passed, 1 failed'
    exit 1
}
if [ -z "${NINECHECK-}" ] && [ ! -x crates/ninecheck/out/ninecheck ]; then
    make/keep.sh make whole || exit
    NINECHECK=$(make/keep.sh path whole) || exit
    export NINECHECK NINECHECK_TRIAL=said
    echo 'Nothing is built: the tests run on what was compiled with run-time checks and without its proof.'
fi
PYTHONDONTWRITEBYTECODE=1 exec "$python" -m pytest -n "$(nproc)" "$@"
