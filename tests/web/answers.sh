#!/usr/bin/env bash
# Asks the program of the page what the built program is asked, on each example, case and export: the status, both streams and the
# files that are made are the same, byte for byte. The last line is 'N passed, M failed'.
set -u
cd "$(dirname "$0")/../.." || exit 1
. tests/lib/tools.sh
need_tools node=nodejs
. tests/lib/judge.sh
. tests/lib/program.sh
. tests/lib/browser.sh

mkdir "$work/cases"
judge_all 'the tables' /usr/bin/python3 -B tests/lib/tables.py "$work/cases" tests/cases/*.txt
judge_all 'the answers' node tests/web/answers.js "$wasm" "$program" "$work/cases"

tell_counts
