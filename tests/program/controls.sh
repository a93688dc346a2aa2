#!/usr/bin/env bash
# Gives the program every control character in each place where it reads one, and finds none in what it writes (controls.py). The last
# line is 'N passed, M failed'.
set -u
cd "$(dirname "$0")/../.." || exit 1
. tests/lib/tools.sh
need_tools python3
. tests/lib/judge.sh
. tests/lib/program.sh

texts=18
smaller texts 3 'texts with control characters'
judge_all 'no control character' python3 -B tests/program/controls.py "$program" "$work" "$texts"

tell_counts
