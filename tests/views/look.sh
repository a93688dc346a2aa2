#!/usr/bin/env bash
# Pages as chromium draws them, light and dark: the style sheet is there, what breaks a rule is red, by its style and on the screen, and on
# the page of a yes nothing is (look.js). The last line is 'N passed, M failed'.
set -u
cd "$(dirname "$0")/../.." || exit 1
. tests/lib/tools.sh
need_tools node=nodejs chromium
. tests/lib/judge.sh
. tests/lib/program.sh

"$program" page examples/late-reply.csv > "$work/no.html" 2> "$work/err"
status=$?
judge 'the page of a break' [ "$status" = 1 ]
"$program" page examples/in-point.csv > "$work/yes.html" 2> "$work/err"
status=$?
judge 'the page of a yes' [ "$status" = 0 ]
judge_all 'the pages in chromium' node tests/views/look.js "$work"

tell_counts
