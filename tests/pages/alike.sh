#!/usr/bin/env bash
# No sentence stands on two pages, but for those of alike.txt. The last line is 'N passed, M failed'.
set -u
cd "$(dirname "$0")/../.." || exit 1
. tests/lib/tools.sh
need_tools python3
exec python3 -B tests/pages/alike.py tests/pages/alike.txt
