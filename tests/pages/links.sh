#!/usr/bin/env bash
# Each name of a page is a link that leads somewhere, each picture is there, and no line of code is too long for a forge. The last line
# is 'N passed, M failed'.
set -u
cd "$(dirname "$0")/../.." || exit 1
. tests/lib/tools.sh
need_tools python3
exec python3 -B tests/pages/links.py
