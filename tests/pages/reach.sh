#!/usr/bin/env bash
# Checks that docs/THEOREM.md lists each definition file and each declared type that the main contracts reach, and no other:
# `reach.py` follows the contracts, and writes the page. The last line is 'N passed, M failed'.
set -u
cd "$(dirname "$0")/../.." || exit 1
. tests/lib/tools.sh
need_tools python3
exec python3 tests/pages/reach.py
