#!/usr/bin/env bash
# How much processor time the program's own views take, as ratios to `check` of the same capture in the same run, on 1,000,000 and on
# 4,000,000 records, and the greatest resident memory of each. The capture is polling (bench/lib/polling.py): STATUS SENSE and CURRENT
# TIME SENSE in each frame of a deck that plays, with a preset and its sense every minute. All are run in turn, five times or as often
# as the first word says, and the best time of each counts. Wanted are at most 8 times `check` for the eight lines of `try`, 4 for
# `page`, 2.5 for `json`, 2 for `digest`, `delays` and `motion`, and 1.5 for `info`; a page below 5 MB; of all but `try` and the page,
# which keep the capture, 64 MB, and no more memory for the longer capture: else this ends with status 1. Not part of the gate. The
# program is the one that the gate or `make` built.
set -u
turns=${1:-5}
top=$(cd "$(dirname "$0")/../.." && pwd)
program=${NINECHECK:-$top/crates/ninecheck/out/ninecheck}
[ -x "$program" ] || { echo "build the program first: make"; exit 1; }

work=$(mktemp -d)
trap 'rm -rf "$work"' EXIT
PYTHONDONTWRITEBYTECODE=1 PYTHONPATH=$top/bench/lib python3 - "$program" "$work" "$turns" <<'PY'
import os, subprocess, sys
from polling import write
program, work, turns = sys.argv[1], sys.argv[2], int(sys.argv[3])
TIMES = {'json': 2.5, 'digest': 2, 'delays': 2, 'motion': 2, 'info': 1.5, 'try': 8, 'page': 4}
KEEPS = ('try', 'page')
VIEWS = ('check', 'explain', *TIMES, 'json --bytes', 'json why', 'json run', 'clock')
PAGE_BYTES = 5000000
KILOBYTES = 64000

# Processor time of the program and of the system for it, in seconds, and the greatest resident memory in KB.
def measure(words, capture):
    with open(capture, 'rb') as text, open(f'{work}/out', 'wb') as out:
        child = subprocess.Popen([program, *words.split()], stdin=text, stdout=out)
        _, status, used = os.wait4(child.pid, 0)
    child.returncode = os.waitstatus_to_exitcode(status)
    if child.returncode != 0:
        sys.exit(f'{words}: status {child.returncode}')
    return used.ru_utime + used.ru_stime, used.ru_maxrss

is_too_much = False
memory = {}
for records in (1000000, 4000000):
    capture = f'{work}/polling.csv'
    written, _ = write(capture, records, False)
    text = f'{work}/explained.txt'
    with open(text, 'wb') as out:
        subprocess.run([program, 'explain', '--bytes', capture], stdout=out)
    best = {}
    for _ in range(turns):
        for view in VIEWS:
            seconds, kilobytes = measure(view, text if view == 'clock' else capture)
            if view == 'page':
                page_bytes = os.path.getsize(f'{work}/out')
            best[view] = min(seconds, best.get(view, seconds))
            memory[view, records] = kilobytes
    print(f'{written} records, {os.path.getsize(capture) / 1e6:.0f} MB of CSV: check takes {best["check"]:.2f} s')
    for view in VIEWS[1:]:
        ratio = best[view] / best['check']
        told = f'{view}: {ratio:.1f} times check, {memory[view, records] / 1000:.1f} MB'
        if view in TIMES:
            grows = memory[view, records] > 1.5 * memory[view, 1000000]
            is_large = view == 'page' and page_bytes > PAGE_BYTES or view not in KEEPS and (memory[view, records] > KILOBYTES or grows)
            if ratio > TIMES[view] or is_large:
                is_too_much = True
                told += ', more than is wanted'
        print(told)
sys.exit(is_too_much)
PY
