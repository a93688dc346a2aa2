#!/usr/bin/env bash
# What the program costs in a browser's engine (node's), beside the built one: the processor time of `check` and `page` on 1,000,000 records
# of polling (bench/lib/polling.py), as ratios to the built program in the same run, and the memory of both on 4,000,000; how long the module
# takes to be ready, and the size of the page; and `check --all` of 40,000,000 records, or of as many as the second word says, which are
# made as they are read. In a page's first asking the engine compiles what is used most, so the first is told apart from those after it.
# All are run five times or as often as the first word says, and the best time of each counts. Wanted are at most 3.5 times the built
# program's time behind the first asking; 8.5 MiB for `check`, also of 40,000,000 records, and 200 MiB for the page of 4,000,000; a page of
# 1.2 MB, ready in 2 s: else this ends with status 1. Not part of the gate. It takes what `make` built, and what `make web` made.
set -u
turns=${1:-5}
records=${2:-40000000}
top=$(cd "$(dirname "$0")/../.." && pwd)
program=${NINECHECK:-$top/crates/ninecheck/out/ninecheck}
wasm=${WASM:-$top/out/web/ninecheck.wasm}
page=$top/out/ninecheck-$("$top/make/version.sh").html
[ -x "$program" ] || { echo "build the program first: make"; exit 1; }
[ -e "$wasm" ] && [ -e "$page" ] || { echo "make the page first: make web"; exit 1; }

work=$(mktemp -d)
trap 'rm -rf "$work"' EXIT
PYTHONDONTWRITEBYTECODE=1 PYTHONPATH=$top/bench/lib python3 - "$program" "$wasm" "$page" "$top/bench/web/ask.js" "$work" "$turns" "$records" <<'PY'
import json, os, subprocess, sys
from polling import write
program, wasm, page, ask, work = sys.argv[1:6]
turns, records = map(int, sys.argv[6:])
MIB = 1 << 20
capture = f'{work}/polling.csv'
is_too_much = False

# Tells a figure, and whether it is more than is wanted.
def tell(what, value, most, form='{:.2f}'):
    global is_too_much
    is_too_much |= value > most
    print(f'{what}: {form.format(value)}' + (f', more than {form.format(most)}' if value > most else ''))

# Processor time in milliseconds of the built program and of the system for it.
def built(words):
    with open(f'{work}/out', 'wb') as out:
        child = subprocess.Popen([program, *words.split(), capture], stdout=out)
        _, status, used = os.wait4(child.pid, 0)
    child.returncode = os.waitstatus_to_exitcode(status)
    if child.returncode != 0:
        sys.exit(f'{words}: status {child.returncode}')
    return 1000 * (used.ru_utime + used.ru_stime)

# What the module says of the same, asked so often by one page.
def in_engine(words, times=1, of=capture):
    told = json.loads(subprocess.run(['node', ask, wasm, str(times), of, *words.split()], stdout=subprocess.PIPE, check=True).stdout)
    if told['status'] != 0:
        sys.exit(f'{words} in an engine: status {told["status"]}')
    return told

write(capture, 1000000, False)
for words in ('check', 'page'):
    told = in_engine(words, turns + 1)
    own = min(built(words) for _ in range(turns))
    print(f'{words} of 1,000,000 records, first of all askings, times the built program: {told["first"] / own:.2f}')
    tell(f'{words} of 1,000,000 records, times the built program', told['later'] / own, 3.5)
tell('ready, in seconds', told['ready'] / 1000, 2)
tell('the page, in bytes', os.path.getsize(page), 1200000, '{:.0f}')
write(capture, 4000000, False)
tell('check of 4,000,000 records, in MiB', in_engine('check')['memory'] / MIB, 8.5)
tell('page of 4,000,000 records, in MiB', in_engine('page')['memory'] / MIB, 200)
told = in_engine('check --all', 1, str(records))
tell(f'check --all of {records} records, in MiB', told['memory'] / MIB, 8.5)
print(f'{told["end"].strip()}, in {told["first"] / 1000:.0f} s')
sys.exit(is_too_much)
PY
