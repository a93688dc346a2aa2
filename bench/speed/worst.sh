#!/usr/bin/env bash
# What `why` and `run` cost at their worst, as processor time and resident memory, and as ratios to `check` of PLAY and its
# acknowledgement on 4,000,000 records:
#
# - `why` where nearly every exchange is needed: a preset, acknowledged shifts and a sense one frame short of them, on 20,000 and
#   on 200,000 records; and with hands the same of refused LOCAL ENABLEs.
# - `why` where 2, 4, 8 or 16 needed shifts are spread over 4,000,000 records, of PLAY and of mixed traffic.
# - `why` and `run` of presets to a deck in LOCAL in no order, a yes.
# - All four commands with a stack of 512 KiB, on PLAY and on mixed traffic.
#
# Not part of the gate. The program is the one that `make` or the gate built.
set -u
top=$(cd "$(dirname "$0")/../.." && pwd)
program=${NINECHECK:-$top/crates/ninecheck/out/ninecheck}
[ -x "$program" ] || { echo "build the program first: make"; exit 1; }
work=$(mktemp -d)
trap 'rm -rf "$work"' EXIT

PYTHONDONTWRITEBYTECODE=1 PYTHONPATH=$top/bench/lib python3 - "$program" "$work" <<'PY'
import itertools, os, resource, subprocess, sys
from blocks import ACK, block, mixed, shuffled_presets, time_bytes, write
program, work = sys.argv[1:]
RECORDS = 4000000
capture = f'{work}/capture.csv'

PLAY = (block(2, 0x01), ACK)
NAK = block(1, 0x12, 0x01)
REMOTE = block(6, 0x20, 0x01), block(7, 0x20, 0x00)
PANEL_OFF = block(0, 0x0C), ACK
PANEL_ON_REFUSED = block(0, 0x1D), NAK
SHIFT = block(4, 0x18), ACK

def preset(frame):
    return block(4, 0x14, *time_bytes(frame)), ACK

def sensed(frame):
    return block(6, 0x10), block(7, 0x10, *time_bytes(frame))

def length(exchanges):
    return sum(len(sent) for exchange in exchanges for sent in exchange)

# As many shifts as records allow: each is needed, as the sense is one frame short.
def dense(records):
    shifts = records // length([SHIFT])
    return [REMOTE, preset(900000), *[SHIFT] * shifts, sensed(900000 + shifts - 1)]

# As many refusals to switch the panel on: each is needed, as a hand could else have moved IN.
def dense_with_hands(records):
    refusals = records // length([PANEL_ON_REFUSED])
    return [PANEL_OFF, REMOTE, preset(900000), *[PANEL_ON_REFUSED] * refusals, sensed(900001)]

# So many shifts, evenly among turns of other traffic that leave IN alone.
def spread(shifts, turns):
    between = (RECORDS - length([REMOTE, preset(900000), *[SHIFT] * shifts, sensed(0)])) // (shifts + 1)
    yield from (REMOTE, preset(900000))
    turn = list(next(turns))
    for shift in range(shifts + 1):
        left = between
        while length(turn) <= left:
            left -= length(turn)
            yield from turn
            turn = list(next(turns))
        if shift < shifts:
            yield SHIFT
    yield sensed(900000 + shifts - 1)

# Processor time in seconds, and the greatest resident memory in kB.
def cost(words, answer, stack=None):
    def limit():
        if stack:
            resource.setrlimit(resource.RLIMIT_STACK, (stack, stack))
    with open(capture, 'rb') as text, open('/dev/null', 'wb') as to:
        child = subprocess.Popen(words, stdin=text, stdout=to, preexec_fn=limit)
        _, status, used = os.wait4(child.pid, 0)
        child.returncode = os.waitstatus_to_exitcode(status)
        if child.returncode != answer:
            sys.exit(f'{words}: status {child.returncode}')
        return used.ru_utime + used.ru_stime, used.ru_maxrss

def told(name, verb, answer, *words):
    quiet = ['--quiet'] if verb == 'why' else []
    seconds, memory = cost([program, verb, *quiet, *words], answer)
    print(f'{name}: {verb} {seconds:.2f} s, {seconds / checked:.1f} times check, {memory / 1000:.0f} MB', flush=True)
    return seconds

write(capture, itertools.repeat(PLAY), RECORDS)
checked = min(cost([program, 'check'], 0)[0] for _ in range(3))
print(f'PLAY and ACK: check {checked:.2f} s')
for name, make, words in (('needed shifts', dense, ()), ('needed refusals', dense_with_hands, ('--hands',))):
    seconds = []
    for records in (20000, 200000):
        write(capture, make(records))
        seconds.append(told(f'{name}, {records} records', 'why', 1, *words))
    print(f'{name}: ten times the records take {seconds[1] / seconds[0]:.0f} times as long')
for name, turns in (('PLAY', lambda: itertools.repeat([PLAY])), ('mixed traffic', lambda: (mixed(turn, 1) for turn in itertools.count()))):
    for shifts in (2, 4, 8, 16):
        write(capture, spread(shifts, turns()))
        told(f'{shifts} needed shifts spread over {name}', 'why', 1)
for verb, records in (('why', 2000000), ('why', 4000000), ('run', 500000), ('run', 1000000), ('run', 2000000)):
    write(capture, shuffled_presets(records // 10 - 2))
    told(f'shuffled presets, {records} records', verb, 0)
for name, exchanges in (('PLAY', itertools.repeat(PLAY)), ('mixed traffic', itertools.chain.from_iterable(mixed(turn) for turn in itertools.count()))):
    write(capture, exchanges, RECORDS)
    for verb in ('check', 'explain', 'run', 'why'):
        cost([program, verb], 0, 512 * 1024)
    print(f'{name}: all four commands run with a stack of 512 KiB')
PY
