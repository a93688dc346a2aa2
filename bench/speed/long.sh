#!/usr/bin/env bash
# What a record costs in a long capture: `check --all` of 30,000,000 records of PLAY and its acknowledgement, or of as many as the
# first word says, beside `check` and `check --all` of the first 4,000,000 of them. All are read from a pipe, in turn, five times or
# as often as the second word says. Tells the best processor time of a record, the greatest resident memory, and the ratios of both
# to `check`. Not part of the gate. The program is the one that `make` or the gate built.
set -u
records=${1:-30000000}
turns=${2:-5}
top=$(cd "$(dirname "$0")/../.." && pwd)
program=${NINECHECK:-$top/crates/ninecheck/out/ninecheck}
[ -x "$program" ] || { echo "build the program first: make"; exit 1; }

PYTHONDONTWRITEBYTECODE=1 PYTHONPATH=$top/bench/lib python3 - "$program" "$records" "$turns" <<'PY'
import os, subprocess, sys, threading, time
from blocks import ACK, block
program, records, turns = sys.argv[1], int(sys.argv[2]), int(sys.argv[3])
MOST_WITHOUT_ALL = 4000000
WAIT_US = 400
LENGTH = 6

# A stretch of ten seconds, of whole exchanges, 400 microseconds apart: of each row what stands behind the number of the stretch. So
# times rise, all rows are of one length, and a stretch is joined faster than any program reads it.
STRETCH_US = 10 ** 7
sent = [('C', byte) for byte in block(2, 0x01)] + [('D', byte) for byte in ACK]
IN_STRETCH = STRETCH_US // WAIT_US // LENGTH * LENGTH
ROWS = [b'%07d,%s,%02X' % (k * WAIT_US, sent[k % LENGTH][0].encode(), sent[k % LENGTH][1]) for k in range(IN_STRETCH)]

# Writes so many records into the pipe. A program that ends before them, as at a bad row, is told by what it answers.
def feed(pipe, number):
    try:
        with pipe:
            pipe.write(b'time_us,wire,byte')
            stretch = 0
            while number > 0:
                stretch += 1
                before = b'\n%06d' % stretch
                pipe.write(before + before.join(ROWS[:number]))
                number -= IN_STRETCH
            pipe.write(b'\n')
    except BrokenPipeError:
        pass

# Processor time for a record in nanoseconds, of the program and of the system for it, and the greatest resident memory in kB.
def cost(words, number, wanted):
    child = subprocess.Popen([program, *words], stdin=subprocess.PIPE, stdout=subprocess.PIPE)
    feeder = threading.Thread(target=feed, args=(child.stdin, number))
    feeder.start()
    high = 0
    while True:
        with open(f'/proc/{child.pid}/status') as told:
            high = max([high] + [int(line.split()[1]) for line in told if line.startswith('VmHWM')])
        ended, status, used = os.wait4(child.pid, os.WNOHANG)
        if ended:
            break
        time.sleep(0.01)
    child.returncode = os.waitstatus_to_exitcode(status)
    feeder.join()
    came = child.stdout.read().decode()
    if came != wanted or child.returncode != 0:
        sys.exit(f'{" ".join(words)} of {number} records: status {child.returncode}, {came}')
    return (used.ru_utime + used.ru_stime) / number * 1e9, high

def yes(number):
    return f'yes: records {number}, exchanges {number // LENGTH}, open {number % LENGTH}\n'

def totals(number):
    return f'breaks 0: records {number}, exchanges {number // LENGTH}, passed over 0, open {number % LENGTH}\n'

few = min(records, MOST_WITHOUT_ALL)
asked = [(['check'], few, yes(few)), (['check', '--all'], few, totals(few)), (['check', '--all'], records, totals(records))]
runs = [[cost(*one) for one in asked] for _ in range(turns)]
found = [(min(times), max(memory)) for times, memory in (zip(*column) for column in zip(*runs))]
for (words, number, _), (nanoseconds, kilobytes) in zip(asked, found):
    print(f'{" ".join(words)} of {number} records: {nanoseconds:.1f} ns a record, ratio {nanoseconds / found[0][0]:.2f}; '
          f'resident memory {kilobytes} kB, ratio {kilobytes / found[0][1]:.2f}')
PY
