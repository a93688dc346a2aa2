#!/usr/bin/env bash
# How much processor time the program takes on 4,000,000 records, as ratios: `check` to a loop that only reads the same
# rows with csv into one record, and `explain` and `run` into a file to `check`; on a capture of PLAY and its
# acknowledgement, and on one of mixed traffic (status, time and register senses, presets, shifts). Where valgrind is there,
# it also counts the instructions that each of the four takes for a record, on the first 200,000 of them. Then `check` and
# `explain` on presets in no order, as ratios to PLAY and to half as many presets. Then `why` to `check`, both on a no of as
# many records as whole turns of mixed traffic allow: the last three exchanges contradict one another, or the first of those
# three lies 94 exchanges before the last (at most 1.8 is wanted of both), or 400,000 (at most 8); without --quiet, where it also
# says what to ask next, at most 3 is wanted of the first two. All are run in turn,
# fifteen times or as often as the first word says, and the best time of each counts. It also says the greatest resident
# memory, that of `run` and of `why` on the same captures too. Not part of the gate. The program is the one that `make` or
# the gate built.
set -u
turns=${1:-15}
top=$(cd "$(dirname "$0")/../.." && pwd)
program=${NINECHECK:-$top/crates/ninecheck/out/ninecheck}
[ -x "$program" ] || { echo "build the program first: make"; exit 1; }

# The reading loop is a crate of its own, made and built outside the repository.
work=$(mktemp -d)
trap 'rm -rf "$work"' EXIT
mkdir -p "$work/crates/read_rows/src"
cp "$top/bench/speed/read_rows.rattle" "$work/crates/read_rows/src/main.rt"
echo 'read_rows: csv' > "$work/crates.txt"
echo 'time_us,wire,byte' > "$work/crates/read_rows/stdin"
(cd "$work" && git init -q . && cd crates/read_rows && rt run < stdin > "$work/log" 2>&1)
reader=$work/crates/read_rows/out/read_rows
[ -x "$reader" ] || { cat "$work/log"; echo "the reading loop could not be built"; exit 1; }

PYTHONDONTWRITEBYTECODE=1 PYTHONPATH=$top/bench/lib python3 - "$program" "$reader" "$work" "$turns" <<'PY'
import os, re, shutil, subprocess, sys, time
from blocks import ACK, block, mixed, shuffled_presets, time_bytes, write
program, reader, work, turns = sys.argv[1:]
RECORDS = 4000000
COUNTED = 200000

PLAY = [(block(2, 0x01), ACK)]

# A deck that is in REMOTE, a preset of IN, and a sense that answers another time; and a preset of OUT.
REMOTE = block(6, 0x20, 0x01), block(7, 0x20, 0x00)
PRESET = block(4, 0x14, *time_bytes(900000)), ACK
SENSED = block(6, 0x10), block(7, 0x10, *time_bytes(990000))
OUT_PRESET = block(4, 0x15, *time_bytes(0)), ACK

def all_turns(exchanges):
    turn = 0
    while True:
        yield from exchanges(turn)
        turn += 1

def length(exchanges):
    return sum(len(sent) for exchange in exchanges for sent in exchange)

TURN = length(mixed(0))

# As many turns as there is room for, and then what `exchanges` gives each time it is asked.
def after_turns(exchanges):
    for turn in range((RECORDS - length(exchanges())) // TURN):
        yield from mixed(turn)
    yield from exchanges()

def contradicting_at_end():
    return after_turns(lambda: (REMOTE, PRESET, SENSED))

# The first of those that contradict one another is the preset, since each status reply says that the deck is in REMOTE.
# Between it and the last are so many turns that leave IN alone, and three exchanges more.
def contradicting_across(turns_between):
    def exchanges():
        yield from (REMOTE, PRESET, OUT_PRESET)
        for turn in range(turns_between):
            yield from mixed(turn, 1)
        yield from (REMOTE, REMOTE, SENSED)
    return after_turns(exchanges)

# How many records the first of them lies before the last.
def apart(turns_between):
    return turns_between * TURN + length([PRESET, OUT_PRESET, REMOTE, REMOTE])

# Processor time, of the program and of the system for it: how long it waits for a processor does not count.
def seconds(words, capture, out, answer=0):
    with open(capture, 'rb') as text, open(out, 'wb') as to:
        child = subprocess.Popen(words, stdin=text, stdout=to)
        _, status, used = os.wait4(child.pid, 0)
        child.returncode = os.waitstatus_to_exitcode(status)
        if child.returncode != answer:
            sys.exit(f'{words}: status {child.returncode}')
        return used.ru_utime + used.ru_stime

def peak(words, capture):
    high = 0
    with open(capture, 'rb') as text:
        child = subprocess.Popen(words, stdin=text, stdout=subprocess.DEVNULL)
        while child.poll() is None:
            with open(f'/proc/{child.pid}/status') as status:
                high = max([high] + [int(line.split()[1]) for line in status if line.startswith('VmHWM')])
            time.sleep(0.01)
    return high

# The instructions of a run for each of the records counted, what it takes beside them included.
def instructions(words, capture):
    with open(capture, 'rb') as text, open(f'{work}/lines', 'wb') as to:
        counted = subprocess.run(['valgrind', '--tool=callgrind', '--callgrind-out-file=/dev/null', *words],
                                 stdin=text, stdout=to, stderr=subprocess.PIPE, text=True, check=True)
    return int(re.search(r'Collected : (\d+)', counted.stderr).group(1)) / COUNTED

check, explain, run, why, hinted = ([program, *words.split()] for words in ('check', 'explain', 'run', 'why --quiet', 'why'))
for name, exchanges in (('PLAY and ACK', lambda turn: PLAY), ('mixed traffic', mixed)):
    capture = f'{work}/capture.csv'
    write(capture, all_turns(exchanges), RECORDS)
    runs = [(seconds(check, capture, '/dev/null'), seconds([reader], capture, '/dev/null'),
             seconds(explain, capture, f'{work}/lines'), seconds(run, capture, f'{work}/lines')) for _ in range(int(turns))]
    judged, read, told, found = (min(column) for column in zip(*runs))
    print(f'{name}: check {judged:.3f} s, reading {read:.3f} s, ratio {judged / read:.2f}; '
          f'explain {told:.3f} s, ratio to check {told / judged:.2f}; '
          f'run {found:.3f} s, ratio to check {found / judged:.2f}; '
          f'resident memory {peak(check, capture)} kB, {peak(explain, capture)} kB, {peak(run, capture)} kB, '
          f'of why {peak(why, capture)} kB')
    if shutil.which('valgrind'):
        write(capture, all_turns(exchanges), COUNTED)
        read, judged, told, found = (instructions(words, capture) for words in ([reader], check, explain, run))
        print(f'{name}: instructions a record: reading {read:.0f}, check {judged:.0f}, ratio {judged / read:.2f}; '
              f'explain {told:.0f}, ratio to check {told / judged:.2f}; run {found:.0f}, ratio to check {found / judged:.2f}')

captures = {'PLAY and ACK': all_turns(lambda turn: PLAY), 'shuffled presets': shuffled_presets(RECORDS // 10), 'half as many': shuffled_presets(RECORDS // 10)}
for name, exchanges in captures.items():
    write(f'{work}/{name}.csv', exchanges, RECORDS // 2 if name == 'half as many' else RECORDS)
for verb in 'check', 'explain':
    runs = [[seconds([program, verb], f'{work}/{name}.csv', f'{work}/lines') for name in captures] for _ in range(int(turns))]
    play, shuffled, half = (min(column) for column in zip(*runs))
    print(f'shuffled presets: {verb} {shuffled:.3f} s, ratio to PLAY and ACK {shuffled / play:.2f}, '
          f'to half as many {shuffled / half:.2f}; '
          f'resident memory {peak([program, verb], f"{work}/shuffled presets.csv")} kB')

# The exchanges that contradict one another: how many are told, and how many records the first of them lies before the last.
def told_apart(path):
    with open(path) as lines:
        firsts = [int(line.split()[1]) for line in lines if line.startswith('records ')]
    return len(firsts), firsts[-1] - firsts[0]

for name, exchanges, records in (('contradicting at the end', contradicting_at_end(), 18),
                                 ('contradicting within 94', contradicting_across(15), apart(15)),
                                 ('contradicting from afar', contradicting_across(66666), apart(66666))):
    capture = f'{work}/capture.csv'
    write(capture, exchanges, RECORDS)
    runs = [(seconds(check, capture, '/dev/null', 1), seconds(hinted, capture, '/dev/null', 1), seconds(why, capture, f'{work}/lines', 1))
            for _ in range(int(turns))]
    if told_apart(f'{work}/lines') != (3, records):
        sys.exit(f'{name}: {told_apart(f"{work}/lines")} was told')
    judged, next_asked, sought = (min(column) for column in zip(*runs))
    print(f'{name}: check {judged:.3f} s; why --quiet {sought:.3f} s, ratio to check {sought / judged:.2f}; '
          f'why {next_asked:.3f} s, ratio to check {next_asked / judged:.2f}; '
          f'resident memory {peak(check, capture)} kB, {peak(why, capture)} kB, of run {peak(run, capture)} kB')
PY
