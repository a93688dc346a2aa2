"""Draws captures of traffic, damages them, cuts rows off their beginnings, and compares what the program writes of each with --sync
with what it writes without it of the rows from the first that may begin a command, with the numbers moved: python3
tests/judging/sync.py PROGRAM DRAWN, how many are drawn. The same captures are drawn each time. The last line is 'N passed, M failed'."""
import collections
import os
import random
import re
import subprocess
import sys
from concurrent.futures import ThreadPoolExecutor

sys.path.insert(0, os.path.join(os.path.dirname(os.path.abspath(__file__)), '..', 'lib'))
from wire import HEADER, block_of, may_begin_command, other

PROGRAM, DRAWN = sys.argv[1], int(sys.argv[2])
# What is asked of each capture, and the options that are drawn for it.
WAYS = ['check', 'explain', 'run', 'why --quiet', 'check --all', 'explain --all', 'why --quiet --all']
OPTIONS = ['', '--hands', '--rate 29.97df', '--hands --rate 30']


# What a deck is asked and told while somebody edits. Some of it contradicts one another, and some breaks a rule by itself.
EXCHANGES = [[block_of(part) for part in line.split('->')] for line in """61 20 01 -> 71 20 00
61 20 01 -> 71 20 00
61 20 01 -> 71 20 01
61 20 04 -> 74 20 00 20 00 01
61 20 12 -> 72 20 20 00
61 20 12 -> 72 20 01 00
61 0C 01 -> 74 04 00 00 00 01
20 00 -> 10 01
20 01 -> 10 01
20 01 -> 11 12 01
20 02 -> 10 01
44 14 00 00 00 10 -> 10 01
44 14 00 00 00 10 -> 10 01
44 14 25 00 00 10 -> 10 01
60 10 -> 74 10 00 00 00 10
60 10 -> 74 10 00 00 00 10
60 10 -> 74 10 01 00 00 10
61 0C 01 -> 74 04 25 00 00 01
40 18 -> 10 01
00 0C -> 10 01
00 1D -> 10 01
20 61 -> 10 01
60 10 -> 10 01""".split('\n')]


def traffic(draw):
    """The records of a few exchanges: how long each comes after the one before, its wire and its byte."""
    records = []
    for command, reply in draw.choices(EXCHANGES, k=draw.randint(2, 14)):
        for wire, sent in ('C', command), ('D', reply):
            rests = draw.random() < (0.3 if wire == 'C' else 0.05)
            records += [[some_gap(draw) if rests and k == 0 else 400, wire, byte] for k, byte in enumerate(sent)]
    return records


def some_gap(draw):
    """At a limit, one microsecond above it, or far above."""
    return draw.choice([9287, 9288, 10287, 10288, 30000])


def damage(draw, records):
    """What a line and a tap do: a byte is lost, comes twice, late, on the other wire or on both, or has another bit; or a reply comes
    twice, or not at all, and the controller waits for it."""
    at = draw.randrange(len(records))
    gap, wire, byte = records[at]
    kind = draw.choice(['lost', 'twice', 'late', 'other wire', 'both wires', 'bit', 'reply twice', 'no reply'])
    if kind == 'lost':
        del records[at]
    elif kind == 'twice':
        records.insert(at, [400, wire, byte])
    elif kind == 'late':
        records[at] = [some_gap(draw), wire, byte]
    elif kind == 'other wire':
        records[at] = [gap, other(wire), byte]
    elif kind == 'both wires':
        records.insert(at + 1, [20, other(wire), byte])
    elif kind == 'bit':
        records[at] = [gap, wire, byte ^ 1 << draw.randrange(8)]
    else:
        while at < len(records) and records[at][1] == 'C':
            at += 1
        end = at
        while end < len(records) and records[end][1] == 'D':
            end += 1
        if kind == 'reply twice':
            records[end:end] = [[400, wire, byte] for _, wire, byte in records[at:end]]
        else:
            del records[at:end]
            if at < len(records):
                records[at][0] = some_gap(draw)


def capture(draw):
    """Times, wires and bytes, from some record on. Now and then one wire was not tapped, or both are swapped."""
    records = traffic(draw)
    for _ in range(draw.choice([0, 0, 1, 1, 2, 3])):
        damage(draw, records)
    tap = draw.randrange(20)
    if tap < 3:
        # What the other wire sent is left out with its time, so that some rests are at a limit.
        records = [record for record in records if record[1] == 'CCD'[tap]]
    elif tap == 3:
        records = [[gap, other(wire), byte] for gap, wire, byte in records]
    rows, now = [], draw.randrange(1000)
    for gap, wire, byte in records:
        now += gap
        rows.append((now, wire, byte))
    most = len(rows) if draw.random() < 0.1 else len(rows) // 3
    return rows[draw.randint(0, most):]


def begins_at(rows):
    """The place of the first record that may begin a command, or the end."""
    for k in range(1, len(rows)):
        if may_begin_command(rows[k], rows[k - 1]):
            return k
    return len(rows)


def bad_row(draw, before):
    """A row that may not follow one of this time."""
    return draw.choice([f'{before},C', f'{before}.5,C,20', f'{before},c,20', f'{before},C,2G', f'{before - 1},D,10'])


def line(row):
    return '%d,%s,%02X' % row


def run(words, lines):
    text = ''.join(line + '\n' for line in [HEADER, *lines])
    done = subprocess.run([PROGRAM, *words], input=text.encode(), capture_output=True)
    return done.returncode, done.stdout.decode(), done.stderr.decode()


def moved(answer, by):
    """The answer, with the number of each record and of a bad row moved; in the totals that of all records and of those that are
    passed over. What a yes counts stays."""
    status, out, err = answer
    for before in r'(?:no at )?records? ', r'records \d+ to ', r'breaks \d+: records ', r'breaks .* passed over ':
        out = re.sub(f'^({before})(\\d+)', lambda found: found[1] + str(int(found[2]) + by), out, flags=re.M)
    err = re.sub(r'^(unreadable at row )(\d+)', lambda found: found[1] + str(int(found[2]) + by), err)
    return status, out, err


def with_sync(draw, verb, options):
    """The words with --sync, which stands before, between or behind the options."""
    options = re.findall(r'--rate \S+|\S+', options)
    options.insert(draw.randint(0, len(options)), '--sync')
    return [verb, *' '.join(options).split()]


def answers(draw, way, lines, begin, bad):
    """What was asked, what is wanted of it, and what came. Row `bad` can't be read, counted from 0, unless it is None."""
    verb, *options = way.split()
    options = ' '.join([*options, draw.choice(OPTIONS)])
    if bad is None or begin < bad:
        wanted = moved(run([verb, *options.split()], lines[begin:]), begin)
    else:
        # Such a row is refused as it is behind an open command, of which there is nothing to say.
        before = lines[bad - 1].split(',')[0]
        wanted = moved(run([verb, *options.split()], [f'{before},C,20', lines[bad]]), bad - 1)
    asked = with_sync(draw, verb, options)
    return asked, wanted, run(asked, lines)


def compare(number):
    """How a capture is judged in each way, what was wrong with that, and what is to be seen of the capture."""
    draw = random.Random(number)
    rows = capture(draw)
    lines = [line(row) for row in rows]
    begin = begins_at(rows)
    bad = None
    if len(rows) > 1 and draw.random() < 0.15:
        bad = draw.randrange(1, len(rows))
        lines.insert(bad, bad_row(draw, rows[bad - 1][0]))
    wrong, told = [], {}
    for way in WAYS:
        asked, wanted, came = answers(draw, way, lines, begin, bad)
        told[way] = wanted
        if came != wanted:
            wrong.append(f'FAILED capture {number}: {" ".join(asked)}\nwanted {wanted}\ncame {came}')
    return wrong, what_is_seen(rows, begin, bad, told)


def what_is_seen(rows, begin, bad, told):
    """What a capture and the answers are examples of."""
    if begin == len(rows):
        yield 'no record begins a command'
    else:
        yield 'begins after ' + ('the deck' if rows[begin - 1][1] == 'D' else 'a gap')
    status = told['check'][0]
    if bad is not None:
        yield 'a bad row before it begins' if begin >= bad else f'a bad row {"after" if status == 1 else "before"} a break'
    if begin and status == 1:
        yield 'a break of which the number is moved'
    reasons = re.findall(r'^no at record \d+: (\w+)', told['check --all'][1], flags=re.M)
    yield from set(reasons)
    yield 'no break' if not reasons else 'one break' if len(reasons) == 1 else 'several breaks'


# Of 500 captures, how many must be an example of this at least.
LEAST = {
    'begins after the deck': 200,
    'begins after a gap': 15,
    'no record begins a command': 15,
    'a break of which the number is moved': 150,
    'a bad row before it begins': 10,
    'a bad row before a break': 10,
    'a bad row after a break': 10,
    'no break': 80,
    'one break': 50,
    'several breaks': 80,
    **dict.fromkeys(['P1', 'P2', 'P3', 'L2', 'P4', 'L1', 'B3', 'B1', 'B2', 'P6', 'P5', 'P7', 'M1'], 6),
}


def main():
    passed = failed = 0
    shown, seen = [], collections.Counter()
    with ThreadPoolExecutor(4) as pool:
        for wrong, seen_here in pool.map(compare, range(DRAWN)):
            seen.update(seen_here)
            passed += len(WAYS) - len(wrong)
            failed += len(wrong)
            shown += wrong[:1]
    # What is wrong with one is often wrong with all.
    for text in shown[:20]:
        print(text)
    for what, of_500 in LEAST.items():
        least = of_500 * DRAWN // 500
        if seen[what] >= least:
            passed += 1
        else:
            failed += 1
            print(f'FAILED {what}: {seen[what]} captures, {least} are wanted')
    print(f'{passed} passed, {failed} failed')
    sys.exit(failed > 0)


main()
