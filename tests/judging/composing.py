"""Composes what is to be written with --all, of what the program writes without it: composing.py PROGRAM FOLDER PLACE LIST WANT.
Each line of LIST is a capture, FOLDER/NAME.csv, and 0, or 1 where it is judged with hands, and the deck's sheet, or `-` where
there is none: `NAME 1 -`. The capture is cut at the first record of each part, check, explain and why are run on the rest of it,
in PLACE, and the numbers of the records are moved. What is to come of each is written to WANT, as all.sh asks it. To standard
output a line is written for each break, `NAME REASON`, one for each part with late replies, `NAME late N, then REASON`, and one
for each capture, `NAME of PARTS parts, passed over P`.

Where a part's verdict is L1, the reply and all that follows come earlier by as much as the reply is late, and the part is judged
again: only what was not told before is added. Each time that is told is the true one, from the capture."""
import os
import re
import subprocess
import sys

sys.path.insert(0, os.path.join(os.path.dirname(os.path.abspath(__file__)), '..', 'lib'))
from wire import REPLY_LIMIT_US, may_begin_command, read_rows, write_rows

VERBS = ['check', 'explain', 'why']
VERDICT = re.compile(r'no at record (\d+): (\w+)')


class Composed:
    """Of one capture: the lines of each verb, and what is counted. Records are numbered from 1."""

    def __init__(self, program, place, capture, words):
        self.program, self.words, self.part_path = program, words, f'{place}/part.csv'
        self.rows = list(read_rows(capture))
        # When each record comes as it is judged.
        self.judged_at = [time for time, _, _ in self.rows]
        self.lines = {verb: [] for verb in VERBS}
        self.parts = self.exchanges = self.in_exchanges = self.open = 0
        # The reasons of all breaks, and of each part those of which the reply is late.
        self.reasons, self.late = [], []
        begin = 1
        while begin:
            begin = self.compose_part(begin)

    def time(self, record):
        return self.rows[record - 1][0]

    def wire(self, record):
        return self.rows[record - 1][1]

    def gap(self, record):
        """How long a record comes after the one before it."""
        return self.time(record) - self.time(record - 1)

    def passed_over(self):
        return len(self.rows) - self.in_exchanges - self.open

    # ---- a part

    def compose_part(self, begin):
        """Takes the part that begins at this record. It answers where the next one begins; none where there is none."""
        self.parts += 1
        told, late = 0, 0
        while True:
            verdict, told_now, in_exchanges = self.judge_part(begin, told)
            found = VERDICT.match(verdict)
            record, reason = (int(found[1]), found[2]) if found else (None, None)
            if found:
                self.reasons.append(reason)
            if reason != 'L1' or self.lateness(record) <= 0:
                break
            self.come_earlier(record)
            late, told = late + 1, told_now
        if late:
            self.late.append((late, reason))
        self.exchanges += told_now
        self.in_exchanges += in_exchanges
        if not found:
            self.open = int(verdict.rsplit(' ', 1)[1])
            return None
        return self.next_part(record, reason)

    def lateness(self, record):
        """By how much a reply is late that begins with this record."""
        return self.judged_at[record - 1] - self.judged_at[record - 2] - REPLY_LIMIT_US

    def come_earlier(self, record):
        """Moves a late reply, which begins with this record, and all that follows."""
        by = self.lateness(record)
        self.judged_at[record - 1:] = [time - by for time in self.judged_at[record - 1:]]

    def judge_part(self, begin, told):
        """Judges the records from this one on as a capture by itself, of which so many exchanges were told before: its verdict,
        how many exchanges it has, and how many of its records are in these."""
        by = begin - 1
        write_rows(self.part_path, [(time, wire, byte) for time, (_, wire, byte) in zip(self.judged_at[by:], self.rows[by:])])
        written = {verb: [self.moved(line, by) for line in self.ask(verb)] for verb in VERBS}
        ends = [first_number(line) for line in written['explain'] if line.startswith('record ')]
        *exchanges, last = written['explain']
        written['explain'] = [*exchanges[told:], last]
        for verb, lines in written.items():
            self.lines[verb] += lines[:-1] if lines[-1].startswith('yes') else lines
        return last, len(ends), ends[-1] - by if ends else 0

    def ask(self, verb):
        words = ['why', '--quiet'] if verb == 'why' else [verb]
        done = subprocess.run([self.program, *words, *self.words, self.part_path], stdout=subprocess.PIPE)
        return done.stdout.decode().splitlines()

    def next_part(self, record, reason):
        """The first record of the next part; none where none may begin a command."""
        for now in range(record, len(self.rows) + 1):
            if self.wire(now) != 'C' or (now == record and reason not in ('L2', 'P3', 'P4', 'B3')):
                continue
            if now == record and reason in ('L2', 'P3'):
                return now
            if now > 1 and may_begin_command(self.rows[now - 1], self.rows[now - 2]):
                return now
        return None

    # ---- lines

    def moved(self, line, by):
        """The line, with the numbers of its records moved, and with true times."""
        def at_true_number(found):
            return found[1] + str(int(found[2]) + by)

        line, is_of_records = re.subn(r'^((?:no at )?records? )(\d+)', at_true_number, line)
        if not is_of_records:
            return line
        line = re.sub(r'^(records \d+ to )(\d+)', at_true_number, line)
        return self.timed(line, first_number(line))

    def timed(self, line, record):
        """The line, which is of this record, with the true times: when the record comes, how long after the one before it, and
        the delay of the reply that it ends."""
        line = re.sub(r' at \d+: ', f' at {self.time(record)}: ', line, count=1)
        line = re.sub(r', \d+ after ', lambda _: f', {self.gap(record)} after ', line, count=1)
        if ', delay ' not in line:
            return line
        while self.wire(record - 1) == 'D':
            record -= 1
        return re.sub(r', delay \d+', f', delay {self.gap(record)}', line, count=1)

    def totals(self):
        return (f'breaks {len(self.reasons)}: records {len(self.rows)}, exchanges {self.exchanges}, '
                f'passed over {self.passed_over()}, open {self.open}')


def first_number(line):
    return int(re.search(r'\d+', line)[0])


def tell(name, composed):
    for reason in composed.reasons:
        print(name, reason)
    for late, reason in composed.late:
        print(f'{name} late {late}, then {reason or "none"}')
    print(f'{name} of {composed.parts} parts, passed over {composed.passed_over()}')


def write_wanted(file, name, words, composed):
    """From a file and from standard input, with the words in another order, and the status."""
    for verb, lines in composed.lines.items():
        text = '\n'.join([*lines, composed.totals(), f'status {int(bool(composed.reasons))}', ''])
        for asked in f'{verb} --all {words}', f'{verb} {words} --all from standard input':
            file.write(f'capture {name}: {asked}\n{text}')


def main(program, folder, place, list_path, want_path):
    with open(list_path) as captures, open(want_path, 'w') as want:
        for capture in captures:
            name, hands, sheet = capture.split()
            words = ['--hands'] * int(hands) + ([] if sheet == '-' else ['--deck', sheet])
            composed = Composed(program, place, f'{folder}/{name}.csv', words)
            tell(name, composed)
            write_wanted(want, name, ' '.join(words), composed)


if __name__ == '__main__':
    main(*sys.argv[1:])
