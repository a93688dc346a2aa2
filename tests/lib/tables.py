"""Reads tables of cases, whose form tests/README.md tells.

tables.py FOLDER TABLE... writes what is asked in each case: FOLDER/TABLE/N.csv is the capture, and N.words has the words. It counts the
tables in the last line, 'N passed, M failed'.
"""
import dataclasses
import pathlib
import re
import sys

import sessions
from records import Capture

# What has a name in each table.
SHARED = pathlib.Path(__file__).with_name('blocks.txt')
# A character is a byte, so that a capture may have any.
BYTES = 'latin-1'
ESCAPES = {'n': '\n', 'r': '\r', 't': '\t', 'b': '\xef\xbb\xbf'}


class Wrong(Exception):
    """What is wrong in a table, behind its place."""


@dataclasses.dataclass(frozen=True)
class Case:
    name: str
    line: int
    asks: tuple
    capture: bytes
    status: int
    out: bytes
    err: bytes


def read_table(path):
    """The cases of the table in this file."""
    shared = Reader(SHARED)
    shared.read()
    return Reader(path, shared.blocks).read()


class Reader:
    """Reads a table: what has a name in it, and the lines of the case that it is at."""

    def __init__(self, path, blocks=()):
        self.path, self.line = path, 0
        self.blocks, self.texts, self.names = dict(blocks), {}, set()
        self.begin()

    def begin(self):
        self.first, self.lines, self.each, self.also = self.line, [], [], []

    def stop(self, what):
        raise Wrong(f'{self.path}:{self.line}: {what}')

    def read(self):
        cases = []
        for number, text in enumerate(pathlib.Path(self.path).read_text(BYTES).split('\n'), 1):
            if text.startswith('#') or not text.strip(' \t'):
                continue
            if text.startswith('case '):
                cases += self.finish()
                self.line = number
                self.begin()
            self.line = number
            self.take(text)
        return cases + self.finish()

    def take(self, text):
        """Takes a line: a name for something, or a line of the case."""
        key, _, rest = text.partition(' ')
        name, _, named = rest.partition(' ')
        if key == 'block':
            if name in self.blocks:
                self.stop(f'twice: {name}')
            self.blocks[name] = named
        elif key == 'name':
            self.texts[name] = named.replace('\\n', '\n')
        elif not self.first:
            self.stop('a line before the first case')
        elif key in ('each', 'with'):
            (self.each if key == 'each' else self.also).append(rest)
        else:
            self.lines.append(text)

    def finish(self):
        """The cases of the lines that were taken: one, or one for each line `each`, and then one for each line `with`."""
        if not self.lines:
            return []
        self.line = self.first
        if self.also and not self.each:
            self.stop('with, and no each')
        fields = [f'{one}|{more}' for one in self.each for more in self.also] if self.also else self.each
        return [self.make(bars) for bars in fields or ['']]

    def make(self, bars):
        """The case of the lines that were taken, with these fields, parted by bars."""
        fields = re.split(r'[ \t]*\|[ \t]*', bars) if bars else []
        draft = Draft(self)
        for line in self.lines:
            key, _, rest = self.filled(line, fields).partition(' ')
            draft.take(key, rest)
        case = draft.case()
        if case.name in self.names:
            self.stop(f'twice: {case.name}')
        self.names.add(case.name)
        return case

    def filled(self, line, fields):
        """The line with each `$N` replaced by field N."""
        def field(found):
            number = int(found[1])
            return fields[number - 1] if 1 <= number <= len(fields) else self.stop(f'no such field: {found[0]}')
        return re.sub(r'\$([0-9]+)', field, line) if fields else line


class Draft:
    """A case whose lines are being taken."""

    def __init__(self, reader):
        self.reader = reader
        self.name = self.status = self.records = self.text = None
        self.asks, self.marks = [], {}
        self.streams = {'out': '', 'err': ''}

    def take(self, key, rest):
        if key == 'case':
            self.name = rest
        elif key == 'ask':
            self.asks.append(rest)
        elif key == 'records':
            self.put_records(rest)
        elif key == 'session':
            self.put_records(sessions.records_of(rest))
        elif key == 'text':
            self.text = (self.text or '') + unescaped(rest)
        elif key == 'status':
            self.status = rest
        elif key in self.streams:
            self.streams[key] += self.numbered(rest) + '\n'
        else:
            self.reader.stop(f'a line of no kind: {key}')

    def put_records(self, words):
        """Puts these records after those of the case."""
        if self.text is not None:
            self.reader.stop('records behind a text')
        self.records = self.records or Capture()
        for times, word in re.findall(r'(?:([1-9][0-9]*)\s+times\s+)?(\S+)', words):
            if times:
                self.put_block(word, int(times))
            elif word[0] == '@' and re.fullmatch('@[a-z0-9]+', word):
                self.marks[word[1:]] = str(self.records.records)
            elif not self.records.put(word):
                self.put_block(word, 1)

    def put_block(self, name, times):
        if name not in self.reader.blocks:
            self.reader.stop(f'no such block: {name}')
        for _ in range(times):
            self.put_records(self.reader.blocks[name])

    def numbered(self, line):
        """A line of what is written with each `@NAME` replaced by the number of the record at the mark, or by the text, of this name."""
        named = {**self.reader.texts, **self.marks}
        return re.sub('@([a-z0-9]+)', lambda at: named[at[1]] if at[1] in named else self.reader.stop(f'no such mark: {at[0]}'), line)

    def case(self):
        parts = [self.records.text] if self.records else []
        parts += [] if self.text is None else [self.text]
        if not self.asks or not (self.status or '').isdecimal() or not parts:
            self.reader.stop('the case wants ask, status and a capture')
        streams = (self.streams[name].encode(BYTES) for name in ('out', 'err'))
        return Case(readable(self.name), self.reader.line, tuple(map(readable, self.asks)), ''.join(parts).encode(BYTES), int(self.status), *streams)


def unescaped(text):
    """The text of a capture, with its escapes \\n, \\r, \\t, \\b, \\xHH and \\\\."""
    return re.sub(r'\\(x(..)|.)', lambda found: chr(int(found[2], 16)) if found[2] else ESCAPES.get(found[1], found[1]), text)


def readable(text):
    return text.encode(BYTES).decode()


def write_asked(folder, path):
    """Writes what is asked in each case of this table."""
    place = pathlib.Path(folder, pathlib.Path(path).stem)
    place.mkdir()
    for number, case in enumerate(read_table(path), 1):
        place.joinpath(f'{number:04d}.csv').write_bytes(case.capture)
        place.joinpath(f'{number:04d}.words').write_text('\n'.join(case.asks) + '\n')


def main():
    folder, *paths = sys.argv[1:]
    failed = 0
    for path in paths:
        try:
            write_asked(folder, path)
        except Wrong as wrong:
            failed += 1
            print(f'FAILED {wrong}')
    print(f'{len(paths) - failed} passed, {failed} failed')


if __name__ == '__main__':
    main()
