"""Makes records of a session of an editor and a deck in words, which tests/README.md tells."""
import re

from records import GAP

COMMANDS = {
    'STOP': '20 00', 'PLAY': '20 01', 'SYNC': '20 34', 'RECORD': '20 02', 'EJECT': '20 0F', 'FF': '20 10', 'REW': '20 20',
    'JOG+': '21 11 10', 'JOG-': '21 21 10', 'VAR-': '21 22 10', 'SHUTTLE+': '21 13 10', 'SHUTTLE-': '22 23 10 10', 'PREROLL': '20 30',
    'CUE': '24 31 04 03 02 01', 'STANDBY': '20 05', 'REVIEW': '20 41', 'ENTRY': '40 10', 'DISABLE': '00 0C',
}
ACK = '10 01'
NAK = '11 12 01'


def records_of(text):
    """The records of a session, in their words."""
    session = Session()
    return ' '.join(filter(None, (session.take(word, turn) for word, turn in turns_of(text.split()))))


def turns_of(words):
    """Each word with its turn, those of N*( ... ) as often as that says."""
    words = iter(words)
    for word in words:
        if not word.endswith('*('):
            yield word, 0
            continue
        repeated = list(iter(lambda: next(words), ')'))
        for turn in range(int(word[:-2])):
            for again in repeated:
                yield again, turn


class Session:
    """How much later than it would the next record comes, and the next reply."""

    def __init__(self):
        self.later = self.reply_later = 0

    def take(self, word, turn):
        """The records of a word in this turn. What is no word of sessions stays as it is."""
        kind, _, rest = word.partition('=')
        if word[0] == '+':
            self.later += int(word[1:])
            return ''
        if word[0] == '~':
            self.reply_later = int(word[1:])
            return ''
        if kind == 's':
            return self.exchange('61 20 12', '72 20 ' + rest.replace(',', ' '))
        if kind == 'd':
            datum, shown = rest.split(',')
            return self.exchange(f'61 20 {datum}1', f'71 20 {shown}')
        if kind == 't':
            return self.exchange('61 0C 01', '74 04 ' + time_bytes(rest, turn))
        if kind == 'r':
            code, time = rest.split(',')
            return self.exchange('61 0C 01', f'74 {code} ' + time_bytes(time, turn))
        name = word.removesuffix('!')
        return self.exchange(COMMANDS[name], ACK if name == word else NAK) if name in COMMANDS else word

    def exchange(self, asked, answered):
        """A command and its reply, each with its sum."""
        before = f'+{self.later + GAP} ' if self.later else ''
        between = f'+{self.reply_later + GAP} ' if self.reply_later else ''
        self.later = self.reply_later = 0
        return f'{before}C {asked} sum {between}D {answered} sum'


def time_bytes(text, turn):
    """The bytes of a time, its frame first; of `TIME+K` that of this turn, K frames later in each."""
    time, runs, step = text.partition('+')
    parts = time.split(':')
    if not runs:
        return ' '.join(reversed(parts))
    hour, minute, second, frame = map(int, parts)
    frame += ((hour * 60 + minute) * 60 + second) * 25 + turn * int(step)
    return f'{frame % 25:02d} {frame // 25 % 60:02d} {frame // 1500 % 60:02d} {frame // 90000:02d}'
