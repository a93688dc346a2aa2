"""Writes captures in words of records, which tests/README.md tells: records.py TIMES writes the capture of its standard input, so often."""
import sys

HEADER = 'time_us,wire,byte\n'
# The microseconds from a record to the next, where nothing else is said.
GAP = 400
DIGITS = '0123456789ABCDEFabcdef'
VALUES = {high + low: int(high + low, 16) for high in DIGITS for low in DIGITS}


class Capture:
    """A capture that is being written: its rows, and how many records it has."""

    def __init__(self):
        self.rows = []
        self.records = 0
        self.wire = None
        self.time = self.sum = 0
        self.gap = GAP

    @property
    def text(self):
        return HEADER + ''.join(self.rows)

    def put(self, word):
        """Takes a word, and answers whether it is one of records."""
        if word == 'sum':
            word = f'{self.sum % 256:02X}'
        value = VALUES.get(word)
        if value is None or self.wire is None:
            return self.takes(word)
        self.time += self.gap
        self.gap = GAP
        self.records += 1
        self.sum += value
        self.rows.append(f'{self.time},{self.wire},{word}\n')
        return True

    def takes(self, word):
        """Takes what is no record, and answers whether it is a wire or a time."""
        if word in ('C', 'D'):
            self.wire, self.sum = word, 0
        elif word[:1] == '+' and word[1:].isdecimal():
            self.gap = int(word[1:])
        else:
            return False
        return True


def main():
    capture = Capture()
    words = sys.stdin.read().split()
    sys.stdout.write(HEADER)
    for _ in range(int(sys.argv[1])):
        for word in words:
            if not capture.put(word):
                sys.exit(f'no record: {word}')
        sys.stdout.writelines(capture.rows)
        capture.rows.clear()


if __name__ == '__main__':
    main()
