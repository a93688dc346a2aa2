"""Draws how a page of each capture is asked for, whose files are the lines of its input. A line is written for each, its parts
between bars: its file, the words that it is judged with, and those of a stretch, which may begin before the capture, end behind
it, or miss it. Every run draws the same."""
import os
import sys

sys.path.insert(0, os.path.join(os.path.dirname(os.path.abspath(__file__)), '..', 'lib'))
from chance import Chance
from wire import read_rows

SEED = 30103


def drawn_words(chance, capture):
    times = [time for time, _, _ in read_rows(capture)]
    first, lasts = times[0], times[-1] - times[0] + 1
    begins = max(0, first - lasts // 4 + chance.draw(lasts * 3 // 2))
    parts = 1 + chance.draw(8)
    ends = begins + 1 + chance.draw(lasts // parts)
    kind = chance.draw(4)
    words = chance.one_of('none none none --hands --sync')
    stretch = (f'--from {seconds(begins)}' if kind != 1 else '') + (f' --to {seconds(ends)}' if kind != 0 else '')
    return '' if words == 'none' else words, stretch


def seconds(us):
    return f'{us / 1e6:.6f}'


def main():
    chance = Chance(SEED)
    for line in sys.stdin:
        capture = line.rstrip('\n')
        print(capture, *drawn_words(chance, capture), sep='|')


if __name__ == '__main__':
    main()
