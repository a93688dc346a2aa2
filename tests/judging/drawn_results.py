"""The list of drawn captures, as tests/lib/draw_captures.py writes it, and what the program said of them.

RESULTS has for each capture a line `capture i`, and then for each of `check`, `check --hands`, `why`, `run` and `run --hands`,
that of `why` with the words of the capture, and of `touches` with hands alone, a line `- check` or the like with what the program
wrote after it."""
import os
import sys
from typing import NamedTuple

sys.path.insert(0, os.path.join(os.path.dirname(os.path.abspath(__file__)), '..', 'lib'))
from deck.capture import Capture
from deck.sheet import Sheet


class Refused(Exception):
    """The program says something else than the plain deck."""


def want(is_so, why):
    if not is_so:
        raise Refused(why)


class Drawn(NamedTuple):
    """A capture, and whether hands are allowed."""
    number: int
    hands: bool
    capture: Capture

    @property
    def has_sheet(self):
        return self.capture.sheet.text != '-'


def read_list(path):
    """The drawn captures, by their numbers."""
    with open(path) as file:
        for line in file:
            number, hands, sheet, text = line.rstrip('\n').split(' ', 3)
            yield int(number), (hands == '1', sheet, text)


def read_results(list_path, results_path):
    """Each capture of which there are results, with the lines that the program wrote, by what it was asked."""
    drawn = dict(read_list(list_path))
    for number, said in read_said(results_path):
        hands, sheet, text = drawn[number]
        yield Drawn(number, hands, Capture(text, Sheet(sheet))), said


def read_said(path):
    number, said, lines = None, {}, []
    with open(path) as file:
        for line in file.read().splitlines():
            if line.startswith('capture '):
                if number is not None:
                    yield number, said
                number, said = int(line.split()[1]), {}
            elif line.startswith('- '):
                lines = said[line[2:]] = []
            else:
                lines.append(line)
    if number is not None:
        yield number, said


def written(number, said):
    """The results of a capture, as they are read."""
    lines = [f'capture {number}']
    for asked, told in said.items():
        lines += ['- ' + asked, *told]
    return '\n'.join(lines) + '\n'
