"""Compares what the program says of drawn captures with the plain deck of tests/lib/deck: drawn.py LIST RESULTS [--fewest]. With
--fewest a run with hands has to be one of the fewest moves of a hand. Written are a line for each capture that is refused, and
then lines with counts."""
import collections
import sys

from drawn_results import Refused, read_results, want
from touched import FIELDS, touches_compared
from deck.capture import Capture
from deck.listing import Listing
from deck.single import Ways, state_told
from deck.told import is_line_of


class Comparison:
    """Of one capture: `breaks` has for each way, without hands and with them, the exchange that breaks."""

    def __init__(self, drawn, said, counts, wants_fewest):
        self.said, self.counts, self.wants_fewest = said, counts, wants_fewest
        self.hands, self.capture, self.has_sheet = drawn.hands, drawn.capture, drawn.has_sheet
        self.exchanges = self.capture.exchanges
        self.listings = [Listing(self.capture, hands) for hands in (False, True)]
        self.breaks = [listing.first_break() for listing in self.listings]

    def verdict(self, hands):
        """The one line that `check` has to write."""
        broken = self.breaks[hands]
        if broken is not None:
            return f'no at record {self.exchanges[broken].last_record}: M1 no run remains'
        return f'yes: records {self.capture.records}, exchanges {len(self.exchanges)}, open 0'

    def is_verdict(self, asked, hands):
        return self.said[asked] == [self.verdict(hands)]

    def compare(self):
        for hands, word in enumerate(['', ' --hands']):
            want(self.is_verdict('check' + word, hands), f'check{word}: {self.said["check" + word]}')
            want(self.breaks[hands] is None or self.is_verdict('run' + word, hands), f'run{word} of a no')
        broken = self.breaks[self.hands]
        self.counts['yes' if broken is None else 'no', self.hands] += 1
        if broken is None:
            want(self.is_verdict('why', self.hands), 'why of a yes')
            self.compare_run(self.said['run --hands' if self.hands else 'run'])
        else:
            self.counts['later'] += broken < len(self.exchanges) - 1
            self.compare_why(broken)
            want(not self.hands or self.is_verdict('touches', True), 'touches of a no')
        if self.breaks[0] is None and not self.has_sheet:
            self.compare_runs()
        if self.has_sheet:
            self.count_sheet()

    # ---- why

    def compare_why(self, broken):
        """The lines of `why`: each of an exchange, ascending to the one that breaks; then what was asked of them."""
        *lines, shown, verdict = self.said['why'] if len(self.said['why']) > 2 else [''] * 3
        want(verdict == self.verdict(self.hands), 'why, its verdict')
        places = self.places_of(lines, broken)
        self.counts['contradicting', len(places)] += 1
        want(places[-1] == broken, 'why: the last is not the reply that breaks')
        listing = self.listings[self.hands]
        want(not listing.has_believing(set(places), broken), 'why: these do not contradict one another')
        # Each is needed, and as near to the break as it can be: the others and all replies after it can be believed.
        for number, place in enumerate(places):
            others = {*places, *range(place + 1, broken + 1)} - {place}
            want(listing.has_believing(others, broken), f'why: line {number + 1} is needless, or could be later')
        could = listing.could_show(broken)
        want(shown == could, f'{shown} for {could}')

    def places_of(self, lines, broken):
        """The exchange of each line."""
        places, begin = [], 0
        for number, line in enumerate(lines):
            place = next((place for place in range(begin, broken + 1) if is_line_of(line, self.exchanges[place])), None)
            want(place is not None, f'why, line {number + 1}')
            places.append(place)
            begin = place + 1
        return places

    # ---- run

    def compare_run(self, lines):
        """The lines of `run`: a state for each exchange, and a way from each to the next; then the moves of a hand that it
        needs."""
        want(len(lines) == len(self.exchanges) + 1 and lines[-1] == self.verdict(self.hands), 'run, its lines')
        moves = self.moves_of(lines)
        if not self.hands:
            return
        listing = self.listings[True]
        least = listing.fewest_moves()
        self.counts['fewest', least] += 1
        self.counts['moves'] += moves
        want(moves >= least, f'run: {moves} moves of a hand, and {least} are the fewest')
        self.counts['not fewest'] += moves > least
        self.counts['most more'] = max(self.counts['most more'], moves - least)
        want(moves == least or not self.wants_fewest, f'run: {moves} moves of a hand for {least}')
        for changed in touches_compared(listing, self.said['touches'], least, self.verdict(True)):
            self.counts['touches'] += 1
            self.counts.update(('changed', field) for field in changed)

    def moves_of(self, lines):
        ways = Ways(self.hands)
        sheet, listing = self.capture.sheet, self.listings[self.hands]
        moves, before, going = 0, None, sheet.all
        for number, (exchange, line) in enumerate(zip(self.exchanges, lines)):
            state = state_told(line, exchange.last_record, self.hands)
            want(state, f'run, line {number + 1}')
            more = ways.moves_to(going, exchange, before, state) if before else ways.moves_to_first(exchange, state)
            want(more is not None, f'run: nothing leads to the state in line {number + 1}')
            moves += more
            going = listing.go_on(going, exchange)
            before = state
        return moves

    def compare_runs(self):
        """Nobody has to touch it, so the run with hands is the run without where there is no sheet, and only a command switches
        the panel on: it is so until one switches it off, or may have made the deck forget it."""
        self.counts['same runs'] += 1
        without, with_hands = self.said['run'], self.said['run --hands']
        want(len(without) == len(with_hands) == len(self.exchanges) + 1, 'run and run --hands, their lines')
        panel = 'off'
        for exchange, line, other in zip(self.exchanges, without, with_hands):
            if not exchange.is_nak and exchange.effect.what in ('panel', 'forget-all'):
                panel = 'on' if exchange.effect.switches_on else 'off'
            want(other == f'{line}, panel {panel}', f'run --hands: {other} for {line}, panel {panel}')
        want(without[-1] == with_hands[-1], 'run and run --hands, their verdicts')

    def count_sheet(self):
        """Counts whether the capture breaks earlier where the deck does nothing by itself, and else is what its sheet says."""
        self.counts['sheets'] += 1
        if self.breaks[self.hands] is None and Listing(resting(self.capture), self.hands).is_no():
            self.counts['by itself', self.hands] += 1


def resting(capture):
    """The same exchanges with a deck that does nothing by itself."""
    return Capture(capture.text, capture.sheet.resting())


def tell(counts):
    print(f'captures {counts["captures"]}, refused {counts["refused"]}')
    for told, key in ('no run', 'no'), ('yes', 'yes'):
        without, with_hands = counts[key, False], counts[key, True]
        print(f'{told} without hands {without}, with hands {with_hands}, both {without + with_hands}')
    print('runs of a yes without hands, compared with those with hands:', counts['same runs'])
    without, with_hands = counts['by itself', False], counts['by itself', True]
    print(f'yes by what a deck does by itself without hands {without}, with hands {with_hands}, '
          f'of {counts["sheets"]} with a sheet')
    print('contradicting replies:', in_turn(counts, 'contradicting', range(1, 8)), 'later breaks', counts['later'])
    least = sum(moves * count for (key, moves), count in keyed(counts) if key == 'fewest')
    print('fewest moves of a hand:', in_turn(counts, 'fewest', range(8)), 'sum', least)
    print(f'touches compared: {counts["touches"]}, by fields that a hand changed:', in_turn(counts, 'changed', FIELDS))
    print(f'moves of a hand in runs: sum {counts["moves"]}, more than the fewest in {counts["not fewest"]} runs, '
          f'at most {counts["most more"]} more')


def keyed(counts):
    return [(key, count) for key, count in counts.items() if isinstance(key, tuple)]


def in_turn(counts, key, values):
    return ' '.join(f'{value} in {counts[key, value]},' for value in values)


def main(list_path, results_path, *words):
    counts = collections.Counter()
    for drawn, said in read_results(list_path, results_path):
        counts['captures'] += 1
        try:
            Comparison(drawn, said, counts, '--fewest' in words).compare()
        except Refused as refused:
            counts['refused'] += 1
            print(f'refused: capture {drawn.number}, {"with hands, " if drawn.hands else ""}{refused}')
    tell(counts)


if __name__ == '__main__':
    main(*sys.argv[1:])
