"""What `touches` has to list of a capture, by listing. A stretch between two moves of a hand goes on as long as it can. At each
move the fields are taken in their order, and each is kept where some state before the move and some state behind it agree in it,
and in those kept before it, and the stretch behind leads on. Exchanges of a stretch are those from one number up to another."""
import re
from functools import cache

from drawn_results import want
from deck.commands import REGISTER_NAMES
from deck.modes import MODES, goal_of, members, set_of, shown_of
from deck.times import time_told

FIELDS = ['local', *REGISTER_NAMES, 'goal', 'shown']
CHANGE = re.compile(r'(\w+): (\S+) => (\S+)')


@cache
def freed(pairs, keeps_goal, keeps_shown):
    """The pairs that agree with one of a set in the goal, in the shown mode, in both or in neither."""
    def kept(pair):
        return goal_of(pair) if keeps_goal else None, shown_of(pair) if keeps_shown else None

    wanted = {kept(pair) for pair in members(pairs)}
    return set_of(pair for pair in range(100) if kept(pair) in wanted)


@cache
def only_pairs(pairs, goal, shown):
    """Those with this goal and this shown mode, where they are told."""
    return set_of(pair for pair in members(pairs)
                  if goal in (None, MODES[goal_of(pair)]) and shown in (None, MODES[shown_of(pair)]))


class Touches:
    """Moves of a hand in a run with hands. All goes on throughout that the sheet names."""

    def __init__(self, listing):
        self.listing, self.places = listing, listing.places
        self.exchanges, self.going = listing.exchanges, listing.sheet.all
        self.columns = dict(zip(REGISTER_NAMES, self.places.entries), local=self.places.local)

    def drift(self, states):
        return self.listing.drift(states, self.going, False)

    def stretch(self, states, begin, end):
        """What is behind these exchanges, in which no hand moves."""
        for exchange in self.exchanges[begin:end]:
            states = self.listing.step(self.drift(states), exchange)
        return states

    def only_panel_on(self, states):
        off = self.places.with_panel_off
        return [0] * off + states[off:]

    def last_end(self, begin, states):
        """Before which exchange the next move comes: behind the longest stretch that may leave the panel on."""
        last = None
        for end in range(begin + 1, len(self.exchanges) + 1):
            states = self.stretch(states, end - 1, end)
            if self.listing.has_panel_on(states):
                last = end
            if not any(states):
                break
        return last

    def ends(self, moves):
        """Where the stretch before each move ends."""
        end = 0
        for move in range(moves):
            states = self.listing.everything()
            end = self.last_end(end, self.only_panel_on(states) if move else states)
            yield end

    def set_free(self, states, kept):
        """The states with the panel on that agree with one of these in the fields that are kept."""
        columns = [column for field, column in self.columns.items() if field in kept]
        keys = list(zip(*columns)) if columns else [()] * len(states)
        pairs_of = {}
        for key, pairs in zip(keys, self.only_panel_on(states)):
            if pairs:
                pairs_of[key] = pairs_of.get(key, 0) | freed(pairs, 'goal' in kept, 'shown' in kept)
        return self.only_panel_on([pairs_of.get(key, 0) for key in keys])

    def leads_on(self, states, begin, end):
        """A stretch from these on goes on to the next move, or to the end."""
        states = self.stretch(states, begin, end)
        return any(states) if end == len(self.exchanges) else self.listing.has_panel_on(states)

    def only_told(self, states, values):
        """Of these those that have the values which a line tells."""
        for field, value in values.items():
            if field in self.columns:
                wanted = self.number_of(field, value)
                states = [pairs if number == wanted else 0 for pairs, number in zip(states, self.columns[field])]
        return [only_pairs(pairs, values.get('goal'), values.get('shown')) for pairs in states]

    def number_of(self, field, value):
        """What a value of a field is in the column of that field."""
        if field == 'local':
            return int(value == 'yes')
        return 0 if value == 'clear' else self.places.registers[REGISTER_NAMES.index(field)].entry_of(time_told(value))

    def kept_fields(self, states, begin, end):
        kept = set()
        for field in FIELDS:
            if self.leads_on(self.set_free(states, kept | {field}), begin, end):
                kept.add(field)
        return kept

    def compared(self, lines):
        """Of each line, which has to be right, the fields that a hand changed."""
        ends = [0, *self.ends(len(lines)), len(self.exchanges)]
        states = self.listing.everything()
        for number, line in enumerate(lines, 1):
            begin, end, next_end = ends[number - 1:number + 2]
            states = self.only_panel_on(self.drift(self.stretch(states, begin, end)))
            before, behind = self.told(line, end)
            want(before, f'touches, line {number}')
            kept = self.kept_fields(states, end, next_end)
            for field in FIELDS:
                want((field in kept) != (field in before), f'touches, line {number}: {field}, which can be kept: {field in kept}')
            told = self.only_told(self.set_free(self.only_told(states, before), kept), behind)
            want(self.leads_on(told, end, next_end), f'touches, line {number}: no hand changes it so')
            yield list(before)
            states = self.set_free(states, kept)

    def told(self, line, end):
        """The fields that the line of a touch tells, which comes before this exchange: their values before it and behind it.
        There are none where it is no such line."""
        last, first = self.exchanges[end - 1].last_record, self.exchanges[end].first_record
        begin = f'between record {last}, {last * 0.0004:.6f} s, and record {first}, {first * 0.0004:.6f} s: '
        changes = [CHANGE.fullmatch(word) for word in line.removeprefix(begin).split(', ')]
        if not line.startswith(begin) or not all(found and found[1] in FIELDS and found[2] != found[3] for found in changes):
            return {}, {}
        return {found[1]: found[2] for found in changes}, {found[1]: found[3] for found in changes}


def touches_compared(listing, lines, least, verdict):
    """Of each line of `touches` the fields that a hand changed. There has to be one for each of so many moves."""
    want(len(lines) == least + 2 and lines[-1] == verdict, 'touches, its lines')
    want(re.match(f'touches {least}[:,] ', lines[-2]), 'touches, how many')
    return Touches(listing).compared(lines[:-2])
