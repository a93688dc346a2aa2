"""All states after each exchange. They are a list with the set of pairs of goal and shown mode for each place."""
from deck.commands import REGISTERS
from deck.modes import ALL_PAIRS, MODES, STOP, drifted, members, pairs_that_show, sent_to, shown_in
from deck.places import Places
from deck.times import time_text


class Listing:
    """The states in which the deck of a capture could be, where hands are allowed or not."""

    def __init__(self, capture, hands):
        self.exchanges, self.sheet, self.hands = capture.exchanges, capture.sheet, hands
        self.places = Places(capture, hands)

    def everything(self):
        return [ALL_PAIRS] * self.places.count

    def nothing(self):
        return [0] * self.places.count

    def has_panel_on(self, states):
        return self.hands and any(states[self.places.with_panel_off:])

    def with_any_panel_on(self, states):
        """These with the panel off, and all with the panel on."""
        off = states[:self.places.with_panel_off]
        return off + [ALL_PAIRS] * (len(states) - len(off))

    # ---- a drift

    def go_on(self, going, exchange, believed=True):
        """What is going on after an exchange. Hands may have begun anything, at any time."""
        if self.hands or (believed and exchange.is_nak):
            return going
        return self.sheet.after(going, exchange.head) if believed else self.sheet.after_unknown(going, exchange.head)

    def drift(self, states, going, by_hand):
        """Any number of moves of the mechanics, and of what is going on; where a hand may move, and the panel is on somewhere,
        any state with the panel on."""
        by_itself = going.modes
        after = [pairs and (pairs if pairs == ALL_PAIRS else drifted(pairs, by_itself)) for pairs in states]
        for register in going.lost:
            for pairs, place in zip(after.copy(), self.places.cleared[register]):
                after[place] |= pairs
        return self.with_any_panel_on(after) if by_hand and self.has_panel_on(states) else after

    # ---- a step

    def agreeing(self, states, exchange):
        """Those that agree with a reply."""
        places = self.places
        if exchange.senses_register:
            told = -1 if exchange.told is None else places.registers[exchange.register].entry_of(exchange.told)
            return [pairs if entry in (0, told) else 0 for pairs, entry in zip(states, places.entries[exchange.register])]
        if not exchange.senses_status:
            return states
        in_local, datum1, datum2, are_set = exchange.data
        if in_local is not None:
            states = [pairs if local == in_local & 1 else 0 for pairs, local in zip(states, places.local)]
        if are_set is not None:
            states = [pairs if bits == are_set & 15 else 0 for pairs, bits in zip(states, places.set_bits)]
        showing = pairs_that_show(datum1, datum2)
        return [pairs & showing for pairs in states]

    def effect(self, states, exchange):
        """All that the effect of a command may make of these."""
        what = exchange.effect.what
        if what == 'nothing':
            return states
        if what == 'go':
            return [pairs and sent_to(pairs, exchange.effect.goal) for pairs in states]
        if what == 'keep-or-stop':
            return [pairs and pairs | sent_to(pairs, STOP) for pairs in states]
        if what == 'panel':
            return self.switched(states, exchange.effect.switches_on)
        if what.startswith('forget'):
            return self.forgotten(states, what)
        return self.with_register(states, exchange)

    def switched(self, states, on):
        if not self.hands:
            return states
        middle = self.places.with_panel_off
        either = [off | on for off, on in zip(states[:middle], states[middle:])]
        return [0] * middle + either if on else either + [0] * middle

    def forgotten(self, states, what):
        if what == 'forget-all':
            return self.everything() if any(states) else states
        after = []
        for begin in range(0, self.places.count, self.places.held):
            pairs = 0
            for held in states[begin:begin + self.places.held]:
                pairs |= held
            if pairs and what == 'forget-tape':
                pairs = ALL_PAIRS
            after += [pairs] * self.places.held
        return after

    def with_register(self, states, exchange):
        """What a command makes of these that gives a value to a register, or moves it."""
        what, register = exchange.effect.what, exchange.register
        cleared, entries = self.places.cleared[register], self.places.registers[register]
        after = self.nothing()
        if what in ('next', 'previous'):
            to = [entry * self.places.strides[register] for entry in entries.moved(1 if what == 'next' else -1)]
            for pairs, place, entry in zip(states, cleared, self.places.entries[register]):
                after[place + to[entry]] |= pairs
            return after
        for pairs, place in zip(states, cleared):
            after[place] |= pairs
        if what == 'clear':
            return after
        takes = self.values_given(exchange, entries)
        return [after[place] if entry in takes else 0 for place, entry in zip(cleared, self.places.entries[register])]

    def values_given(self, exchange, entries):
        """The entries that a command may give to a register, whatever it held."""
        if exchange.effect.what == 'at':
            return {entries.entry_of(exchange.time)}
        return range(exchange.effect.what == 'somewhere', entries.count)

    def step(self, states, exchange, believed=True):
        """An exchange after the drift, with its reply believed or not."""
        if not believed:
            return [before | after for before, after in zip(states, self.effect(states, exchange))]
        if exchange.is_nak:
            return states
        agreed = self.agreeing(states, exchange)
        after = self.effect(agreed, exchange)
        if not exchange.effect.may_be_ignored:
            return after
        return [pairs | (ignored if local else 0) for pairs, ignored, local in zip(after, agreed, self.places.local)]

    # ---- questions; places of exchanges are counted from 0

    def first_break(self):
        """The first exchange after which no state remains, all replies believed; none where there is none."""
        states, going = self.everything(), self.sheet.all
        for number, exchange in enumerate(self.exchanges):
            states = self.step(self.drift(states, going, self.hands), exchange)
            going = self.go_on(going, exchange)
            if not any(states):
                return number
        return None

    def is_no(self):
        return self.first_break() is not None

    def when_giving(self, number):
        """The states in which the deck could be when it gave this reply, all before it believed."""
        states, going = self.everything(), self.sheet.all
        for exchange in self.exchanges[:number]:
            states = self.step(self.drift(states, going, self.hands), exchange)
            going = self.go_on(going, exchange)
        return self.drift(states, going, self.hands)

    def has_believing(self, believed, upto):
        """There is a run of the exchanges up to this one that believes these replies. As long as nothing was believed every state
        is there, and all goes on."""
        states, going = self.everything(), self.sheet.all
        for number in range(min(believed, default=upto + 1), upto + 1):
            exchange = self.exchanges[number]
            states = self.step(self.drift(states, going, self.hands), exchange, number in believed)
            going = self.go_on(going, exchange, number in believed)
            if not any(states):
                return False
        return True

    def could_show(self, number):
        """The line of what the deck could show when it gave this reply."""
        states = self.when_giving(number)
        places = [place for place, pairs in enumerate(states) if pairs]
        modes = 0
        for pairs in set(states):
            modes |= shown_in(pairs)
        shown = [MODES[mode] for mode in members(modes)]
        ins, outs, audio_ins, audio_outs = [self.known_entry(places, register) for register in REGISTERS]
        local = known_flag({self.places.local[place] for place in places}, 'yes', 'no')
        line = f'could show: shown {"any" if len(shown) == len(MODES) else "|".join(shown)}, in {ins}, out {outs}, local {local}'
        line += f', ain {audio_ins}, aout {audio_outs}'
        if self.hands:
            line += ', panel ' + known_flag({self.places.panel[place] for place in places}, 'on', 'off')
        return line

    def known_entry(self, places, register):
        entries = self.places.registers[register]
        seen = {self.places.entries[register][place] for place in places}
        if not entries.is_touched or (0 in seen and len(seen) > 1):
            return 'unknown'
        if seen == {0}:
            return 'clear'
        return time_text(entries.times[min(seen)]) if len(seen) == 1 and entries.elsewhere not in seen else 'set'

    def fewest_moves(self):
        """The least number of a hand's moves in a run of all exchanges that believes all replies; none where there is none. Round
        by round: the states to which at most so many moves of a hand lead. Before which exchanges the panel was on in the round
        before is kept."""
        was_on = [False] * len(self.exchanges)
        for moves in range(len(self.exchanges) + 1):
            states = self.everything()
            for number, exchange in enumerate(self.exchanges):
                is_on = self.has_panel_on(states)
                states = self.drift(states, self.sheet.all, False)
                if was_on[number]:
                    states = self.with_any_panel_on(states)
                was_on[number] = is_on
                states = self.step(states, exchange)
            if any(states):
                return moves
        return None


def known_flag(seen, yes, no):
    return 'unknown' if len(seen) > 1 else yes if 1 in seen else no
