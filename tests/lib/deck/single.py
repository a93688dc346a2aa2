"""One state after another, as the lines of a run tell them, with times as they are. A register that is Clear holds none."""
import itertools
import re
from typing import NamedTuple, Optional

from deck.commands import REGISTERS
from deck.modes import MODES, STOP, fits, pair_of, reached_from, shown_of
from deck.times import DAY, time_told

FORM = re.compile(r'record (\d+): goal (\S+), shown (\S+), in (\S+), out (\S+), local (yes|no), ain (\S+), aout (\S+)'
                  r'(?:, panel (on|off))?')


class State(NamedTuple):
    pair: int
    registers: tuple[Optional[int], ...]
    local: bool
    panel: bool


def state_told(line, record, hands):
    """The state that the line of this record tells; none where it is no such line."""
    found = FORM.fullmatch(line)
    if not found or found[1] != str(record) or (found[9] is not None) != hands:
        return None
    _, goal, shown, ins, outs, local, audio_ins, audio_outs, panel = found.groups()
    told = ins, outs, audio_ins, audio_outs
    registers = tuple(time_told(word) for word in told)
    are_read = all(word == 'clear' or time is not None for word, time in zip(told, registers))
    if goal not in MODES or shown not in MODES or not are_read:
        return None
    return State(pair_of(MODES.index(goal), MODES.index(shown)), registers, local == 'yes', panel == 'on')


def moved(time, by):
    return None if time is None else (time + by) % DAY


class Ways:
    """What leads from one state to the next in a capture, where hands are allowed or not."""

    def __init__(self, hands):
        self.hands = hands

    # ---- May a part of a state lead to the same part of the next, with a reply that agrees with it?

    def pair_may(self, exchange, before, after):
        if not fits(shown_of(before), exchange.data[1], exchange.data[2]):
            return False
        what = exchange.effect.what
        if what == 'go':
            return after == pair_of(exchange.effect.goal, shown_of(before))
        if what == 'keep-or-stop':
            return after in (before, pair_of(STOP, shown_of(before)))
        return what in ('forget-tape', 'forget-all') or after == before

    def register_may(self, exchange, register, before, after):
        if not shows_register(exchange, register, before):
            return False
        what = exchange.effect.what
        if what.startswith('forget'):
            return True
        if exchange.register != register or what == 'nothing':
            return after == before
        if what in ('next', 'previous'):
            return after == moved(before, 1 if what == 'next' else -1)
        if what == 'somewhere':
            return after is not None
        # FLAG RESET gives none.
        return what == 'anything' or after == exchange.time

    def local_may(self, exchange, before, after):
        return shows_local(exchange, before) and (exchange.effect.what == 'forget-all' or after == before)

    def panel_may(self, exchange, before, after):
        if self.hands and exchange.effect.what == 'panel':
            return after == exchange.effect.switches_on
        return (self.hands and exchange.effect.what == 'forget-all') or after == before

    # ---- whole states

    def steps_to(self, exchange, before, after):
        """A step leads from one to the other."""
        if exchange.is_nak:
            return before == after
        if is_ignored(exchange, before, after):
            return True
        return (all(self.register_may(exchange, register, before.registers[register], after.registers[register])
                    for register in REGISTERS)
                and self.pair_may(exchange, before.pair, after.pair)
                and self.local_may(exchange, before.local, after.local)
                and self.panel_may(exchange, before.panel, after.panel))

    def goes_without_hand(self, going, exchange, before, after):
        """A drift that no hand takes part in, and a step, lead from one to the other. Of the registers that may be lost all
        choices are tried."""
        choices = [{held, None} if register in going.lost else {held} for register, held in enumerate(before.registers)]
        return any(self.steps_to(exchange, State(pair, held, before.local, before.panel), after)
                   for held in itertools.product(*choices) for pair in reached_from(before.pair, going.modes))

    def comes_from_some(self, exchange, panel, after):
        """A step leads to this state from some state with the panel so."""
        if exchange.is_nak:
            return after.panel == panel
        if after.panel == panel and is_ignored(exchange, after, after):
            return True
        return (self.panel_may(exchange, panel, after.panel)
                and any(self.local_may(exchange, local, after.local) for local in (False, True))
                and any(self.pair_may(exchange, pair, after.pair) for pair in range(100))
                and all(self.register_comes(exchange, register, after.registers[register]) for register in REGISTERS))

    def register_comes(self, exchange, register, after):
        """The same of a register. Of what it held those times are tried that can matter: none, that of the state, its neighbours,
        and the one that the reply tells."""
        tried = {None, after, moved(after, 1), moved(after, -1), exchange.told}
        return any(self.register_may(exchange, register, held, after) for held in tried)

    # ---- moves of a hand

    def moves_to(self, going, exchange, before, after):
        """The least number of moves with which an exchange leads from one state to the other: 0 or 1, or none where none do."""
        if self.goes_without_hand(going, exchange, before, after):
            return 0
        return 1 if self.hands and before.panel and self.comes_from_some(exchange, True, after) else None

    def moves_to_first(self, exchange, after):
        """The same of the first exchange, where the state before it is any: 0 or none."""
        if self.comes_from_some(exchange, False, after):
            return 0
        return 0 if self.hands and self.comes_from_some(exchange, True, after) else None


def is_ignored(exchange, before, after):
    """A deck in LOCAL may do nothing, and its reply agrees with it."""
    return exchange.effect.may_be_ignored and after.local and before == after and shows(exchange, before)


def shows(exchange, state):
    """The reply agrees with a state."""
    return (shows_local(exchange, state.local) and fits(shown_of(state.pair), exchange.data[1], exchange.data[2])
            and all(shows_register(exchange, register, held) for register, held in enumerate(state.registers)))


def shows_local(exchange, local):
    return exchange.data[0] is None or bool(exchange.data[0] & 1) == local


def shows_register(exchange, register, held):
    if exchange.data[3] is not None and bool(exchange.data[3] >> register & 1) != (held is not None):
        return False
    return not exchange.senses_register or exchange.register != register or held in (None, exchange.told)
