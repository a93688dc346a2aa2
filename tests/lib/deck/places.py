"""The places of the states of a capture: the values that matter of all but goal and shown mode. A place is a number from 0 up.

Of the times only those matter to which the shifts of a capture can bring a register from, or to, a time that the capture names.
They are named here too; every other time is elsewhere. As these are further from each time of the capture than all its shifts
together reach, a register that is elsewhere stays so until another value is given to it. It got there with a whole lot of times
at once, so what is elsewhere is never known as one time. A register that no command and no reply of the capture is about may hold
anything at any time: it has one place for all that it holds.

What a register holds is its entry: 0 is Clear, then come the times that matter, and the last one is elsewhere.
"""
from functools import cached_property

from deck.commands import REGISTERS
from deck.times import DAY


class Entries:
    """What one register can hold."""

    def __init__(self, capture, register):
        self.is_touched = capture.touched(register)
        reach = capture.shifts(register)
        near = {(time + by) % DAY for time in capture.named(register) for by in range(-reach, reach + 1)}
        self.times = [None, *sorted(near)]
        self.number_of = {time: entry for entry, time in enumerate(self.times) if entry}
        self.elsewhere = len(self.times) if self.is_touched else 0
        self.count = self.elsewhere + 1

    def entry_of(self, time):
        return self.number_of.get(time, self.elsewhere)

    def moved(self, by):
        """To which entry each of them leads where the register is moved by so many frames."""
        if not self.is_touched:
            return [0]
        return [0, *(self.entry_of((time + by) % DAY) for time in self.times[1:]), self.elsewhere]


class Places:
    """The places: of each what it stands for, in lists."""

    def __init__(self, capture, hands):
        self.registers = [Entries(capture, register) for register in REGISTERS]
        # By how much places differ of which one register has the next entry.
        self.strides = []
        count = 1
        for entries in self.registers:
            self.strides.append(count)
            count *= entries.count
        # How many places differ in registers alone, and how many have the panel off.
        self.held, self.with_panel_off = count, 2 * count
        self.count = self.with_panel_off * (2 if hands else 1)
        self.entries = [self.column(stride, entries.count) for stride, entries in zip(self.strides, self.registers)]
        self.local = self.column(self.held, 2)
        self.panel = self.column(self.with_panel_off, 2)

    def column(self, stride, count):
        """Of each place a number below this, which is the next one after so many places."""
        return [place // stride % count for place in range(self.count)]

    @cached_property
    def cleared(self):
        """Of each register: of each place the one that differs in this register alone, which is Clear there."""
        return [[place - entry * stride for place, entry in enumerate(column)]
                for stride, column in zip(self.strides, self.entries)]

    @cached_property
    def set_bits(self):
        """Of each place which registers are Set, as datum 3 of a status has them."""
        return [(a > 0) + 2 * (b > 0) + 4 * (c > 0) + 8 * (d > 0) for a, b, c, d in zip(*self.entries)]
