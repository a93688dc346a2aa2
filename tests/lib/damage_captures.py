"""Damages captures as lines and machines do: damage_captures.py NUMBER FOLDER. Capture i, the one after it and the next, which
are FOLDER/i.csv and so on, stand one after the other in FOLDER/i-damaged.csv, with up to six faults: bytes that come late, are
lost, come twice, have another bit, come on both wires or on the other one, a time that is none, another kind of reply, and none,
and late replies, one or several. Every run damages the same."""
import sys

from chance import Chance
from wire import block_of, other, read_rows, with_sum, write_records

SEED = 40009
LATE_GAPS = '9287 9288 10287 10288 30000'
TIME_SENSE, NO_TIME, ACK = block_of('61 0C 01'), block_of('74 04 25 00 00 00'), block_of('10 01')


class Damaged:
    """Records that are damaged: how long each comes after the one before it, its wire, and its byte."""

    def __init__(self, chance, records):
        self.chance = chance
        self.records = records

    def wire(self, place):
        return self.records[place][1]

    def set_gap(self, place, gap):
        self.records[place] = (gap, *self.records[place][1:])

    def set_byte(self, place, byte):
        self.records[place] = (*self.records[place][:2], byte)

    def insert(self, place, wire, block):
        self.records[place:place] = [(400, wire, byte) for byte in block]

    # ---- where blocks are; a run is what one wire sends at one go

    def first_of(self, place):
        while place > 0 and self.wire(place - 1) == self.wire(place):
            place -= 1
        return place

    def end_of(self, place):
        """The place behind a run."""
        wire = self.wire(place)
        while place < len(self.records) and self.wire(place) == wire:
            place += 1
        return place

    def reply_at(self, place):
        """Where the deck begins to send, here or next."""
        return self.first_of(place) if self.wire(place) == 'D' else self.end_of(place)

    def inner_reply_at(self, place):
        """The same where something comes behind that; else none."""
        place = self.reply_at(place)
        return place if place < len(self.records) and self.end_of(place) < len(self.records) else None

    # ---- faults

    def damage(self, place):
        faults = [self.come_late, self.run_comes_late, self.lose, self.double, self.turn_bit, self.come_on_both,
                  self.come_on_other, self.repeat, self.spoil_time, self.acknowledge, self.be_silent, self.ask_for_time,
                  self.answer_late, self.answer_several_late]
        faults[self.chance.draw(len(faults))](place)

    def some_gap(self):
        return int(self.chance.one_of(LATE_GAPS))

    def come_late(self, place):
        self.set_gap(place, self.some_gap())

    def run_comes_late(self, place):
        self.come_late(self.first_of(place))

    def lose(self, place):
        del self.records[place]

    def double(self, place):
        self.insert(place, *self.sent_at(place))

    def sent_at(self, place):
        """The wire of a record, and its byte as a list."""
        _, wire, byte = self.records[place]
        return wire, [byte]

    def turn_bit(self, place):
        self.set_byte(place, self.records[place][2] ^ 1 << self.chance.draw(8))

    def come_on_both(self, place):
        wire, sent = self.sent_at(place)
        self.insert(place + 1, other(wire), sent)

    def come_on_other(self, place):
        gap, wire, byte = self.records[place]
        self.records[place] = gap, other(wire), byte

    def repeat(self, place):
        """What one wire sent comes once more, on the same wire or as an echo on the other."""
        first, end = self.first_of(place), self.end_of(place)
        wire = self.wire(first) if self.chance.draw(2) else other(self.wire(first))
        self.insert(end, wire, [byte for _, _, byte in self.records[first:end]])

    def spoil_time(self, place):
        """The next command or reply with a time has none, and its sum is right."""
        for first in range(place, len(self.records)):
            if self.records[first][2] in (0x44, 0x74) and self.first_of(first) == first and self.end_of(first) == first + 7:
                self.set_byte(first + 2, 0x25)
                *_, total = with_sum([byte for _, _, byte in self.records[first:first + 6]])
                self.set_byte(first + 6, total)
                return

    def acknowledge(self, place):
        """What the deck sent is an acknowledgement."""
        first = self.reply_at(place)
        if first < len(self.records):
            del self.records[first:self.end_of(first) - 1]
            self.set_byte(first, ACK[-1])
            self.insert(first, 'D', ACK[:-1])

    def be_silent(self, place):
        """The deck says nothing, and the controller goes on after a while."""
        place = self.inner_reply_at(place)
        if place is not None:
            del self.records[place:self.end_of(place)]
            self.come_late(place)

    def ask_for_time(self, place):
        """The controller asks for the time, and is told one that there is not."""
        place = self.inner_reply_at(place)
        if place is not None:
            place = self.end_of(place)
            self.insert(place, 'D', NO_TIME)
            self.insert(place, 'C', TIME_SENSE)

    def answer_late(self, place, times=1):
        """The deck is slow: so many replies, from here or next on, come late."""
        place = self.reply_at(place)
        while times > 0 and place < len(self.records):
            self.set_gap(place, int(self.chance.one_of('9288 10287 12000 30000')))
            behind = self.end_of(place)
            place = self.reply_at(behind) if behind < len(self.records) else behind
            times -= 1

    def answer_several_late(self, place):
        self.answer_late(place, 2 + self.chance.draw(4))


def records_of(folder, number):
    return [(400, wire, byte) for _, wire, byte in read_rows(f'{folder}/{number}.csv')]


def main(number, folder):
    chance, number = Chance(SEED), int(number)
    for place in range(number):
        damaged = Damaged(chance, [record for k in range(3) for record in records_of(folder, (place + k) % number + 1)])
        for _ in range(chance.draw(7)):
            damaged.damage(chance.draw(len(damaged.records)))
        write_records(f'{folder}/{place + 1}-damaged.csv', damaged.records)


if __name__ == '__main__':
    main(*sys.argv[1:])
