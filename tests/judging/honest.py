"""Draws sessions with an honest deck that runs edits by itself, and clears IN and OUT some time after EJECT: honest.py NUMBER
FOLDER. Session i is FOLDER/i.csv, and each of FOLDER/i-point.csv, i-mode.csv and i-behind.csv is the same but for one reply,
which no such deck gives:

    point    IN is another in the midst of an AUTO EDIT, after a status has shown that it is set
    mode     a mode in the midst of an edit that its list does not have
    behind   a mode of an edit behind the STOP that ended it, after STOP was shown

A line for each is written: its name, and the verdict that it has to have. Every run draws the same."""
import os
import sys

sys.path.insert(0, os.path.join(os.path.dirname(os.path.abspath(__file__)), '..', 'lib'))
from chance import Chance
from drawing.sessions import MODES
from wire import bcd, block_of, write_records

SEED = 4711
FRAME_US = 40000
MODE_SENSE, IN_SENSE = '61 20 12', '60 10'
AUTO_EDIT = '20 42'


def status_of_mode(mode):
    return '72 20 %02X %02X' % MODES[mode]


class Session:
    def __init__(self, chance):
        self.chance, self.draw, self.one_of = chance, chance.draw, chance.one_of
        # Blocks in hexadecimal, without their sums.
        self.exchanges = []
        # Of the three wrong replies: whose place they take, and what they are.
        self.planted = {}
        self.holds = {'in': None, 'out': None}

    # ---- exchanges

    def send(self, command, reply):
        self.exchanges.append((command, reply))

    def acknowledged(self, command):
        self.send(command, '10 01')

    def plant(self, kind, command, reply, wrong):
        self.planted[kind] = len(self.exchanges), wrong
        self.send(command, reply)

    def drawn_time(self):
        return ' '.join('%02X' % bcd(self.draw(count)) for count in (25, 60, 60, 24))

    def poll_mode(self, mode):
        self.send(MODE_SENSE, status_of_mode(mode))

    def poll_modes(self, mode, times):
        """Something beside the mode is asked now and then, while the deck goes on."""
        for _ in range(times):
            self.poll_mode(mode)
            if self.draw(4) == 0:
                self.poll_registers()
            if self.draw(5) == 0:
                self.poll_point(self.one_of('in out'))
            if self.draw(6) == 0:
                self.send('61 0C 01', '74 04 ' + self.drawn_time())

    def poll_registers(self):
        self.send('61 20 31', '71 20 %02X' % ((self.holds['in'] is not None) + 2 * (self.holds['out'] is not None)))

    def poll_point(self, point):
        """Of a register that is clear any time is told, or none."""
        told = self.holds[point] or self.one_of('FF FF FF FF|00 00 00 00|12 30 59 07', '|')
        code = '10' if point == 'in' else '11'
        self.send('60 ' + code, f'74 {code} {told}')

    # ---- what happens in a session

    def preset(self, point):
        self.holds[point] = self.drawn_time()
        self.acknowledged(f'44 {"14" if point == "in" else "15"} {self.holds[point]}')

    def stop(self, before):
        """The mode before STOP may be shown until STOP is."""
        self.acknowledged('20 00')
        if self.draw(3) == 0:
            self.poll_mode(before)
        self.poll_modes('STOP', 1 + self.draw(2))

    def go(self, command, way, mode):
        """A command, modes that the deck may show on the way to its own, that one, and STOP."""
        self.acknowledged(command)
        self.poll_modes(way, self.draw(3))
        self.poll_modes(mode, 1 + self.draw(3))
        self.stop(mode)

    def play(self):
        self.go('20 01', 'STOP', 'PLAY')

    def lose_some(self):
        """The deck clears the points at some time, or keeps them."""
        for point in self.holds:
            if self.draw(3) == 0:
                self.holds[point] = None

    def eject(self):
        self.acknowledged('20 0F')
        for _ in range(1 + self.draw(4)):
            self.poll_modes('EJECT', 1)
            self.lose_some()
        if self.draw(3):
            self.poll_modes('STOP', 1)
            self.lose_some()
            if self.draw(2):
                self.stop('STOP')
            self.lose_some()
        self.poll_registers()

    def edit(self, command):
        """Its modes one after the other, to the end, or to a STOP in their midst; every edit cues, and AUTO EDIT alone
        records."""
        self.acknowledged(command)
        cues = self.one_of('SHUTTLE JOG|JOG|SHUTTLE|JOG SHUTTLE JOG', '|').split()
        records = ['REC', 'PLAY'] if command == AUTO_EDIT else []
        ends = self.one_of('STOP|SHUTTLE STOP', '|').split()
        modes = [*cues, 'CUED', 'PLAY', *records, *ends]
        shown = modes if self.draw(3) else modes[:1 + self.draw(len(modes) - 1)]
        for mode in shown:
            self.poll_modes(mode, 1 + self.draw(3))
        if len(shown) < len(modes) or self.draw(3) == 0:
            self.stop(shown[-1])

    def planted_edit(self):
        """An AUTO EDIT in which IN is seen to be set, and to stay where it is; then STOP, and STOP is seen twice."""
        if self.holds['in'] is None or self.draw(2):
            self.preset('in')
        self.acknowledged(AUTO_EDIT)
        self.poll_modes(self.one_of('SHUTTLE JOG'), 1 + self.draw(3))
        self.poll_registers()
        self.poll_point('in')
        self.poll_modes('CUED', 1)
        self.plant('mode', MODE_SENSE, status_of_mode('PLAY'), status_of_mode(self.one_of('FF REW VAR')))
        self.poll_modes('REC', 1 + self.draw(4))
        another = self.drawn_time()
        while another == self.holds['in']:
            another = self.drawn_time()
        self.plant('point', IN_SENSE, '74 10 ' + self.holds['in'], '74 10 ' + another)
        self.poll_modes('PLAY', self.draw(2))
        self.stop('PLAY')
        self.plant('behind', MODE_SENSE, status_of_mode('STOP'), status_of_mode(self.one_of('CUED JOG PLAY REC SHUTTLE')))
        self.poll_modes('STOP', self.draw(2))

    def happen(self, kind):
        if kind < 3:
            self.edit(self.one_of('20 40|20 41|20 42|20 43', '|'))
            return
        if kind < 5:
            self.eject()
            return
        if kind < 6:
            self.play()
        elif kind < 7:
            self.go('20 02', 'PLAY', 'REC')
        elif kind < 8:
            self.go('24 31 ' + self.drawn_time(), self.one_of('SHUTTLE JOG FF'), 'CUED')
        else:
            self.preset(self.one_of('in out'))
        self.poll_registers()

    def run(self):
        """The first PLAY may be far on: until then the deck may go on with what was begun before the capture."""
        self.send('61 20 01', '71 20 00')
        if self.draw(2):
            self.poll_modes(self.one_of('CUED JOG PLAY REC SHUTTLE'), 1 + self.draw(2))
        self.stop(self.one_of('CUED JOG PLAY REC SHUTTLE'))
        if self.draw(2):
            self.play()
        self.preset('in')
        if self.draw(2):
            self.preset('out')
        else:
            self.acknowledged('40 21')
        times = 2 + self.draw(5)
        planted_at = self.draw(times)
        for turn in range(times):
            if turn == planted_at:
                self.planted_edit()
            else:
                self.happen(self.draw(9))


# ---- what is written

def records_of(exchanges):
    """An exchange comes a frame after the one before it."""
    for exchange in exchanges:
        gap = FRAME_US
        for wire, block in zip('CD', exchange):
            for byte in block_of(block):
                yield gap, wire, byte
                gap = 400


def write(path, exchanges):
    """How many records they have."""
    records = list(records_of(exchanges))
    write_records(path, records)
    return len(records)


def main(number, folder):
    chance = Chance(SEED)
    for name in range(1, int(number) + 1):
        session = Session(chance)
        session.run()
        exchanges = session.exchanges
        print(f'{name} yes: records {write(f"{folder}/{name}.csv", exchanges)}, exchanges {len(exchanges)}, open 0')
        for kind in 'behind', 'mode', 'point':
            place, wrong = session.planted[kind]
            write(f'{folder}/{name}-{kind}.csv', [*exchanges[:place], (exchanges[place][0], wrong), *exchanges[place + 1:]])
            print(f'{name}-{kind} no at record {sum(1 for _ in records_of(exchanges[:place + 1]))}: M1 no run remains')


if __name__ == '__main__':
    main(*sys.argv[1:])
