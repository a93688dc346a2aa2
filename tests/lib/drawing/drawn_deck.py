"""A deck that takes one way of those that it has. Its blocks have no sum here."""
from deck.commands import EFFECTS, REGISTER_SENSES, REGISTERS, STATUS_SENSE, TIME_SENSE, head_of
from deck.modes import EJECT, STATUS_LINES, STOP, goal_of, pair_of, reached_from, shown_of
from deck.times import DAY, time_at, time_bytes, time_told
from wire import bytes_of

TIMES = [time_told(text) for text in '10:00:00:00 10:00:00:01 11:00:00:00 00:00:00:00'.split()]


def drawn_time(chance):
    return TIMES[chance.draw(len(TIMES))]


def drawn_time_bytes(chance):
    return time_bytes(drawn_time(chance))


class DrawnDeck:
    def __init__(self, chance, sheet, with_hands):
        self.chance, self.sheet, self.with_hands = chance, sheet, with_hands
        self.going = sheet.all
        self.panel_on = False
        self.be_anything()

    def any_entry(self):
        return drawn_time(self.chance) if self.chance.draw(3) else None

    def be_anything(self):
        draw = self.chance.draw
        self.goal = draw(10)
        self.shown = self.goal if draw(3) else draw(10)
        self.in_local = draw(4) == 0
        self.holds = [self.any_entry() for _ in REGISTERS]

    def drift(self):
        draw = self.chance.draw
        if self.with_hands and self.panel_on and draw(3) == 0:
            self.be_anything()
        for register in sorted(self.going.lost):
            if draw(4) == 0:
                self.holds[register] = None
        if draw(2 if self.going.modes else 3):
            return
        reached = reached_from(pair_of(self.goal, self.shown), self.going.modes)
        pair = reached[draw(len(reached))]
        self.goal, self.shown = goal_of(pair), shown_of(pair)

    def reply(self, command):
        """The reply of the deck as it is; then the command has its effect."""
        if self.chance.draw(14) == 0:
            return [0x11, 0x12, *bytes_of(self.chance.one_of('01 04 14 80 00'))]
        reply = self.answer(command)
        self.obey(command)
        if not self.with_hands:
            self.going = self.sheet.after(self.going, head_of(command))
        return reply

    # ---- what it answers

    def answer(self, command):
        head = head_of(command)
        if head == STATUS_SENSE:
            return self.status(command[2])
        if head in REGISTER_SENSES:
            return [0x74, command[1], *self.register_data(REGISTER_SENSES[head])]
        if head == '0011':
            return bytes_of('12 11 F0 18')
        if head == TIME_SENSE:
            return bytes_of('74 04') + drawn_time_bytes(self.chance)
        if head not in EFFECTS and self.chance.draw(2):
            return bytes_of(self.chance.one_of('10 01|12 34 56 78|73 20 01 02 03', '|'))
        return bytes_of('10 01')

    def status(self, asked):
        """A status, now and then with fewer data than were asked for."""
        first, count = divmod(asked, 16)
        if count and self.chance.draw(8) == 0:
            count = self.chance.draw(count) + 1
        line = self.chance.draw(2) if self.shown == EJECT else 0
        line = [bits for mode, *bits in STATUS_LINES if mode == self.shown][line]
        return [0x70 + count, 0x20, *(self.datum(number, line) for number in range(first, first + count))]

    def datum(self, number, line):
        free = self.chance.draw(256)
        if number == 0:
            return self.drawn_byte(self.in_local, 1)
        if number in (1, 2):
            return self.drawn_byte(*line[2 * number - 2:2 * number])
        if number == 3:
            are_set = sum((time is not None) << register for register, time in enumerate(self.holds))
            return are_set + 16 * self.chance.draw(16)
        return free

    def drawn_byte(self, is_set, is_clear):
        """A byte with these bits set, those clear, and the others drawn."""
        byte = 0
        for bit in range(8):
            if is_set >> bit & 1 or (not is_clear >> bit & 1 and self.chance.draw(4) == 0):
                byte |= 1 << bit
        return byte

    def register_data(self, register):
        """The four bytes of a register, now and then with a flag in the first."""
        time = self.holds[register]
        if time is None:
            return bytes_of(self.chance.one_of('FF FF FF FF|00 00 00 10|00 00 00 11|25 00 00 10', '|'))
        data = time_bytes(time)
        if self.chance.draw(6) == 0:
            data[0] = 0x40 + data[0] % 16
        return data

    # ---- what it does

    def obey(self, command):
        head = head_of(command)
        if head not in EFFECTS:
            if head not in self.sheet.forgets_nothing:
                self.forget(head)
            return
        effect = EFFECTS[head]
        if effect.may_be_ignored and self.in_local and self.chance.draw(2):
            return
        if effect.what == 'go':
            self.goal = effect.goal
        elif effect.what == 'keep-or-stop':
            self.goal = STOP if self.chance.draw(2) else self.goal
        elif effect.what == 'panel':
            self.panel_on = self.with_hands and effect.switches_on
        elif effect.what != 'nothing':
            self.holds[effect.register] = self.value_given(effect.what, self.holds[effect.register], command)

    def value_given(self, what, held, command):
        if what == 'somewhere':
            return drawn_time(self.chance)
        if what == 'at':
            return time_at(command[2:6])
        if what == 'anything':
            return self.any_entry()
        if what == 'clear' or held is None:
            return None
        return (held + (1 if what == 'next' else -1)) % DAY

    def forget(self, head):
        """What a command that is not listed makes anything."""
        if head[0] == '6':
            return
        if head[0] == '4':
            self.holds = [self.any_entry() for _ in REGISTERS]
            return
        was_in_local = self.in_local
        self.be_anything()
        if head[0] == '2':
            self.in_local = was_in_local
        elif self.with_hands:
            self.panel_on = self.chance.draw(2) == 1
