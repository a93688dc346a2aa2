"""Exchanges of a capture, and what each of them is to the deck."""
from deck.commands import REGISTER_SENSES, STATUS_SENSE, effect_of, head_of
from deck.times import time_at

NAK_HEAD = '1112'


class Exchange:
    """A command and its reply. What a reply does not tell is none."""

    def __init__(self, command, reply, first_record, sheet):
        self.command, self.reply = command, reply
        self.first_record = first_record
        self.last_record = first_record + len(command) + len(reply) - 1
        self.head = head_of(command)
        self.is_nak = head_of(reply) == NAK_HEAD
        self.effect = effect_of(command, sheet.forgets_nothing)
        self.register = self.effect.register
        self.time = time_at(command[2:6]) if self.effect.what == 'at' else None
        self.senses_register = self.head in REGISTER_SENSES
        self.senses_status = self.head == STATUS_SENSE
        self.told = None
        self.data = [None] * 4
        if not self.is_nak:
            self.take_reply()

    def take_reply(self):
        if self.senses_register:
            self.told = time_at(self.reply[2:6])
        if self.senses_status:
            first = self.command[2] // 16
            for number, datum in enumerate(self.reply[2:-1], first):
                if number < len(self.data):
                    self.data[number] = datum


class Capture:
    """Of a text with exchanges between semicolons, each the bytes of a command, `>` and those of its reply."""

    def __init__(self, text, sheet):
        self.text, self.sheet = text, sheet
        self.exchanges = []
        self.records = 0
        for part in text.split(';'):
            command, reply = map(bytes.fromhex, part.split('>'))
            exchange = Exchange(command, reply, self.records + 1, sheet)
            self.exchanges.append(exchange)
            self.records = exchange.last_record

    def touched(self, register):
        """A command or a reply is about this register."""
        return any(exchange.register == register or exchange.data[3] is not None for exchange in self.exchanges)

    def named(self, register):
        """The times of a register that stand in a command or a reply."""
        own = [exchange for exchange in self.exchanges if exchange.register == register]
        return {time for exchange in own for time in (exchange.time, exchange.told) if time is not None}

    def shifts(self, register):
        """How many commands move it by a frame."""
        return sum(exchange.register == register and exchange.effect.what in ('next', 'previous') for exchange in self.exchanges)
