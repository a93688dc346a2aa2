"""What a controller sends, without sums. Of captures on a theme all but a few commands are about IN, or about the tape."""
from drawing.drawn_deck import drawn_time_bytes
from wire import bytes_of

STATUSES = '01 01 01 11 12 12 12 12 03 04 04 31 31 31 21 22 0F 13 00 1F 41'
UNLISTED_AND_OTHERS = '20 40|40 08|60 2B|00 05|80 00|30 01|41 30 00|00 11|61 0C 01|40 41'


class Controller:
    def __init__(self, chance, theme, has_sheet):
        self.chance, self.theme, self.has_sheet = chance, theme, has_sheet

    def command(self):
        draw = self.chance.draw
        if self.has_sheet and draw(4):
            return self.of_sheet()
        if self.theme == 'in' and draw(8):
            return self.about_in()
        if self.theme == 'tape' and draw(8):
            return self.about_tape()
        return self.any_command()

    def one_of(self, commands):
        return bytes_of(self.chance.one_of(commands, '|'))

    def status(self, data):
        return [0x61, 0x20, *bytes_of(self.chance.one_of(data))]

    def preset(self, register):
        return [0x44, 0x14 + register, *drawn_time_bytes(self.chance)]

    def of_sheet(self):
        if self.chance.draw(2):
            return self.status('12 12 12 31 31 04')
        return self.one_of('20 42|20 42|20 42|20 61|20 0F|20 0F|20 00|20 05|20 01')

    def about_in(self):
        kind = self.chance.draw(15)
        if kind < 3:
            return self.preset(0)
        if kind < 8:
            return bytes_of('60 10')
        return self.one_of('61 20 31|40 18|40 18|40 19|40 19|40 10|40 20|40 24')

    def about_tape(self):
        if self.chance.draw(2):
            return self.status('12 12 11 21 03')
        return self.one_of('20 00|20 01|20 02|20 20|20 10|20 0F|21 11 40|22 13 40 00|21 12 20|20 30|20 05')

    def any_command(self):
        kind = self.chance.draw(100)
        register = 0 if self.chance.draw(6) else self.chance.draw(4)
        if kind < 36:
            return self.status(STATUSES)
        if kind < 54:
            return [0x60, 0x10 + register]
        if kind < 60:
            return self.one_of('20 00|20 01|20 01|20 02|20 20|20 10|20 0F')
        if kind < 66:
            return self.one_of('21 11 40|22 13 40 00|21 12 20|21 23 7F|20 30|20 34|20 05')
        if kind < 68:
            return [0x24, 0x31, *drawn_time_bytes(self.chance)]
        if kind < 91:
            return self.of_register(kind, register)
        if kind < 95:
            return bytes_of('00 1D' if kind < 93 else '00 0C')
        return self.one_of(UNLISTED_AND_OTHERS)

    def of_register(self, kind, register):
        if kind < 78:
            return self.preset(register)
        if kind < 84:
            return [0x40, (0x18 if self.chance.draw(2) else 0x19) + 2 * register]
        return [0x40, (0x10 if kind < 87 else 0x20 if kind < 89 else 0x24) + register]
