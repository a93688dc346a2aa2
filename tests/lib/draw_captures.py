"""Draws captures: draw_captures.py NUMBER FOLDER [--sheets]. Capture i is written to FOLDER/i.csv, and a line for it to standard
output: i, whether it is to be judged with hands, what the deck's sheet says as deck/sheet.py reads it, and its exchanges as
deck/capture.py reads them. The replies are those of a deck that takes one way of those that it has; in most captures one of them
is then spoilt. Every run draws the same. With --sheets every third capture is of a deck with a sheet, FOLDER/i.toml, that says
what it does by itself."""
import sys

from chance import Chance
from deck.capture import Capture
from deck.listing import Listing
from deck.sheet import Sheet
from drawing.exchanges import drawn_exchanges
from drawing.sheets import drawn_sheet, write_sheet
from wire import write_records

SEED = 20011
TRIES = 40


def text_of(exchanges):
    return ';'.join('>'.join(bytes(block).hex(' ').upper() for block in exchange) for exchange in exchanges)


class Wanted:
    """What a capture is to be. Of twenty of a kind nine are to be a no, and four to be a yes though replies are spoilt: those
    with hands such that it is a no without, and every fourth of these such that a hand has to move twice. The other seven, where
    the deck has a sheet, are to be a yes by what it does by itself."""

    def __init__(self, number, with_sheets):
        self.with_hands = number % 2 == 1
        self.has_sheet = with_sheets and number % 3 == 0
        kind = number // 2 % 20
        self.is_no = kind < 9
        self.is_spoilt = kind < 13
        self.wants_two_moves = kind == 12

    def spoils(self, chance):
        """How many replies are spoilt."""
        if not self.is_spoilt:
            return 0
        if self.is_no:
            return 1
        return (2 if self.wants_two_moves else 1) + chance.draw(4)

    def is_met(self, text, sheet):
        if not self.is_spoilt:
            return sheet.text == '-' or Listing(Capture(text, sheet.resting()), self.with_hands).is_no()
        capture = Capture(text, sheet)
        listing = Listing(capture, self.with_hands)
        is_no = listing.is_no()
        if is_no or self.is_no:
            return is_no and self.is_no
        if not self.with_hands:
            return True
        return listing.fewest_moves() > 1 if self.wants_two_moves else Listing(capture, False).is_no()


def draw_capture(chance, number, with_sheets):
    """What a capture is judged with, its exchanges, and the text of these. It is drawn again until it is what is wanted of it, at
    most so many times."""
    wanted = Wanted(number, with_sheets)
    for _ in range(TRIES):
        sheet = Sheet(drawn_sheet(chance) if wanted.has_sheet else '-')
        exchanges = drawn_exchanges(chance, sheet, wanted.with_hands, wanted.spoils(chance))
        text = text_of(exchanges)
        if wanted.is_met(text, sheet):
            break
    return wanted.with_hands, sheet, exchanges, text


def main(number, folder, *words):
    chance = Chance(SEED)
    for place in range(1, int(number) + 1):
        with_hands, sheet, exchanges, text = draw_capture(chance, place, '--sheets' in words)
        print(place, int(with_hands), sheet.text, text)
        if sheet.text != '-':
            write_sheet(f'{folder}/{place}.toml', sheet)
        records = [(400, wire, byte) for exchange in exchanges for wire, block in zip('CD', exchange) for byte in block]
        write_records(f'{folder}/{place}.csv', records)


if __name__ == '__main__':
    main(*sys.argv[1:])
