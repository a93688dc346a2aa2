"""Sheets that are drawn, and how they are written. In one line a sheet is as deck/sheet.py reads it."""
from deck.modes import MODES

TABLES = ['forgets', 'loses', 'runs']


def drawn_sheet(chance):
    """What the deck does by itself after some commands, AUTO EDIT and EJECT mostly; and that it forgets nothing at some."""
    entries = []
    for place, head in enumerate('2042 2042 2061 2000 2001 2005 200F'.split()):
        if not any(entry.startswith(f'runs:{head}') for entry in entries) and chance.draw(2 if place < 2 else 6) == 0:
            modes = [chance.one_of(' '.join(MODES))]
            modes += [chance.one_of(' '.join(MODES)) for _ in range(chance.draw(4))]
            entries.append(f'runs:{head}={",".join(modes)}')
    if chance.draw(2):
        entries.append('loses:200F=' + chance.one_of('points registers'))
    if chance.draw(4) == 0:
        entries.append('loses:2042=' + chance.one_of('points registers'))
    if chance.draw(6) == 0:
        entries.append('loses:2001=points')
    if chance.draw(6):
        entries.append('forgets:2042=nothing')
    if chance.draw(2):
        entries.append('forgets:2061=nothing')
    return ';'.join(entries) or '-'


def write_sheet(path, sheet):
    with open(path, 'w') as file:
        for table in TABLES:
            entries = [(head, value) for own, head, value in sheet.entries() if own == table]
            if entries:
                file.write(f'[{table}]\n')
            for head, value in entries:
                words = ', '.join(f'"{word}"' for word in value.split(','))
                file.write(f'"{head[:2]} {head[2:]}" = {f"[{words}]" if table == "runs" else words}\n')
