"""Exchanges of a drawn controller with a drawn deck, in which replies are spoilt."""
from deck.commands import STATUS_SENSE, head_of
from drawing.controller import Controller
from drawing.drawn_deck import DrawnDeck, drawn_time_bytes
from wire import bytes_of, with_sum

REMOTE_OR_LOCAL = bytes_of('61 20 01')
LOCAL_DISABLE = bytes_of('00 0C')


def drawn_exchanges(chance, sheet, with_hands, spoils):
    """A few, each a command and its reply, with so many spoilt replies."""
    draw = chance.draw
    deck = DrawnDeck(chance, sheet, with_hands)
    deck.panel_on = with_hands and (spoils > 1 or draw(4) == 0)
    count = max(2 + draw(6), 2 + draw(6))
    theme = chance.one_of('in tape any any')
    has_sheet = sheet.text != '-'
    if theme != 'any' and draw(8):
        deck.in_local = False
    if has_sheet and draw(4):
        deck.in_local = False
    controller = Controller(chance, theme, has_sheet)
    commands, replies = [], []
    for place in range(count):
        command = controller.command()
        command = first_command(chance, place, with_hands, spoils, theme, has_sheet) or command
        if place == count - 1 and draw(2):
            command = last_command(chance, theme)
        deck.drift()
        commands.append(command)
        replies.append(deck.reply(command))
    spoil(chance, commands, replies, spoils)
    return [(with_sum(command), with_sum(reply)) for command, reply in zip(commands, replies)]


def first_command(chance, place, with_hands, spoils, theme, has_sheet):
    """What most captures have at their beginning in the place of another command."""
    draw = chance.draw
    if with_hands and spoils < 2 and place == (2 if draw(5) == 0 else 0) and draw(8):
        return LOCAL_DISABLE
    if place == with_hands and draw(3) < (2 if has_sheet or theme != 'any' else 1):
        return REMOTE_OR_LOCAL
    return None


def last_command(chance, theme):
    """One whose reply shows what became of the deck."""
    if theme == 'any':
        return bytes_of(chance.one_of('60 10|61 20 01|61 20 04|61 20 12', '|'))
    return bytes_of('61 20 12' if theme == 'tape' else '60 10')


def spoil(chance, commands, replies, spoils):
    """Spoils so many replies to sense requests: the last one mostly, and others."""
    senses = [place for place, (command, reply) in enumerate(zip(commands, replies)) if is_sense(command) and reply[0] != 0x11]
    if not senses:
        return
    for _ in range(spoils):
        place = senses[-1] if chance.draw(3) else senses[chance.draw(len(senses))]
        replies[place] = spoilt(chance, commands[place], replies[place])


def is_sense(command):
    return command[0] in (0x60, 0x61) and command[1] // 16 in (1, 2)


def spoilt(chance, command, reply):
    """A reply to this command that is another than this one."""
    reply = list(reply)
    if head_of(command) == STATUS_SENSE and len(reply) > 2:
        place = 2 + chance.draw(len(reply) - 2)
        reply[place] = other_datum(chance, command[2] // 16 + place - 2, reply[place])
    elif command[0] == 0x60 and len(reply) == 6:
        if chance.draw(8) == 0:
            reply[2] = 0xFF
        else:
            reply[2:] = drawn_time_bytes(chance)
    return reply


def other_datum(chance, number, datum):
    if number in (0, 3):
        return datum ^ 1
    if number == 1:
        return int(chance.one_of('20 01 02 04 08 10 00 3F'), 16)
    if number == 2:
        return int(chance.one_of('20 10 08 01 00'), 16)
    return datum
