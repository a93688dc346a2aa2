"""What a line of `why` tells of an exchange."""
from deck.commands import REGISTER_NAMES, head_of, is_listed
from deck.modes import MODES, fits
from deck.times import time_at, time_text

CUE_UP_WITH_DATA = '2431'


def bytes_text(block):
    return block.hex(' ').upper()


def begin_of_line(exchange):
    """Its records, and its time: a record comes 400 microseconds after the one before it."""
    return f'records {exchange.first_record} to {exchange.last_record} at {400 * exchange.first_record}: '


def asked_text(exchange):
    """The bytes of the command, after the time where it is one that has to be valid."""
    has_time = exchange.effect.what == 'at' or head_of(exchange.command) == CUE_UP_WITH_DATA
    time = time_text(time_at(exchange.command[2:6])) + ' ' if has_time else ''
    return time + bytes_text(exchange.command)


def answered_text(exchange):
    """The bytes of the reply, after the time where it is that of a register, and before what status data say by themselves."""
    time = '' if exchange.told is None else time_text(exchange.told) + ' '
    return time + bytes_text(exchange.reply) + said_by(exchange)


def said_by(exchange):
    """What status data say, by themselves."""
    in_local, datum1, datum2, are_set = exchange.data
    says = []
    if in_local is not None:
        says.append('local ' + ('yes' if in_local & 1 else 'no'))
    if datum1 is not None or datum2 is not None:
        modes = [name for mode, name in enumerate(MODES) if fits(mode, datum1, datum2)]
        says.append('shown ' + ('|'.join(modes) or 'none'))
    if are_set is not None:
        says += [f'{name} {"set" if are_set >> register & 1 else "clear"}' for register, name in enumerate(REGISTER_NAMES)]
    return ', says ' + ', '.join(says) if says else ''


def is_line_of(line, exchange):
    """A line of `why` is of this exchange: its records, its time, and the bytes of both blocks, with the times that they have and
    with what status data say. Of the name it is asked alone that a command that is not listed has none."""
    begin = begin_of_line(exchange)
    asked, arrow, answered = line.partition(' -> ')
    if not line.startswith(begin) or not arrow or answered != answered_text(exchange):
        return False
    if is_listed(exchange.command):
        return asked.endswith(' ' + asked_text(exchange))
    return asked == begin + asked_text(exchange)
