"""Times of the day at 25 frames a second: each is the number of its frame."""
import re

from wire import bcd

DAY = 24 * 60 * 60 * 25

# Of frames, seconds, minutes and hours: the bits that count, and the greatest value.
PARTS = [(0x3F, 24), (0x7F, 59), (0x7F, 59), (0x3F, 23)]


def time_at(data):
    """The time of four bytes; none where they are no time."""
    parts = []
    for byte, (mask, most) in zip(data, PARTS, strict=True):
        tens, units = divmod(byte & mask, 16)
        value = tens * 10 + units
        if tens > 9 or units > 9 or value > most:
            return None
        parts.append(value)
    frames, seconds, minutes, hours = parts
    return ((hours * 60 + minutes) * 60 + seconds) * 25 + frames


def parts_of(time):
    """Hours, minutes, seconds and frames."""
    seconds = time // 25
    return seconds // 3600 % 24, seconds // 60 % 60, seconds % 60, time % 25


def time_text(time):
    return '%02d:%02d:%02d:%02d' % parts_of(time)


def time_bytes(time):
    """The four bytes of a time."""
    return [bcd(part) for part in reversed(parts_of(time))]


def time_told(text):
    """The time of a text such as 10:00:00:00; none where it is no time."""
    if not re.fullmatch(r'\d\d:\d\d:\d\d:\d\d', text):
        return None
    hours, minutes, seconds, frames = map(int, text.split(':'))
    return ((hours * 60 + minutes) * 60 + seconds) * 25 + frames
