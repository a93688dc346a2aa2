"""What each command does to the deck, by its first two bytes: the tables of docs/PROFILE.md."""
from typing import NamedTuple, Optional

from deck.modes import CUED, EJECT, FF, JOG, PLAY, REC, REW, SHUTTLE, STOP, VAR

# The registers IN, OUT, audio IN and audio OUT, in this order.
REGISTERS = range(4)
REGISTER_NAMES = ['in', 'out', 'ain', 'aout']


class Effect(NamedTuple):
    """What a command does: to which goal it leads, what becomes of a register, whether it switches the panel on. `what` is one of

        nothing  go  keep-or-stop  panel  forget-all  forget-tape  forget-registers
        somewhere  at  next  previous  clear  anything    of the register
    """
    what: str
    goal: Optional[int] = None
    register: Optional[int] = None
    switches_on: bool = False
    # A deck in LOCAL may do nothing instead.
    may_be_ignored: bool = False


GOALS = {
    STOP: '2000',
    PLAY: '2001 2034',
    REC: '2002',
    FF: '2010',
    REW: '2020',
    SHUTTLE: '2113 2213 2123 2223',
    JOG: '2111 2211 2121 2221',
    VAR: '2112 2212 2122 2222',
    CUED: '2030 2431',
    EJECT: '200F',
}
# Of each register in turn.
OF_REGISTERS = {
    'somewhere': '4010 4011 4012 4013',
    'at': '4414 4415 4416 4417',
    'next': '4018 401A 401C 401E',
    'previous': '4019 401B 401D 401F',
    'clear': '4020 4021 4022 4023',
    'anything': '4024 4025 4026 4027',
}
REGISTER_SENSES = {'6010': 0, '6011': 1, '6012': 2, '6013': 3}
STATUS_SENSE = '6120'
TIME_SENSE = '610C'
TIME_SENSE_SELECTORS = [0x01, 0x02, 0x03, 0x04, 0x08]
WITHOUT_EFFECT = ['0011', '4130', '4230', '4431', '4136', '4040', '4041', STATUS_SENSE]


def listed_effects():
    for goal, heads in GOALS.items():
        for head in heads.split():
            yield head, Effect('go', goal=goal, may_be_ignored=True)
    for what, heads in OF_REGISTERS.items():
        for register, head in enumerate(heads.split()):
            yield head, Effect(what, register=register, may_be_ignored=True)
    for head in '2004', '2005':
        yield head, Effect('keep-or-stop', may_be_ignored=True)
    yield '000C', Effect('panel', switches_on=False)
    yield '001D', Effect('panel', switches_on=True)
    for head in WITHOUT_EFFECT:
        yield head, Effect('nothing')
    for head, register in REGISTER_SENSES.items():
        yield head, Effect('nothing', register=register)


EFFECTS = dict(listed_effects())


def head_of(block):
    """The first byte and the code, as their hexadecimal digits."""
    return '%02X%02X' % (block[0], block[1])


def is_listed(command):
    head = head_of(command)
    return head in EFFECTS or (head == TIME_SENSE and command[2] in TIME_SENSE_SELECTORS)


def effect_of(command, forgets_nothing):
    """What a command does, where a sheet says that at these heads nothing is forgotten."""
    head = head_of(command)
    if head in EFFECTS:
        return EFFECTS[head]
    if is_listed(command) or head in forgets_nothing:
        return Effect('nothing')
    return Effect({'2': 'forget-tape', '4': 'forget-registers', '6': 'nothing'}.get(head[0], 'forget-all'))
