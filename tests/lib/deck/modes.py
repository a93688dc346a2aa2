"""Modes, and pairs of a goal and a shown mode: each is a number from 0 up, and a set of them has a bit for each."""
from functools import cache

MODES = 'STOP PLAY REC FF REW SHUTTLE JOG VAR CUED EJECT'.split()
STOP, PLAY, REC, FF, REW, SHUTTLE, JOG, VAR, CUED, EJECT = range(10)
ALL_PAIRS = (1 << 100) - 1

# The modes that a deck may show on the way to a goal.
ON_THE_WAY = {goal: [STOP] for goal in range(10)}
ON_THE_WAY[REC] = [STOP, PLAY]
ON_THE_WAY[CUED] = [STOP, PLAY, FF, REW, SHUTTLE, JOG, VAR]

# Which bits of status datum 1 are set and which are clear, and which of datum 2.
STATUS_LINES = [
    (STOP, 0x20, 0x1F, 0x00, 0x38),
    (PLAY, 0x01, 0x3E, 0x00, 0x38),
    (REC, 0x02, 0x3C, 0x00, 0x38),
    (FF, 0x04, 0x3B, 0x00, 0x18),
    (REW, 0x08, 0x37, 0x00, 0x18),
    (SHUTTLE, 0x00, 0x12, 0x20, 0x18),
    (JOG, 0x00, 0x12, 0x10, 0x28),
    (VAR, 0x00, 0x12, 0x08, 0x30),
    (CUED, 0x00, 0x1F, 0x01, 0x38),
    (EJECT, 0x10, 0x0F, 0x00, 0x38),
    (EJECT, 0x00, 0x3F, 0x00, 0x38),
]


def pair_of(goal, shown):
    return goal * 10 + shown


def goal_of(pair):
    return pair // 10


def shown_of(pair):
    return pair % 10


def members(bits):
    """What is in a set, in ascending order."""
    while bits:
        lowest = bits & -bits
        yield lowest.bit_length() - 1
        bits ^= lowest


def set_of(numbers):
    bits = 0
    for number in numbers:
        bits |= 1 << number
    return bits


def has_bits(is_set, is_clear, datum):
    """A status datum has these bits set and those clear; one that was not told fits."""
    return datum is None or (datum & is_set == is_set and not datum & is_clear)


@cache
def fits(mode, datum1, datum2):
    """Both data agree with a line of the shown mode."""
    return any(of_mode == mode and has_bits(set1, clear1, datum1) and has_bits(set2, clear2, datum2)
               for of_mode, set1, clear1, set2, clear2 in STATUS_LINES)


@cache
def pairs_that_show(datum1, datum2):
    return set_of(pair for pair in range(100) if fits(shown_of(pair), datum1, datum2))


@cache
def reached_from(pair, by_itself):
    """All pairs to which moves of the mechanics lead from one, by trying move after move, where the deck may show these modes by
    itself."""
    reached = [pair]
    for now in reached:
        goal = goal_of(now)
        shown = [*ON_THE_WAY[goal], goal, *members(by_itself)]
        behind = [pair_of(goal, mode) for mode in shown]
        if shown_of(now) == goal:
            behind.append(pair_of(STOP, STOP))
        for next_pair in behind:
            if next_pair not in reached:
                reached.append(next_pair)
    return reached


@cache
def drifted(pairs, by_itself):
    """All pairs to which moves lead from one of a set."""
    return set_of(behind for pair in members(pairs) for behind in reached_from(pair, by_itself))


@cache
def sent_to(pairs, goal):
    """The pairs of a set, each with this goal instead of its own."""
    return set_of(pair_of(goal, shown_of(pair)) for pair in members(pairs))


@cache
def shown_in(pairs):
    """The modes that are shown in one of these pairs."""
    return set_of(shown_of(pair) for pair in members(pairs))
