# The faults of a tap, a rate or a wire, each made of a drawn session.
import collections

from drawing.sessions import clean, exchange, ordered, rows_of
from wire import ACK, bcd, block, other

def swapped(draw, exchanges):
    return [(at, other(wire), byte) for at, wire, byte in clean(draw, exchanges)]

def headless(draw, exchanges):
    skipped = draw.randrange(1, len(exchanges) // 2)
    rows = rows_of(exchanges[skipped:])
    return rows[draw.randrange(1, len(exchanges[skipped])):]

# An adapter on each wire hands its bytes on every so many milliseconds.
def collected(draw, exchanges):
    rows = []
    for wanted in 'CD':
        each = draw.randrange(2000, 16001)
        phase, last, handed = draw.uniform(0, each), None, 0
        for at, wire, byte in rows_of(exchanges):
            if wire == wanted:
                time = int((at - phase) // each * each + phase + each) + 3000000
                handed = handed + draw.randrange(0, 8) if time == last else 0
                last = time
                rows.append((time + handed, wire, byte))
    return ordered(rows)

def coarse(draw, exchanges):
    return [(at // 1000 * 1000, wire, byte) for at, wire, byte in clean(draw, exchanges)]

# The deck's wire has a clock of its own, which gains or loses over the session, by less than the controller waits after a reply and by
# less than the deck's least delay.
def drifted(draw, exchanges):
    least = min(next(at for at, wire, _ in sent if wire == 'D') - [at for at, wire, _ in sent if wire == 'C'][-1] for sent in exchanges)
    by = draw.uniform(1500, 6000) if draw.random() < 0.5 or least < 2200 else -draw.uniform(1500, least - 500)
    return parted(rows_of(exchanges), by)

# The deck's clock is so far from the controller's at the end.
def parted(rows, by):
    first, length = rows[0][0], rows[-1][0] - rows[0][0]
    return ordered([(int(at + by * (at - first) / length) if wire == 'D' else at, wire, byte) for at, wire, byte in rows])

# From some command on each reply is that to the command before.
def behind(draw, exchanges):
    start = draw.randrange(0, len(exchanges) // 4)
    out = exchanges[:start]
    before = [byte for _, wire, byte in exchanges[start] if wire == 'D']
    for sent in exchanges[start + 1:]:
        asked = [row for row in sent if row[1] == 'C']
        began = next(row[0] for row in sent if row[1] == 'D')
        out.append(asked + [(began + 290 * k, 'D', byte) for k, byte in enumerate(before)])
        before = [byte for _, wire, byte in sent if wire == 'D']
    return ordered(rows_of(out))

# The deck says nothing for a second or more, in which three commands come at least.
def silent(draw, exchanges):
    start = draw.randrange(1, max(2, len(exchanges) * 2 // 3))
    began, count = exchanges[start][0][0], 0
    length = draw.uniform(1e6, 3e6)
    out = []
    for number, sent in enumerate(exchanges):
        is_silent = number >= start and (sent[0][0] < began + length or count < 3)
        count += is_silent
        out.append([row for row in sent if row[1] == 'C'] if is_silent else sent)
    return rows_of(out)

def dropped(draw, exchanges):
    rows = rows_of(exchanges)
    lost = draw.randrange(len(exchanges[0]), len(rows) - len(exchanges[-1]) - len(exchanges[-2]))
    return rows[:lost] + rows[lost + 1:]

# The logger writes a byte twice, or two, each some microseconds after itself.
def doubled(draw, exchanges):
    rows = rows_of(exchanges)
    for number in sorted(draw.sample(range(len(rows)), draw.choice([1, 1, 2])), reverse=True):
        rows.insert(number + 1, again(rows[number], draw.randrange(1, 140)))
    return rows

# A byte once more, so much later.
def again(row, later_us):
    at, wire, byte = row
    return at + later_us, wire, byte

# The deck or the controller leaves a byte out of one of its blocks, nearly each time that it sends it. The second byte is not left out:
# without it a block is another one each time.
def short(draw, exchanges):
    heads = collections.Counter(head for sent in exchanges for head in heads_of(sent))
    often = sorted(head for head, count in heads.items() if count >= 8)
    wanted = draw.choice(often)
    return without_byte(draw, exchanges, wanted, draw.choice([0, *range(2, wanted[1] % 16 + 3)]))

# Blocks that begin so lack the byte at this place, 98 times in 100.
def without_byte(draw, exchanges, wanted, place):
    rows = []
    for sent in exchanges:
        for wire in 'CD':
            own = [row for row in sent if row[1] == wire]
            if own and (wire, own[0][2], own[1][2]) == wanted and draw.random() < 0.98:
                own = [(*at, byte) for at, byte in zip([row[:2] for row in own], [row[2] for row in own[:place] + own[place + 1:]])]
            rows += own
    return rows

def heads_of(sent):
    for wire in 'CD':
        own = [byte for _, sender, byte in sent if sender == wire]
        if own:
            yield wire, own[0], own[1]

# A tap that loses bytes at random, up to one in 100, and four at least.
def losses(draw, exchanges):
    rows = rows_of(exchanges)
    lost = set(draw.sample(range(len(exchanges[0]), len(rows) - len(exchanges[-1]) - len(exchanges[-2])), max(4, len(rows) // draw.choice([100, 300, 1000]))))
    return [row for number, row in enumerate(rows) if number not in lost]

# Each byte of a wire comes on the other too, some microseconds later, or those of both do.
def echoed(draw, exchanges):
    wires, most = draw.choice(['C', 'C', 'D', 'CD']), draw.randrange(1, 60)
    rows = rows_of(exchanges)
    return ordered(rows + [(at + draw.randrange(0, most), other(wire), byte) for at, wire, byte in rows if wire in wires])

# The logger writes nothing for a time, from inside a block to inside another. Where what is left is one block, nobody can see it.
def hole(draw, exchanges, lasts_us=None):
    rows, begins, place = rows_of(exchanges), set(), 0
    for sent in exchanges:
        begins |= {place, place + sum(wire == 'C' for _, wire, _ in sent)}
        place += len(sent)
    inside = [number for number in range(len(rows) * 3 // 4) if number + 1 not in begins and number > 12]
    first = draw.choice(inside)
    until = rows[first][0] + (lasts_us or draw.uniform(12e3, 500e3))
    last = next((number for number in range(first + 2, len(rows)) if number not in begins and number - 1 != first and rows[number][0] >= until), None)
    if not last:
        return None
    head = [byte for _, _, byte in rows[max(place for place in begins if place <= first):first + 1]]
    rest = [byte for _, _, byte in rows[last:min(place for place in begins if place > last)]]
    joined = head + rest
    is_block = rows[first][1] == rows[last][1] and len(joined) > 2 and block(head[0] // 16, *joined[1:-1]) == joined
    return None if is_block else rows[:first + 1] + rows[last:]

# The deck's clock gains or loses by so much that replies come after the next command, or before their own, at 0.25 to 0.8 of the session.
def crossed(draw, exchanges):
    least, pause = 10**9, 10**9
    for sent, after in zip(exchanges, exchanges[1:]):
        asked = [at for at, wire, _ in sent if wire == 'C']
        answered = [at for at, wire, _ in sent if wire == 'D']
        least = min(least, answered[0] - asked[-1])
        pause = min(pause, [at for at, wire, _ in after if wire == 'C'][-1] - answered[-1])
    by = pause if draw.random() < 0.5 or least < 2200 else -least
    by /= draw.uniform(0.25, 0.8)
    return parted([(at + 10**5, wire, byte) for at, wire, byte in rows_of(exchanges)], by)

# One preset of a drop frame session is a time that drop frame has not.
def preset(draw, exchanges):
    wrong = block(4, 0x14 + draw.randrange(2), bcd(draw.randrange(2)), 0x00, bcd(draw.choice([1, 5, 12, 59])), bcd(draw.randrange(24)))
    return rows_of(inserted(draw, exchanges, draw.randrange(1, len(exchanges) - 1), [(wrong, ACK)]))

# More exchanges at this place, 12 ms from one to the next.
def inserted(draw, exchanges, place, pairs):
    began = now = exchanges[place][0][0]
    more = []
    for pair in pairs:
        sent, now = exchange(draw, now, 290, 600, 100, *pair)
        more.append(sent)
        now = int(now - began) + began + 12000
    moved = [[(at + now - began, wire, byte) for at, wire, byte in rest] for rest in exchanges[place:]]
    return exchanges[:place] + more + moved

FAULTS = {'swapped': swapped, 'begins': headless, 'collects': collected, 'coarse': coarse, 'clocks': drifted, 'behind': behind,
          'silence': silent, 'lost': dropped, 'losses': losses, 'doubled': doubled, 'short': short, 'echo': echoed, 'hole': hole,
          'crossed': crossed, 'preset': preset}
