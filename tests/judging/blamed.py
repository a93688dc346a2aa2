# Draws captures, each with one fault of which it is known who is to blame, and honest ones.
#
#   blamed.py FOLDER DRAWN HONEST     writes so many captures of each fault, and so many honest ones, as FOLDER/NAME-NUMBER.csv, and exports
#                                     with a damaged byte as FOLDER/export-NUMBER.txt. Every run draws the same.
#
# A line is written for each, its parts between bars: the name, the words that it is asked with, the verdict that it has to have, and the
# first record of the command that a sheet has to speak of, where one has. Of an export these are the words that leave the damaged byte out,
# the verdict then, and what is said of the byte without them.
import os, random, sys
sys.path.insert(0, os.path.join(os.path.dirname(os.path.abspath(__file__)), '..', 'lib'))
from drawing.faults import again, echoed, hole, inserted, parted, without_byte
from drawing.sessions import ASKED, MODES, RATES, HonestDeck, exchange, rows_of, session, write
from wire import ACK, BYTE_GAP_US, REPLY_LIMIT_US, bcd, block, other

NAK = block(1, 0x12, 0x01)
REMOTE = block(6, 0x20, 0x01), block(7, 0x20, 0x00)
STOP, PLAY, EJECT, AUTO_EDIT = [(block(2, code), ACK) for code in (0x00, 0x01, 0x0F, 0x42)]
VAR = block(2, 0x12, 0x20), ACK

# ---- What is judged, by the rules of turns, times and sums alone.

# The first record that breaks one of them, and which; none where no record does.
def first_break(rows):
    turn, sent, before = 'C', [], 0
    for number, (at, wire, byte) in enumerate(rows, 1):
        reason = reason_of(turn, sent, wire, at - before)
        sent.append(byte)
        is_whole = len(sent) == sent[0] % 16 + 3
        if not reason and is_whole and sum(sent[:-1]) % 256 != byte:
            reason = 'B2 wrong sum'
        if reason:
            return f'no at record {number}: {reason}'
        if is_whole:
            turn, sent = other(turn), []
        before = at
    return None

# What a record breaks that comes so much after the one before it, where this wire's turn it is, and so much of its block was sent.
def reason_of(turn, sent, wire, after_us):
    if wire == 'D' and turn == 'C':
        return 'P2 reply before the end of the command' if sent else 'P1 reply without a command'
    if wire == 'C' and turn == 'D':
        if sent:
            return 'P4 command inside a reply'
        return 'P3 command before the reply' if after_us <= REPLY_LIMIT_US else 'L2 no reply'
    if turn == 'D' and not sent and after_us > REPLY_LIMIT_US:
        return 'L1 late reply'
    return 'B3 gap inside a block' if sent and after_us > BYTE_GAP_US else None

def yes(exchanges):
    return f'yes: records {len(rows_of(exchanges))}, exchanges {len(exchanges)}, open 0'

# The verdict at the last record of this exchange, counted from the first.
def no_at(exchanges, place, reason):
    return f'no at record {last_record(exchanges, place)}: {reason}'

def last_record(exchanges, place):
    return len(rows_of(exchanges[:place + 1]))

def first_record(exchanges, place):
    return last_record(exchanges, place - 1) + 1

# ---- What is sent.

# These exchanges, one every so many microseconds.
def sent_of(draw, pairs, every_us=40000):
    return [exchange(draw, number * every_us + 400, 290, 600, 100, *pair)[0] for number, pair in enumerate(pairs)]

def honest_session(draw, rate=None, **given):
    rate = rate or draw.choice(list(RATES))
    return session(draw, rate, deck_of=HonestDeck, **{'most': draw.choice([300, 600, 1500]), **given}), ASKED.get(rate, rate)

def shows(mode, *registers):
    data = [*MODES[mode], *registers]
    return block(6, 0x20, 0x10 + len(data)), block(7, 0x20, *data)

def polls(draw, mode, *registers):
    return [shows(mode, *registers)] * (1 + draw.randrange(4))

def preset(register, *time):
    return block(4, 0x14 + register, *time), ACK

# ---- The faults. Each has its exchanges or rows, the rate that it is asked with, the verdict, and the record of the command.

def honest(draw):
    exchanges, rate = honest_session(draw)
    return rows_of(exchanges), rate, yes(exchanges), ''

# Two analysers whose clocks are 28 ppm apart, for 3.7 minutes. Replies come after 3 ms, and so does what is asked after them.
def clocks(draw):
    exchanges, rate = honest_session(draw, most=24000, period=250000, phase='locked', each_time=True, polls_times=True, oddness=0.0,
                                     low=3000, spread=200, pause=3000)
    end = exchanges[0][0][0] + 222e6
    rows = rows_of([sent for sent in exchanges if sent[0][0] < end])
    rows = parted(rows, draw.choice([28e-6, -28e-6]) * (rows[-1][0] - rows[0][0]))
    return rows, rate, first_break(rows), ''

# The deck leaves a byte out of each status of two data, 98 times in 100.
def short(draw):
    pairs = [REMOTE] + [draw.choice([shows('STOP'), shows('STOP', 0)]) for _ in range(100)]
    rows = without_byte(draw, sent_of(draw, pairs), ('D', 0x72, 0x20), draw.choice([2, 3]))
    return rows, '25', first_break(rows), ''

# An AUTO EDIT that the deck runs by itself. REC is what the rules have no way to.
def edit(draw):
    begins = [REMOTE, STOP, shows('STOP'), preset(0, 0x00, 0x00, 0x00, 0x10), preset(1, 0x00, 0x30, 0x00, 0x10), AUTO_EDIT]
    cues = [pair for mode in ('SHUTTLE', 'JOG', 'CUED', 'PLAY') for pair in polls(draw, mode, 3)]
    ends = [pair for mode in ('REC', 'PLAY', 'STOP') for pair in polls(draw, mode, 3)]
    exchanges = sent_of(draw, begins + cues + ends)
    return exchanges, '25', no_at(exchanges, len(begins + cues), 'M1 no run remains'), first_record(exchanges, len(begins) - 1)

# In a session with drop frame IN is moved over the end of a minute, and then is set to a time that drop frame has not.
def wrong_preset(draw):
    exchanges, rate = honest_session(draw, '29.97df', most=600)
    place = draw.randrange(1, len(exchanges) - 1)
    wrong = preset(1, bcd(draw.randrange(2)), 0x00, bcd(draw.choice([1, 5, 12, 59])), bcd(draw.randrange(24)))
    moves = [preset(0, 0x29, 0x59, 0x00, 0x10), (block(4, 0x18), ACK), (block(6, 0x10), block(7, 0x10, 0x02, 0x00, 0x01, 0x10)), wrong]
    exchanges = inserted(draw, exchanges, place, moves)
    at = last_record(exchanges, place + 3) - len(ACK)
    return exchanges, rate, f'no at record {at}: P6 invalid time in a command', ''

def echo(draw):
    exchanges, rate = honest_session(draw)
    rows = echoed(draw, exchanges)
    return rows, rate, first_break(rows), ''

# Both wires are silent for 70 ms, from inside a block to inside another.
def silent_hole(draw):
    rows = None
    while not rows:
        exchanges, rate = honest_session(draw)
        rows = hole(draw, exchanges, 70e3)
    return rows, rate, first_break(rows), ''

# The logger writes a byte once more, 40 microseconds later.
def doubled(draw):
    verdict = None
    while not verdict:
        exchanges, rate = honest_session(draw)
        rows = rows_of(exchanges)
        number = draw.randrange(len(rows) - 20)
        rows.insert(number + 1, again(rows[number], 40))
        verdict = first_break(rows)
    return rows, rate, verdict, ''

# The deck is late with a third of its times, and never with a status.
def late(draw):
    return late_session(draw, [])

# The same deck, which also never answers one command, and that is not asked twice in a row.
def unanswered(draw):
    return late_session(draw, [(block(6, 0x2B), [])])

def late_session(draw, more):
    time = block(6, 0x0C, 0x01), block(7, 0x04, 0x00, 0x00, 0x00, 0x10)
    pairs = [REMOTE]
    while len(pairs) < 100:
        pairs += draw.choice([[time], [*more, time], [shows('STOP')], [*more, shows('STOP')]])
    rows = []
    for pair, sent in zip(pairs, sent_of(draw, pairs)):
        later = draw.randrange(9000, 14000) if pair == time and draw.randrange(3) == 0 else 0
        rows += [(at + later if wire == 'D' else at, wire, byte) for at, wire, byte in sent]
    return rows, '25', first_break(rows), ''

# The deck acknowledges STOP, and plays on for 40 s, of which a status tells each half second.
def disobeyed(draw):
    plays = draw.randrange(2, 9)
    exchanges = sent_of(draw, [REMOTE, PLAY] + [shows('PLAY')] * plays + [STOP] + [shows('PLAY')] * 80, 500000)
    return exchanges, '25', yes(exchanges), ''

# The deck clears IN and OUT when the cassette is out.
def ejected(draw):
    registers = block(6, 0x20, 0x31)
    begins = [REMOTE, preset(0, 0x00, 0x00, 0x00, 0x10), preset(1, 0x00, 0x30, 0x00, 0x10), EJECT]
    are_set = [(registers, block(7, 0x20, 0x03))] * (1 + draw.randrange(4))
    exchanges = sent_of(draw, begins + are_set + [(registers, block(7, 0x20, 0x00))] * 3)
    return exchanges, '25', no_at(exchanges, len(begins + are_set), 'M1 no run remains'), first_record(exchanges, len(begins) - 1)

# The deck shows JOG where it was sent to VAR.
def jog(draw):
    begins = [REMOTE, STOP, *polls(draw, 'STOP'), VAR]
    exchanges = sent_of(draw, begins + polls(draw, 'JOG'))
    return exchanges, '25', no_at(exchanges, len(begins), 'M1 no run remains'), first_record(exchanges, len(begins) - 1)

# The deck refuses a command each time.
def refused(draw):
    exchanges = sent_of(draw, [REMOTE] + [draw.choice([shows('STOP'), (block(6, 0x2B), NAK)]) for _ in range(200)])
    return exchanges, '25', yes(exchanges), ''

# A deck that plays with drop frame, asked at 25 frames a second.
def other_rate(draw):
    exchanges, _ = honest_session(draw, '29.97df', runs=True, most=1500)
    place = next(number for number, sent in enumerate(exchanges) if told_frame(sent) > 24)
    return exchanges, '25', no_at(exchanges, place, 'P7 invalid time in a reply'), ''

# The frame of the time that a reply to CURRENT TIME SENSE tells; 0 of any other exchange.
def told_frame(sent):
    bytes_sent = [byte for _, _, byte in sent]
    return int(f'{bytes_sent[6] & 0x3F:X}') if bytes_sent[:2] == [0x61, 0x0C] else 0

FAULTS = {'clocks': clocks, 'short': short, 'edit': edit, 'preset': wrong_preset, 'echo': echo, 'hole': silent_hole, 'doubled': doubled,
          'late': late, 'unanswered': unanswered, 'disobeyed': disobeyed, 'ejected': ejected, 'jog': jog, 'refused': refused,
          'rate': other_rate}

# ---- What is written.

# An export of sigrok at 2,000,000 samples a second, in which one byte is damaged: the words that leave out all before the next exchange,
# the verdict then, and what is said of the byte.
def write_export(path, draw):
    exchanges, _ = honest_session(draw, most=300)
    place = draw.randrange(len(exchanges) - 1)
    damaged = draw.randrange(last_record(exchanges, place - 1), last_record(exchanges, place))
    with open(path, 'w') as text:
        for number, (at, wire, byte) in enumerate(rows_of(exchanges)):
            begins, port = at * 2, 1 if wire == 'C' else 2
            text.write(f'{begins}-{begins + 418} uart-{port}: {byte:02X}\n')
            if number == damaged:
                error = f'{begins + 417}-{begins + 470} uart-{port}: Parity error'
                text.write(error + '\n')
    rest = exchanges[place + 1:]
    return f'--from {rest[0][0][0] / 1e6:.6f}', yes(rest), f'line {damaged + 2}: a damaged byte: {error}'

def tell(*parts):
    print(*parts, sep='|')

def main(folder, drawn, honest_ones):
    for name, fault, count in [('honest', honest, honest_ones)] + [(name, fault, drawn) for name, fault in FAULTS.items()]:
        for number in range(count):
            made, rate, verdict, record = fault(random.Random(f'blamed {name} {number}'))
            rows = made if isinstance(made[0], tuple) else rows_of(made)
            write(f'{folder}/{name}-{number}.csv', rows, rate)
            tell(f'{name}-{number}', f'--rate {rate}', verdict, record)
    for number in range(drawn):
        tell(f'export-{number}', *write_export(f'{folder}/export-{number}.txt', random.Random(f'blamed export {number}')))

if __name__ == '__main__':
    main(sys.argv[1], int(sys.argv[2]), int(sys.argv[3]))
