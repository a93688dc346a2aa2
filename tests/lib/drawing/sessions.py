# Sessions of a controller and a deck, drawn by chance: their exchanges, with the time of each byte.
from wire import ACK, bcd, block, write_rows

# How many labels a second has, and how many frames elapse in one.
RATES = {'24': (24, 24000 / 1001), '25': (25, 25.0), '30': (30, 30.0), '29.97': (30, 30000 / 1001), '29.97df': (30, 30000 / 1001)}
ASKED = {'29.97': '30'}

# The label of a frame of the day: hours, minutes, seconds, frames.
def label(rate, frame):
    in_second, _ = RATES[rate]
    if rate == '29.97df':
        tens, rest = divmod(frame, 17982)
        frame += 18 * tens + (2 * ((rest - 2) // 1798) if rest >= 2 else 0)
    seconds, frames = divmod(frame, in_second)
    return seconds // 3600 % 24, seconds // 60 % 60, seconds % 60, frames

class Deck:
    def __init__(self, draw, rate):
        self.draw, self.rate = draw, rate
        self.speed, self.at, self.since = 0.0, draw.randrange(100000, 1500000) * 1.0, 0
        self.registers = [None, None]
        self.flag = 0x40 if rate == '29.97df' else 0

    # It was sent to a mode, in which its tape moves so fast.
    def go(self, now, speed, mode):
        self.at, self.since, self.speed = self.frame(now), now, speed

    # So many data of a status, from the first on.
    def status(self, count):
        return [self.draw.choice([0, 0x20, 0x01, 0x81]) for _ in range(count)]

    def frame(self, now):
        return self.at + self.speed * (now - self.since) * RATES[self.rate][1] / 1e6

    def bytes_of(self, frame):
        hours, minutes, seconds, frames = label(self.rate, int(frame))
        return [bcd(frames) | self.flag, bcd(seconds), bcd(minutes), bcd(hours)]

    def time(self, now):
        return self.bytes_of(self.frame(now))

# Modes by the code that a deck is sent to them with.
SLOW = {'JOG': 0x11, 'VAR': 0x12, 'SHUTTLE': 0x13}
FAST = {'FF': 0x10, 'REW': 0x20}

# What a controller asks now and then, each with its answer.
def odd(draw, deck, now):
    which = draw.randrange(14)
    register = draw.randrange(2)
    if which == 0:
        deck.go(now, 1.0, 'PLAY')
        return block(2, 1), ACK
    if which == 1:
        deck.go(now, 0.0, 'STOP')
        return block(2, 0), ACK
    if which == 2:
        deck.go(now, 1.0, 'REC')
        return block(2, 2), ACK
    if which == 3:
        speed, mode = draw.choice([0.2, 0.5, -0.3, 2.0]), draw.choice(list(SLOW))
        deck.go(now, speed, mode)
        return block(2, SLOW[mode], draw.randrange(256)), ACK
    if which == 4:
        speed = draw.choice([-20.0, 20.0]) if 200000 < deck.frame(now) < 1400000 else 0.0
        mode = draw.choice(list(FAST))
        deck.go(now, speed, mode)
        return block(2, FAST[mode]), ACK
    if which == 5:
        deck.go(now, 0.0, 'CUED')
        deck.at = draw.randrange(100000, 1500000) * 1.0
        return block(2, 0x31, *deck.time(now)), ACK
    if which in (6, 7):
        deck.registers[register] = draw.randrange(1500000)
        return block(4, 0x14 + register, *deck.bytes_of(deck.registers[register])), ACK
    if which == 8 and deck.registers[register] is not None:
        deck.registers[register] += 1
        return block(4, 0x18 + 2 * register), ACK
    if which == 9 and deck.registers[register] is not None:
        return block(6, 0x10 + register), block(7, 0x10 + register, *deck.bytes_of(deck.registers[register]))
    if which == 10:
        return block(0, 0x11), block(1, 0x11, 0x70, 0x01)
    if which == 11:
        return block(2, draw.choice([0x60, 0x61, 0x64, 0x65])), ACK
    if which == 12:
        return block(4, 0x40 + draw.randrange(2)), block(1, 0x12, draw.choice([1, 4, 5])) if draw.random() < 0.2 else ACK
    deck.registers[register] = int(deck.frame(now))
    return block(4, 0x10 + register), ACK

def ask(draw, deck, now, polls_times):
    if polls_times and draw.random() < 0.5:
        kind = draw.random()
        if kind < 0.05:
            return block(6, 0x0C, 0x04), block(7, 0x00, 0, 0, 0, 0)
        selector, code = draw.choice([(1, 0x04), (2, 0x06), (3, 0x04)])
        return block(6, 0x0C, selector), block(7, code, *deck.time(now))
    count = draw.choice([1, 2, 4, 10])
    return block(6, 0x20, count), block(7, 0x20, *deck.status(count))

# A deck whose statuses are those of its mode and of its registers, and whose other data are drawn.
class HonestDeck(Deck):
    mode = 'STOP'

    def go(self, now, speed, mode):
        super().go(now, speed, mode)
        self.mode = mode

    def status(self, count):
        are_set = sum(1 << number for number, held in enumerate(self.registers) if held is not None)
        return [0, *MODES[self.mode], are_set, *[self.draw.randrange(256) for _ in range(6)]][:count]

# The data 1 and 2 of a status that shows a mode.
MODES = {'STOP': (0x20, 0x00), 'PLAY': (0x01, 0x80), 'REC': (0x02, 0x80), 'FF': (0x04, 0x00), 'REW': (0x08, 0x00), 'EJECT': (0x10, 0x00),
         'SHUTTLE': (0x00, 0x20), 'JOG': (0x00, 0x10), 'VAR': (0x00, 0x08), 'CUED': (0x00, 0x81)}

# How a session goes: how far bytes are apart, when replies come, and what is asked how often. Times are in microseconds.
class Habits:
    def __init__(self, draw, rate, runs):
        self.spacing = draw.choice([286.458, 286.458, 290, 310, 400, 520])
        self.low, self.spread = draw.randrange(300, 6500), draw.choice([20, 200, 1000, 2500])
        is_polling = runs or draw.random() < 0.7
        self.period = 1e6 / RATES[rate][1] if is_polling else draw.choice([100000, 250000, 500000, 900000])
        most = draw.choice([300, 600, 1500, 4000, 9000, 12000])
        self.most = 9000 if runs else most
        self.oddness = draw.choice([0.0, 0.01, 0.05, 0.3]) if not runs else 0.0
        self.polls_times = runs or draw.random() < 0.9
        self.each_time = runs or draw.random() < 0.5
        self.phase = draw.choice(['locked', 'free'])

# A session: exchanges of bytes with their times, [(time_us, wire, byte), ..] each. What is given of its habits
# takes the place of what is drawn.
def session(draw, rate, runs=False, pause=500, deck_of=Deck, **given):
    deck = deck_of(draw, rate)
    habits = Habits(draw, rate, runs)
    vars(habits).update(given)
    now, records, exchanges = draw.uniform(0, 3e6), 0, []
    deck.since = now
    if runs:
        deck.at = minute_before(draw, rate)
    while records < habits.most:
        began = now
        for pair in pairs_of(draw, deck, now, habits, runs and not exchanges):
            if pair is None:
                selector, code = draw.choice([(1, 0x04), (2, 0x06)])
                pair = block(6, 0x0C, selector), block(7, code, *deck.time(now))
            sent, now = exchange(draw, now, habits.spacing, habits.low, habits.spread, *pair)
            exchanges.append(sent)
            records += len(sent)
            now += draw.uniform(pause, pause + 2500)
        rest = habits.period if habits.phase == 'locked' else habits.period * draw.uniform(0.5, 1.2)
        now = max(now, began + rest)
    return exchanges

# What is asked in one turn, each with its answer; none for the time as it is then.
def pairs_of(draw, deck, now, habits, plays):
    if plays:
        deck.go(now, 1.0, 'PLAY')
        return [(block(2, 1), ACK)]
    if draw.random() < habits.oddness:
        return [odd(draw, deck, now)]
    if habits.each_time and habits.polls_times:
        return [ask(draw, deck, now, False), None]
    return [ask(draw, deck, now, habits.polls_times)]

# A frame from which a minute begins in a few seconds, which drop frame begins with frame 02.
def minute_before(draw, rate):
    while True:
        frame = draw.randrange(100000, 1500000)
        _, minutes, seconds, _ = label(rate, frame)
        if minutes % 10 != 9 and 50 <= seconds <= 55:
            return frame * 1.0

def exchange(draw, now, spacing, low, spread, asked, answered):
    sent = []
    def put(wire, data):
        nonlocal now
        for byte in data:
            sent.append((int(now + draw.uniform(0, 2)), wire, byte))
            now += spacing
    put('C', asked)
    now += min(low + draw.random() * spread, 9000 - spacing) - spacing + 300
    put('D', answered)
    return sent, now

def rows_of(exchanges):
    return [row for sent in exchanges for row in sent]

def ordered(rows):
    last, out = 0, []
    for at, wire, byte in sorted(rows, key=lambda row: row[0]):
        last = max(last, at)
        out.append((last, wire, byte))
    return out

# A clean capture may end anywhere.
def clean(draw, exchanges):
    rows = ordered(rows_of(exchanges))
    return rows[:len(rows) - draw.choice([0, 0, draw.randrange(12)])]

def write(path, rows, rate):
    write_rows(path, rows)
    with open(path + '.args', 'w') as words:
        words.write(rate + '\n')
