# Captures of polling: STATUS SENSE and CURRENT TIME SENSE in each frame of a deck that plays, with a preset and its sense every minute.

from blocks import ACK, block, time_bytes

FRAME_US, BYTE_US, LATE_US = 40000, 400, 9288

# What is asked and answered in each frame. The deck is not in local, and plays.
def frame(number):
    at = time_bytes(number)
    if number == 0:
        yield block(2, 0x01), ACK
    elif number % 1500 == 0:
        yield block(4, 0x14, *at), ACK
        yield block(6, 0x10), block(7, 0x10, *at)
    yield block(6, 0x20, 0x02), block(7, 0x20, 0x00, 0x01)
    yield block(6, 0x0C, 0x01), block(7, 0x04, *at)

# Whole exchanges, so many that with the next one there would be more records than `most`. It says how many records they have, and which
# is the first of the last reply, which is late by one microsecond or not. Every reply so many further has a wrong sum, where a number
# is given.
def write(path, most, is_late, wrong_each=0):
    records = frames = exchanges = 0
    last = []
    with open(path, 'w') as text:
        text.write('time_us,wire,byte\n')
        while True:
            now = FRAME_US * frames
            for asked, answered in frame(frames):
                if records + len(asked) + len(answered) > most:
                    text.writelines(row(at + (LATE_US - BYTE_US if is_late and wire == 'D' else 0), wire, byte) for at, wire, byte in last)
                    return records, records - sum(wire == 'D' for _, wire, _ in last) + 1
                text.writelines(row(*sent) for sent in last)
                exchanges += 1
                if wrong_each > 0 and exchanges % wrong_each == 0:
                    answered = [*answered[:-1], (answered[-1] + 1) % 256]
                last = [(now + BYTE_US * k, wire, byte)
                        for k, (wire, byte) in enumerate([('C', byte) for byte in asked] + [('D', byte) for byte in answered])]
                now += BYTE_US * len(last)
                records += len(last)
            frames += 1

def row(at, wire, byte):
    return '%d,%s,%02X\n' % (at, wire, byte)
