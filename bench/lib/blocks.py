# Traffic of which the measurements make their captures. Blocks are those of tests/lib.
import itertools, os, random, sys
sys.path.insert(0, os.path.join(os.path.dirname(os.path.abspath(__file__)), '..', '..', 'tests', 'lib'))
from deck.times import time_bytes
from wire import ACK, bcd, block, write_records

# What an editor asks and sets while it looks for an edit, of IN (0) or of OUT (1); the deck is in REMOTE, and IN is set.
def mixed(turn, register=0):
    at = time_bytes(turn * 7 % 2160000)
    shifted = time_bytes((turn * 7 + 1) % 2160000)
    yield block(6, 0x20, 0x04), block(7, 0x20, 0x00, 0x20, 0x00, 2 * register + 1)
    yield block(6, 0x0C, 0x01), block(7, 0x04, *at)
    yield block(4, 0x14 + register, *at), ACK
    yield block(6, 0x10 + register), block(7, 0x10 + register, *at)
    yield block(4, 0x18 + 2 * register), ACK
    yield block(6, 0x10 + register), block(7, 0x10 + register, *shifted)

# Presets to a deck in LOCAL whose IN was read, and which may have ignored each: so many, each at another time, in no order.
def shuffled_presets(number):
    yield block(6, 0x20, 0x01), block(7, 0x20, 0x01)
    yield block(6, 0x10), block(7, 0x10, *time_bytes(0))
    for frames in random.Random(9).sample(range(2160000), number):
        yield block(4, 0x14, *time_bytes(frames)), ACK

# Writes exchanges as a capture, a record every 400 microseconds, and at most so many records.
def write(path, exchanges, most=None):
    records = ((400, wire, byte) for exchange in exchanges for wire, sent in zip('CD', exchange) for byte in sent)
    write_records(path, itertools.islice(records, most))
