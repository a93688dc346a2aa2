"""What goes over the line: blocks, their sums, and captures of them."""

REPLY_LIMIT_US, BYTE_GAP_US = 9287, 10287
HEADER = 'time_us,wire,byte'


def with_sum(body):
    """A block, of its bytes without the sum."""
    return [*body, sum(body) % 256]


def block(group, code, *data):
    return with_sum([group * 16 + len(data), code, *data])


def bytes_of(text):
    """Of their hexadecimal digits."""
    return list(bytes.fromhex(text))


def block_of(text):
    """A block, of its bytes in hexadecimal without the sum."""
    return with_sum(bytes_of(text))


ACK = block(1, 0x01)


def bcd(number):
    return number // 10 * 16 + number % 10


def other(wire):
    return 'D' if wire == 'C' else 'C'


def may_begin_command(row, before):
    """Behind a break, or where nobody knows what came before: a row after the one before it."""
    return row[1] == 'C' and (before[1] == 'D' or row[0] - before[0] > BYTE_GAP_US)


def write_rows(path, rows):
    """Writes a capture of rows: when each byte comes, on which wire, and the byte."""
    with open(path, 'w') as file:
        file.write(HEADER + '\n')
        file.writelines('%d,%s,%02X\n' % row for row in rows)


def write_records(path, records):
    """Writes a capture of records: how long each comes after the one before it, its wire, and its byte."""
    write_rows(path, timed(records))


def timed(records):
    now = 0
    for gap, wire, byte in records:
        now += gap
        yield now, wire, byte


def read_rows(path):
    """The rows of a capture."""
    with open(path) as file:
        next(file)
        for line in file:
            time, wire, byte = line.split(',')
            yield int(time), wire, int(byte, 16)
