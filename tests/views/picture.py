"""Checks the pictures that `ninecheck picture` draws: that the drawn bytes are those of the capture, that the record in question and
the measured time stand out, and that no text lies on another or on a byte; that the rows of a contradiction are those of `why`; that
of several breaks the right one is drawn; what is refused; and of the picture of each reason that it is the stored one, and that
rsvg-convert renders it, with the record in question on it."""
import math
import os
import random
import re
import struct
import subprocess
import sys
import tempfile
import zlib
import xml.etree.ElementTree as xml

PROGRAM = os.environ.get('NINECHECK', 'crates/ninecheck/out/ninecheck')
WIDTHS = ['700', '1200']
LIMITS = {'P3': 9287, 'L1': 9287, 'L2': 9287, 'B3': 10287}
SVG = '{http://www.w3.org/2000/svg}'
passed = failed = 0


def judge(name, is_so):
    global passed, failed
    if is_so:
        passed += 1
    else:
        failed += 1
        print('FAILED', name)


def run(words, text=''):
    done = subprocess.run([PROGRAM, *words], input=text, capture_output=True, text=True)
    return done.returncode, done.stdout, done.stderr


def picture(name, path, *words):
    """The picture of this capture, which there has to be; nothing is said of it."""
    status, svg, err = run(['picture', *words, path])
    judge(f'{name} is drawn: {status} {err}', status == 1 and svg.endswith('</svg>\n') and not err)
    return svg or '<svg/>'


def write_capture(path, rows):
    open(path, 'w').write('time_us,wire,byte\n' + ''.join(row + '\n' for row in rows))


def rows_of(path):
    return [row for row in open(path).read().split('\n')[1:] if row]


class Box:
    """A rectangle of a picture, in pixels."""

    def __init__(self, left, top, width, height):
        self.left, self.top, self.right, self.bottom = left, top, left + width, top + height

    def meets(self, other):
        return (self.left < other.right - 0.05 and other.left < self.right - 0.05
                and self.top < other.bottom - 0.05 and other.top < self.bottom - 0.05)


def box_of_text(text):
    """Where a text stands: the font is monospaced, and a letter is six tenths of its size wide."""
    size = float(text.get('font-size', '12'))
    wide = len(text.text) * size * 0.602
    left = float(text.get('x')) - {'start': 0, 'middle': wide / 2, 'end': wide}[text.get('text-anchor')]
    return Box(left, float(text.get('y')) - size * 0.75, wide, size * 0.95)


def box_of_rect(rect):
    return Box(*(float(rect.get(side)) for side in ('x', 'y', 'width', 'height')))


def parts_of(svg, verdict, rows, want):
    """The picture with its texts and drawn bytes, and the records of these; and what holds of each kind of picture."""
    root = xml.fromstring(svg)
    frame = Box(0, 0, float(root.get('width')), float(root.get('height')))
    number = re.match(r'no at record (\d+)', verdict)[1]
    texts = [(text, box_of_text(text)) for text in root.findall(SVG + 'text')]
    bytes_drawn = [rect for rect in root.findall(SVG + 'rect') if rect.find(SVG + 'title') is not None]
    records = []
    for rect in bytes_drawn:
        record, milliseconds = re.fullmatch(r'record (\d+), (\d+\.\d+) ms', rect.find(SVG + 'title').text).groups()
        time, _, byte = rows[int(record) - 1].split(',')
        inside = [text.text for text, box in texts if box_of_rect(rect).meets(box)]
        want(f'record {record} has {inside} in its box', inside == [byte.upper()])
        want(f'record {record} has another stamp', milliseconds == f'{int(time) / 1000:.3f}')
        records.append(int(record))
    dark = [rect.find(SVG + 'title').text for rect in bytes_drawn if rect.get('fill') == '#b00020']
    want(f'{dark} stand out', len(dark) == 1 and dark[0].startswith(f'record {number}, '))
    want('the verdict does not stand above', texts[0][0].text == verdict)

    # no text lies on another one, and all are in the picture
    for k, (text, box) in enumerate(texts):
        want(f'{text.text} is outside', 0 <= box.left and box.right <= frame.right and box.bottom <= frame.bottom)
        on = [other.text for other, place in texts[k + 1:] if box.meets(place)]
        want(f'{text.text} lies on {on}', not on)
    boxes = sorted((box_of_rect(rect) for rect in bytes_drawn), key=lambda box: (box.top, box.left))
    want('a byte lies on another', not any(a.meets(b) for a, b in zip(boxes, boxes[1:])))
    return root, texts, bytes_drawn, records


def problems_of(svg, verdict, rows):
    """What is wrong with a picture."""
    problems = []

    def want(what, is_so):
        if not is_so:
            problems.append(what)

    root, texts, bytes_drawn, records = parts_of(svg, verdict, rows, want)
    number, reason = re.match(r'no at record (\d+): (\w\w)', verdict).groups()

    # the bytes are records of the capture in their order, with nothing left out
    for record, rect in zip(records, bytes_drawn):
        wire = rows[record - 1].split(',')[1]
        want(f'record {record} is on the other wire', rect.get('y') == {'C': '118', 'D': '226'}[wire])
    want('a record is left out', sorted(records) == list(range(min(records), max(records) + 1)))
    brackets = [path.get('d').split()[1] for path in root.findall(SVG + 'path')]
    first = min(bytes_drawn, key=lambda rect: int(rect.find(SVG + 'title').text.split()[1].rstrip(',')))
    want('it begins inside a block', first.get('x') in brackets)
    told = [text.text for text, _ in texts if text.text.endswith('passed')]
    if reason not in LIMITS:
        want(f'{told} is measured', not told)
        return problems
    since = int(rows[int(number) - 1].split(',')[0]) - int(rows[int(number) - 2].split(',')[0])
    want(f'{told} is measured, and {since} passed', told == [f'{since:,} µs passed'])
    want('another limit', f'limit {LIMITS[reason]:,} µs' in [text.text for text, _ in texts])
    spans = [float(line.get('x2')) - float(line.get('x1')) for line in root.findall(SVG + 'line')
             if line.get('y1') == line.get('y2') and line.get('y1') in ('178', '202')]
    if since <= LIMITS[reason] + 2000:
        want('the spans have two measures', abs(spans[0] / spans[1] - since / LIMITS[reason]) < 0.01)
    else:
        want('the longer span is no longer', spans[0] > spans[1])
    return problems


def problems_of_rows(svg, why, rows):
    """What is wrong with a picture of replies that contradict one another."""
    problems = []

    def want(what, is_so):
        if not is_so:
            problems.append(what)

    *exchanges, could_show, verdict = why.splitlines()
    root, texts, bytes_drawn, records = parts_of(svg, verdict, rows, want)
    told = [text.text for text, _ in texts]
    stamps = [int(row.split(',')[0]) for row in rows]
    row_tops, next_record, last = [], 0, None
    for line in exchanges:
        began, ended, asked, answered, says = re.fullmatch(
            r'records (\d+) to (\d+) at \d+: (.*?) -> (.*?)(?:, (says .*))?', line).groups()
        began, ended = int(began), int(ended)
        of_row = bytes_drawn[next_record:next_record + ended - began + 1]
        want(f'other records than {began} to {ended}', records[next_record:next_record + len(of_row)] == list(range(began, ended + 1)))
        want(f'record {began} has no row of its own', len({rect.get('y') for rect in of_row}) == 1)
        row_tops.append(float(of_row[0].get('y')))
        next_record += len(of_row)
        name = re.sub(r'((^| )[0-9A-F]{2})+$', '', asked)
        want(f'{name} is not named', name in told or (name == '' and asked[:5] in told))
        reply_time = re.match(r'\d\d:\d\d:\d\d[:;]\d\d', answered)
        want(f'{answered} is not told', not reply_time or any(text.endswith(' ' + reply_time[0]) for text in told))
        want(f'{says} is not told', not says or says in told)
        want(f'the time of record {began} is not told', f'{stamps[began - 1] / 1000:.3f} ms' in told)
        if last is not None:
            gap = stamps[began - 1] - stamps[last - 1]
            length = f'{gap / 1000000:.3f} s' if gap >= 1000000 else f'{gap / 1000:.3f} ms'
            between = began - last - 1
            want(f'the gap before record {began} is not told', any(
                text == f'{length}, ' + (f'{between} record{"s" * (between > 1)} between' if between else 'nothing between') for text in told))
        last = ended
    want('a record too many', next_record == len(records))
    want('the rows are not one below the other', all(a + 60 < b for a, b in zip(row_tops, row_tops[1:])))
    known = [field for field in could_show[len('could show: '):].split(', ') if field.split()[1] not in ('any', 'unknown')]
    want('what was known is not told', f'known of the deck before the last reply: {", ".join(known) or "nothing"}' in told)
    return problems


def check_capture(name, path, *words):
    """The picture of the first break: with a row for each reply where these contradict one another, and at each width else."""
    verdict = run(['check', *words, path])[1].strip()
    if not verdict.startswith('no'):
        return
    rows = rows_of(path)
    if ': M1 ' in verdict:
        problems = problems_of_rows(picture(name, path, *words), run(['why', *words, path])[1], rows)
        judge(f'{name}: {problems}', not problems)
        return
    for width in WIDTHS:
        problems = problems_of(picture(name, path, *words, '--width', width), verdict, rows)
        judge(f'{name}, {width}: {problems}', not problems)


def block(head, code, *data):
    body = [head * 16 + len(data), code, *data]
    return body + [sum(body) % 256]


def drawn_capture(chance):
    """Some exchanges, with one or two changes that may break a rule."""
    ack = block(1, 0x01)
    pairs = [(block(4, 0x23), ack), (block(4, 0x27), ack), (block(4, 0x1F), ack), (block(2, 0x01), ack), (block(2, 0x00), ack), (block(4, 0x14, 0, 0, 0, 0x10), ack),
             (block(6, 0x10), block(7, 0x10, 0, 0, 0, 0x10)), (block(6, 0x20, 0x0F), block(7, 0x20, *[0x20] * chance.randint(0, 15))),
             (block(6, 0x0C, 0x01), block(7, 0x04, 0, 0, 0, 1)), (block(13, 0x77, *range(15)), block(1, 0x12, 4))]
    bytes_sent = []
    for _ in range(chance.randint(1, 12)):
        command, reply = chance.choice(pairs)
        bytes_sent += [('C', byte) for byte in command] + [('D', byte) for byte in reply]
    for _ in range(chance.randint(1, 2)):
        at = chance.randrange(len(bytes_sent))
        wire, byte = bytes_sent[at]
        change = chance.randrange(4)
        if change == 0:
            bytes_sent[at] = (wire, chance.randrange(256))
        elif change == 1:
            bytes_sent[at] = ('CD'[wire == 'C'], byte)
        elif change == 2:
            bytes_sent.insert(at, bytes_sent[at])
        else:
            del bytes_sent[at]
    now, rows = chance.choice([0, 10 ** 15 - 10 ** 9]), []
    for wire, byte in bytes_sent:
        rows.append(f'{now},{wire},{byte:02X}')
        now += chance.choice([287, 287, 300, 400, 0, 150, 2500, 9287, chance.choice([9288, 10288, 15000, 2000000])])
    return rows


def pictures_of_page():
    """The names of the pictures that the program draws: the others under docs are of the page for a browser."""
    return sorted(name for name in os.listdir('docs/pictures') if name.endswith('.svg'))


def check_stored():
    """The pictures under docs are those that the program draws of the examples, from a file and from standard input."""
    page = open('docs/VIEWS.md').read()
    for file in pictures_of_page():
        example = f'examples/{file[:-4]}.csv'
        want = (1, open(f'docs/pictures/{file}').read(), '')
        judge(f'{file} is as drawn', run(['picture', example]) == want)
        judge(f'{file} is as drawn of standard input', run(['picture'], open(example).read()) == want)
        judge(f'{file} is as drawn with --line-buffered', run(['picture', '--line-buffered', example]) == want)
        judge(f'{file} is shown', f'pictures/{file}' in page)


def check_wires(work):
    """Where a byte of one wire comes inside a block of the other, each block has its name all the same."""
    sense, play, ack = '61 20 01 82', '20 01 21', '10 01 11'
    cases = [
        ('a command inside a reply', f'C {sense} D 71 20 C 20 D 00 C 01 D 91 C 21', 'P4', ['STATUS SENSE', 'PLAY', 'STATUS']),
        ('a whole command inside a reply', f'C {sense} D 71 20 C {play} D 00 91', 'P4', ['STATUS SENSE', 'PLAY', 'STATUS']),
        ('a reply inside a command', f'C 61 20 D 10 C 01 D 01 C 82 D 11', 'P2', ['STATUS SENSE', 'ACK']),
        ('a command before the reply', f'C {play} 61 D 10 C 20 D 01 C 01 D 11 C 82', 'P3', ['PLAY', 'STATUS SENSE', '(ACK)']),
        ('a command that is begun, and one after a pause', f'C {sense} D 71 20 C 20 D 00 91 + C {play} D {ack}', 'P4',
         ['STATUS SENSE', 'begun', '(PLAY)', 'STATUS']),
        ('a reply that is cut off', f'C {sense} D 71 20 C {play} D {ack}', 'P4', ['STATUS SENSE', 'STATUS', 'PLAY', '(ACK)']),
        ('a command that is cut off', f'C 61 20 D {ack} C {play} D {ack}', 'P2', ['STATUS SENSE', 'ACK', '(PLAY)', '(ACK)']),
        ('a reply that goes on until the capture ends', f'C {sense} D 71 20 C {play} D 00', 'P4', ['STATUS SENSE', 'STATUS', 'PLAY']),
        ('a reply without a command', f'C {play} D {ack} {ack}', 'P1', ['PLAY', 'ACK', 'ACK']),
    ]
    for name, words, reason, want in cases:
        now, wire, rows = 0, '', []
        for word in words.split():
            if word in 'CD':
                wire = word
            elif word == '+':
                now += 20000
            else:
                now += 400
                rows.append(f'{now},{wire},{word}')
        path = f'{work}/wires.csv'
        write_capture(path, rows)
        verdict = run(['check', path])[1].strip()
        judge(f'{name}: {verdict}', f': {reason} ' in verdict)
        svg = picture(name, path)
        names = [text.text for text in xml.fromstring(svg).findall(SVG + 'text') if text.get('text-anchor') == 'middle']
        names = [text for text in names if re.fullmatch(r'\(?[A-Za-z ]{3,}\)?', text)]
        judge(f'{name}: {names}', sorted(names) == sorted(want))
        problems = problems_of(svg, verdict, rows)
        judge(f'{name}: {problems}', not problems)


def check_contradictions(work):
    """Contradictions with long names and long replies, with much between, of drop frame, and with a deck sheet."""
    ack = block(1, 0x01)
    not_local = [(block(6, 0x20, 0x01), block(7, 0x20, 0x00))]
    polls = [(block(6, 0x0C, 0x01), block(7, 0x04, 0, 0, 0, 1))] * 500
    cases = [
        ('a long reply', not_local + [(block(4, 0x17, 0, 0, 0, 0x10), ack)] + polls + [(block(6, 0x13), block(7, 0x13, 1, 0, 0, 0x10))], 0),
        ('all status data', not_local + [(block(2, 0x01), ack), (block(6, 0x20, 0x12), block(7, 0x20, 0x01, 0)),
                                      (block(6, 0x20, 0x0F), block(7, 0x20, 0, 0x08, 0, 5, *[0] * 11))], 2500),
        ('no mode', [(block(6, 0x20, 0x12), block(7, 0x20, 0x02, 0x20))], 0),
        ('two modes', not_local + [(block(2, 0x00), ack), (block(6, 0x20, 0x12), block(7, 0x20, 0x20, 0)),
                                  (block(6, 0x20, 0x12), block(7, 0x20, 0x01, 0))], 1200000),
    ]
    for name, exchanges, pause in cases:
        now, rows = 0, []
        for asked, answered in exchanges:
            now += pause
            for wire, sent in (('C', asked), ('D', answered)):
                for byte in sent:
                    now += 400
                    rows.append(f'{now},{wire},{byte:02X}')
        path = f'{work}/contradiction.csv'
        write_capture(path, rows)
        judge(f'{name} is M1', ': M1 ' in run(['check', path])[1])
        check_capture(name, path)
    changed = {'12000,D,02': '12000,D,03', '13600,D,87': '13600,D,88'}
    write_capture(path, [changed.get(row, row) for row in rows_of('examples/drop-frame.csv')])
    check_capture('drop frame', path, '--rate', '29.97df')
    told = picture('drop frame', path, '--rate', '29.97df')
    judge('the times of drop frame', all(text in told for text in ('>IN DATA PRESET 00:00:59;29<', ' 00:01:00;03<', 'in 00:01:00;02, ')))
    check_capture('a deck sheet', 'examples/lost-in-point.csv', '--deck', 'decks/nine-pin-commands.toml')


def pixels_of(png):
    """The pixels of a PNG of eight bits a channel, each as red, green and blue."""
    wide, high, *form = struct.unpack('>IIBB', png[16:26])
    each = {(8, 2): 3, (8, 6): 4}[tuple(form)]
    at, packed = 8, b''
    while at < len(png):
        length, kind = struct.unpack('>I4s', png[at:at + 8])
        packed += png[at + 8:at + 8 + length] if kind == b'IDAT' else b''
        at += 12 + length
    data, pixels, above = zlib.decompress(packed), [], bytearray(wide * each)
    for begin in range(0, high * (wide * each + 1), wide * each + 1):
        kind, row = data[begin], bytearray(data[begin + 1:begin + 1 + wide * each])
        for k in range(len(row)):
            left, across = (row[k - each], above[k - each]) if k >= each else (0, 0)
            nearest = min((left, above[k], across), key=lambda one: abs(left + above[k] - across - one))
            row[k] = (row[k] + (0, left, above[k], (left + above[k]) // 2, nearest)[kind]) % 256
        pixels += [tuple(row[k:k + 3]) for k in range(0, len(row), each)]
        above = row
    return pixels


def rendered(svg):
    """The PNG of a picture, or nothing where rsvg-convert fails or says anything."""
    done = subprocess.run(['rsvg-convert'], input=svg.encode(), capture_output=True)
    return done.stdout if done.returncode == 0 and not done.stderr else b''


def check_rendered():
    """The picture of each reason is rendered as large as it says, and the box of the record in question is seen, with its
    digits. That box alone is looked into: the picture is rendered once more with nothing else in its frame."""
    pictures = pictures_of_page()
    judge(f'a picture of each reason: {len(pictures)}', len(pictures) == 13)
    for name in pictures:
        svg = open(f'docs/pictures/{name}').read()
        root = xml.fromstring(svg)
        png = rendered(svg)
        size = struct.unpack('>II', png[16:24]) if png else ()
        judge(f'{name} is rendered: {size}', size == (math.ceil(float(root.get('width'))), int(root.get('height'))))
        dark, = [rect for rect in root.findall(SVG + 'rect') if rect.get('fill') == '#b00020']
        left, top, wide, high = (dark.get(side) for side in ('x', 'y', 'width', 'height'))
        root.set('viewBox', f'{left} {top} {wide} {high}')
        root.set('width', wide)
        root.set('height', high)
        png = rendered(xml.tostring(root, encoding='unicode'))
        seen = pixels_of(png) if png else []
        red, white = seen.count((0xb0, 0, 0x20)), sum(min(pixel) > 200 for pixel in seen)
        judge(f'{name}: its box is dark red: {red} of {len(seen)}', red * 3 > len(seen))
        judge(f'{name}: its digits are white: {white} of {len(seen)}', white * 50 > len(seen))


def check_parts(work):
    """Of several breaks the one that was asked for is drawn as that of a capture which begins where its part does, but for the
    numbers of the records. One part begins at a record that comes after a pause, and not after one of the deck."""
    pause = f'{work}/pause.csv'
    sent = [(400, 'C'), (400, 'C'), (10287, 'C'), (400, 'C'), (10288, 'C'), (400, 'C'), (400, 'C'), (9288, 'D')]
    now, rows = 0, []
    for (gap, wire), byte in zip(sent, '10 01 11 20 20 01 21 10'.split()):
        now += gap
        rows.append(f'{now},{wire},{byte}')
    write_capture(pause, rows)
    for capture, begins in (('examples/views/several-breaks.csv', {22: 1, 39: 1, 45: 42, 54: 45}),
                            ('examples/views/late-replies.csv', {16: 1, 22: 1, 34: 1, 45: 35, 50: 35, 54: 51, 61: 57, 63: 57, 73: 63}),
                            (pause, {1: 1, 8: 5})):
        rows = rows_of(capture)
        for number, begin in begins.items():
            part = f'{work}/part.csv'
            write_capture(part, rows[begin - 1:])
            alone = picture(f'the part of {number} of {capture}', part, '--all', '--at', f'{number - begin + 1}')
            want = re.sub(r'\b(records?) (\d+)( to (\d+))?', lambda found: f'{found[1]} {int(found[2]) + begin - 1}' + (
                f' to {int(found[4]) + begin - 1}' if found[3] else ''), alone)
            svg = picture(f'the break at record {number} of {capture}', capture, '--all', '--at', f'{number}')
            judge(f'the break at record {number} of {capture}', svg == want)
            if number == min(begins):
                judge(f'the first break of {capture}', picture('the first break', capture, '--all') == svg)


def check_late(work):
    """Of a report of --all a late reply is drawn whole, however long it is. What is judged after it is not pale and has no
    parentheses, and what comes after the break that ends the part is and has."""
    now, all_rows = 0, []
    for wire, pause, sent in (
            ('C', 400, block(6, 0x20, 0x0F)), ('D', 9288, block(7, 0x20, *[0x20] * 15)), ('C', 400, block(2, 0x01)),
            ('D', 400, block(1, 0x01)), ('D', 400, [0x10]), ('C', 400, block(2, 0x00)), ('D', 400, block(1, 0x01))):
        for k, byte in enumerate(sent):
            now += 400 if k else pause
            all_rows.append(f'{now},{wire},{byte:02X}')
    wrong_group = [re.sub('..$', '20', row) if k == 4 else row for k, row in enumerate(all_rows)]
    verdict = 'no at record 5: L1 late reply'
    for name, rows, words, judged in (
            ('the verdict', all_rows, [], 5), ('no other break', all_rows[:28], ['--all'], 28), ('another break', all_rows, ['--all'], 29),
            ('a wrong group', wrong_group, ['--all'], 5)):
        path = f'{work}/late.csv'
        write_capture(path, rows)
        for width in (700, 1200, 4000):
            svg = picture(f'a late reply, {name}', path, *words, '--width', f'{width}')
            problems = problems_of(svg, verdict, rows)
            judge(f'a late reply, {name}, {width}: {problems}', not problems)
            root = xml.fromstring(svg)
            pale = {int(rect.find(SVG + 'title').text.split()[1].rstrip(',')): rect.get('stroke') == '#999999'
                    for rect in root.findall(SVG + 'rect') if rect.find(SVG + 'title') is not None}
            judge(f'what is pale, {name}, {width}: {pale}', all(is_pale == (record > judged) for record, is_pale in pale.items()))
            judge(f'the whole reply, {name}, {width}', judged == 5 or set(range(5, 23)) <= set(pale))
            judge(f'all is drawn, {name}, {width}', width < 4000 or len(rows) in pale)
            if rows is wrong_group:
                continue
            names = {text.text for text in root.findall(SVG + 'text') if text.text.strip('()') in ('STATUS', 'PLAY', 'STOP')}
            named = (('STATUS', 6, 0), ('PLAY', 25, 22), ('STOP', 32, 29))
            want = {word if judged > last else f'({word})' for word, record, last in named if record in pale}
            judge(f'the names, {name}, {width}: {names}', names == want)


def check_late_contradiction():
    """Replies that contradict one another have their rows also where some of them were late, and other late ones stand between."""
    capture, why = 'examples/views/late-replies.csv', open('examples/views/late-replies-why.txt').read()
    why = why[why.index('records 1 to 8 '):]
    why = why[:why.index('no run remains\n') + len('no run remains\n')]
    problems = problems_of_rows(picture(capture, capture, '--all', '--at', '34'), why, rows_of(capture))
    judge(f'{capture}: {problems}', not problems)


def check_refusals(work):
    """Where there is nothing to draw, or the words are wrong, a line says so; all else that is refused is told as `check` does."""
    late, several, play = 'examples/late-reply.csv', 'examples/views/several-breaks.csv', 'examples/play.csv'
    for words, status, why in (
            ([play], 0, 'the verdict is a yes'), ([play, '--all'], 0, 'no part breaks'), (['examples/header-only.csv'], 0, 'the verdict is a yes'),
            ([play, '--at', '3'], 0, 'the verdict is a yes'), (['--hands', 'examples/disputed-in-point.csv'], 0, 'the verdict is a yes'),
            ([late, '--at', '5'], 2, 'there is no break at record 5'), ([several, '--at', '39'], 2, 'there is no break at record 39'),
            ([several, '--all', '--at=23'], 2, 'there is no break at record 23')):
        done = run(['picture', *words])
        judge(f'nothing to draw: {words}: {done}', done == (status, '', f'nothing to draw: {why}\n'))
    for option, value, why in (
            *(('--width <PIXELS>', value, 'a width is a number from 700 on') for value in ('20', '699', 'wide', '', '1e3')),
            *(('--at <RECORD>', value, 'a record has a number from 1 on') for value in ('0', 'last', '', '-1'))):
        want = f"error: invalid value '{value}' for '{option}': {why}\n\nFor more information, try '--help'.\n"
        judge(f'{option} {value!r}', run(['picture', f'{option.split()[0]}={value}', late]) == (2, '', want))
    # What clap says is what it says of `why`.
    for words in (['--foo', late], ['--bytes', late], [late, play], ['--all', '--all', late], ['--rate'], ['--rate', '26', late]):
        want = (2, '', run(['why', *words])[2].replace('ninecheck why', 'ninecheck picture'))
        done = run(['picture', *words])
        judge(f'picture {words}: {done}', done == want and done[2])
    for option in ('--at <RECORD>', '--width <PIXELS>'):
        want = f"error: a value is required for '{option}' but none was supplied\n\nFor more information, try '--help'.\n"
        judge(f'{option} without a value', run(['picture', late, option.split()[0]]) == (2, '', want))
    # No name of a sheet can have what XML writes otherwise.
    marks = f'{work}/marks.toml'
    open(marks, 'w').write('[names]\n"20 61" = "A<&>\\"B"\n')
    for words in (['examples/wrong-header.csv'], ['examples/bad-byte.csv'], ['--all', 'examples/bad-byte.csv'], ['/dev/null'],
                  ['absent.csv'], ['examples'], ['--deck', 'absent.toml', play], ['--deck', marks, play]):
        status, out, err = run(['check', *words])
        judge(f'picture {words}', status > 2 and err and run(['picture', *words]) == (status, '', err))


def main():
    chance = random.Random(9)
    with tempfile.TemporaryDirectory() as work:
        for line in open('examples/ANSWERS'):
            if not line.startswith('#'):
                name = line.split('|')[0]
                check_capture(name, f'examples/{name}')
        check_capture('session.csv', 'examples/views/session.csv')
        path = f'{work}/drawn.csv'
        for k in range(100):
            write_capture(path, drawn_capture(chance))
            check_capture(f'drawn {k}', path)
        # far from the beginning of the capture
        sent = [('C', byte) for byte in block(2, 0x01)] + [('D', byte) for byte in block(1, 0x01)]
        write_capture(path, [f'{400 * k},{wire},{byte:02X}' for k, (wire, byte) in enumerate(sent * 500 + sent[-3:] + sent * 100)])
        check_capture('a long capture', path)
        check_wires(work)
        check_contradictions(work)
        check_parts(work)
        check_late(work)
        check_late_contradiction()
        check_refusals(work)
        check_stored()
        check_rendered()
    print(f'{passed} passed, {failed} failed')
    sys.exit(failed > 0)


main()
