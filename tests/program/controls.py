"""No control character of what the program is given stands in what it writes, on either stream: controls.py PROGRAM FOLDER TEXTS
takes so many of the texts with controls. A terminal would take one for an order. Line feeds and tabs may stand there.

Each place of a capture, an export, a sheet, a file's name and a word gets every control byte (00 to 1F, 7F), every one above 7F as UTF-8
and as a byte alone, and sequences that begin with them. `clock` hands its text on as it is, so it is asked for its names and words
alone. The last line is 'N passed, M failed'.
"""
import itertools
import os
import pathlib
import subprocess
import sys
import tempfile
import unicodedata
from concurrent.futures import ThreadPoolExecutor

PROGRAM, ROOM, TEXTS = sys.argv[1], pathlib.Path(sys.argv[2]), int(sys.argv[3])

HEADER = b'time_us,wire,byte\n'
PLAY = HEADER + b'400,C,20\n800,C,01\n1200,C,21\n1600,D,10\n2000,D,01\n2400,D,11\n'
SECOND_REPLY = PLAY + b'2800,D,10\n'
SALEAE = b'name,type,start_time,duration,data,error\n"Deck","data",0.1,0.0002,0x10,\n'

WORDS_OF_A_CAPTURE = [
    'check', 'check --all', 'explain --bytes', 'run', 'why', 'digest', 'delays', 'motion', 'json', 'json check', 'json run', 'json why',
    'info', 'try', 'touches', 'picture', 'page', 'split --to part']
SIGROK = 'convert sigrok --samplerate 2000000'
SALEAE_OF = 'convert saleae --controller Editor --deck Deck'
LOG = 'convert log --controller A --deck B'

# Where a control may stand in what is read, as @: in a capture, and in each export.
CAPTURES = [
    b'time_us,wire@,byte\n400,C,20\n', b'@time_us,wire,byte\n', HEADER + b'4@00,C,20\n', HEADER + b'400,C@,20\n', HEADER + b'400,C,2@0\n',
    HEADER + b'400,C,20,@\n', HEADER + b'"4@00","C","20"\n', HEADER + b'400,@C,20\n', PLAY + b'@\n']
EXPORTS = {
    SIGROK: [
        b'@\n', b'904-1322 uart-1: 2@0\n', b'904-13@22 uart-1: 20\n', b'904-1322 uart-1: Parity error@\n',
        b'904-1322 uart-1: 20\n1000-1100 uart-1: Frame error\n@'],
    SALEAE_OF: [
        b'@\n', b'name,type,start_time,duration,data,err@or\n', SALEAE + b'"De@ck","data",0.2,0.0002,0x10,\n',
        SALEAE + b'"Deck","data",0.@2,0.0002,0x10,\n', SALEAE + b'"Deck","data",0.2,0.0002,0x1@0,\n',
        SALEAE + b'"Deck","d@ata",0.2,0.0002,0x10,\n', SALEAE + b'"Deck","data",0.2,0.0002,0x10,@\n',
        b'Time [s],Value,Parity Error,Framing Error\n0.1,0x@10,,\n'],
    LOG: [b'@\n', b'0.1@ A 20\n', b'0.1 A@ 20\n', b'0.1 A 2@0\n', b'0.1 A 20\n12:34:56.789@ A 20\n'],
    LOG + ' --live': [b'0.2 A 20\n0.1 A 20@\n'],
    LOG + ' --unit ms': [b'1.@ A 20\n'],
}
# In a sheet. TOML takes no control as it stands, but by its number.
SHEETS = [
    b'[names]\n"20 61" = "FULL @EE"\n', b'[names]\n"20 @61" = "FULL EE"\n', b'[na@mes]\n', b'["na@mes"]\n', b'[passes]\n"VA@R" = ["JOG"]\n',
    b'[passes]\nVAR = ["JO@G"]\n', b'[replies]\n"61 0A" = ["74@ 08"]\n', b'[forgets]\n"20 61" = "noth@ing"\n', b'@\n']
# In the words, where each word names a file that is not there.
WORDS = [
    '@', 'che@ck', 'help @', 'help check @', 'convert @', 'convert sig@rok', 'json @', 'check --@', 'check -@', 'check --hands=@',
    'check --rate @', 'check --rate=2@', 'check a @', 'digest --from=@', 'page --to=@', 'picture --at=@', 'picture --width=@',
    'split --to part --rows=@', 'split --to no/@/part', 'split --to p@rt', 'convert sigrok --samplerate=@', f'{SIGROK} --from=@',
    'convert saleae --controller=@', 'convert saleae --controller @ --deck @', 'convert log --controller @ --deck @', f'{LOG} --unit=@',
    'clock --@', '--version=@', '--@']


def controls():
    """Texts with every control, a few in each, so that what shows a few bytes of a field alone shows them. First come those that a
    terminal obeys."""
    yield from (b'\x1b]0;x\x07', b'\xc2\x9b31m', b'\r', b'\x1b[31m', b'\x1bP1$r\x1b\\', b'\x9b31m')
    low = [bytes([byte]) for byte in range(0x20) if byte not in b'\t\n\r'] + [b'\x7f']
    wide = [chr(code).encode() for code in range(0x80, 0xA0)]
    raw = [bytes([byte]) for byte in range(0x80, 0xA0)]
    for kind in low, wide, raw:
        for at in range(0, len(kind), 8):
            yield b''.join(kind[at:at + 8])


def found_in(said):
    """The control characters in what was written."""
    text = said.decode('utf-8', 'surrogateescape')
    return {character for character in text
            if character not in '\n\t' and (unicodedata.category(character) == 'Cc' or '\udc80' <= character <= '\udc9f')}


def ask(name, words, given=b'', folder=ROOM):
    """The name of what is asked, and what came of it."""
    asked = subprocess.run([PROGRAM, *words], input=given, capture_output=True, cwd=folder)
    return name, asked.returncode, found_in(asked.stdout), found_in(asked.stderr)


def filled(text, control):
    return text.replace(b'@', control)


def words_with(words, control):
    return [os.fsdecode(filled(os.fsencode(word), control)) for word in words.split(' ')]


def by_number(control):
    """The control as a text of TOML names it; one that is no character stands as it is."""
    try:
        return ''.join(f'\\u{ord(it):04x}' if unicodedata.category(it) == 'Cc' else it for it in control.decode()).encode()
    except UnicodeDecodeError:
        return control


def asked_of_texts(control):
    for words, capture in itertools.product(WORDS_OF_A_CAPTURE, CAPTURES):
        yield f'{words}, of {capture}', words.split(), filled(capture, control)
    for words, exports in EXPORTS.items():
        for export in exports:
            yield f'{words}, of {export}', words.split(), filled(export, control)


def asked_of_sheets(folder, control):
    sheet = folder / 'sheet.toml'
    for text, how in itertools.product(SHEETS, (control, by_number(control))):
        sheet.write_bytes(filled(text, how))
        for words in 'explain', 'why', 'digest', 'page', 'json':
            yield f'{words} --deck, of {text}', [words, '--deck', 'sheet.toml'], PLAY


def asked_of_names(folder, control):
    """Files whose names have the control: a capture, one without a header, a folder, sheets, two that differ, and one that is not there."""
    texts = {'a.csv': SECOND_REPLY, 'b.csv': b'none\n', 'c.toml': b'none\n', 'd.toml': b'[forgets]\n"20 61" = "nothing"\n',
             'e.toml': b'[forgets]\n"20 61" = "tape"\n'}
    name = {at: os.fsdecode(control) + at for at in [*texts, 'f']}
    for at, text in texts.items():
        (folder / name[at]).write_bytes(text)
    (folder / name['f']).mkdir()
    for words, at in itertools.product([*WORDS_OF_A_CAPTURE, 'clock', SIGROK, SALEAE_OF, LOG], ['a.csv', 'b.csv', 'f', 'absent']):
        yield f'{words}, of a file called @{at}', [*words.split(), '--', name.get(at, os.fsdecode(control) + at)], b''
    for sheet in 'c.toml', 'd.toml', 'f', 'absent':
        for words in 'check', 'try', 'why', 'page':
            yield f'{words} with a sheet called @{sheet}', [words, '--deck=' + name.get(sheet, os.fsdecode(control) + sheet)], SECOND_REPLY
    yield 'two sheets that differ', ['check', '--deck=' + name['d.toml'], '--deck=' + name['e.toml']], PLAY
    yield 'the deck\'s file of an export', [*SALEAE_OF.split(), name['a.csv'], name['b.csv']], b''


def judged(control):
    """What was asked with this control, and which controls came of it. A name and a word have no zero byte, and a name no slash."""
    folder = pathlib.Path(tempfile.mkdtemp(dir=ROOM))
    in_names = control.replace(b'\0', b'').replace(b'/', b'')
    asked = [asked_of_texts(control), asked_of_sheets(folder, control), asked_of_names(folder, in_names),
             ((f'the words {words}', words_with(words, in_names), PLAY) for words in WORDS)]
    return [ask(*it, folder) for it in itertools.chain(*asked)]


def main():
    passed, wrong = 0, {}
    with ThreadPoolExecutor(os.cpu_count()) as pool:
        for name, status, out, err in itertools.chain(*pool.map(judged, itertools.islice(controls(), TEXTS))):
            if out or err or status < 0 or status > 5:
                wrong.setdefault((name, status, bool(out), bool(err)), set()).update(out | err)
            else:
                passed += 1
    for (name, status, out, err), found in sorted(wrong.items()):
        streams = ' and '.join(stream for stream, is_there in (('standard output', out), ('standard error', err)) if is_there)
        print(f'FAILED {name}: status {status}, on {streams}: {" ".join(sorted(ascii(it)[1:-1] for it in found)[:8])}')
    print(f'{passed} passed, {len(wrong)} failed')


main()
