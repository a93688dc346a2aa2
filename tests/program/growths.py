"""Refuses growths of memory, by the preloaded library of refuse_growth.c: growths.py LIBRARY PROGRAM LIST TRACK9_TESTS BLOCK9_TESTS,
where the last two are empty if they are not built.
The first growth is refused, then the second, and so on until a run refuses none. The last line is 'N passed, M failed', where a test
counts once, and so does a line of LIST, `STATUS|LINES|WORDS`."""
import os
import re
import subprocess
import sys
import tempfile
from concurrent.futures import ThreadPoolExecutor

LIBRARY, PROGRAM, LIST, TRACK9_TESTS, BLOCK9_TESTS = sys.argv[1:]
OUT_OF_MEMORY = b'out of memory\na row may never end, or memory is short: see ulimit -v\n'
# Of words that keep the exchanges, once the capture is read.
TOO_MANY = b'out of memory\nthe exchanges are kept, and may be too many, or a row may never end: ninecheck split cuts a capture, or see ulimit -v\n'
# A run ends with no growth refused long before this one.
MOST = 5000


def refusing(number, command):
    """What comes of a command with this growth refused, or none where it is 0: its status, its streams, and how many growths it had."""
    with tempfile.NamedTemporaryFile() as told, open('examples/play.csv', 'rb') as play:
        env = {**os.environ, 'LD_PRELOAD': LIBRARY, 'FAIL_AT': str(number), 'GROWTHS': told.name}
        done = subprocess.run(command, stdin=play, capture_output=True, env=env)
        return done.returncode, done.stdout, done.stderr, int(told.read() or -1)


def each_refused(command):
    """What comes with each growth refused in turn, and at last with none."""
    for number in range(1, MOST):
        status, out, err, count = refusing(number, command)
        yield number, status, out, err
        if count < number:
            return


def is_answer(words, right, status, out, err):
    """The program did what is right, or told that it is out of memory and wrote a first part of what is right; of a run or of why it writes
    nothing then, and with --all whole parts and no totals."""
    if status == right[0]:
        return (out, err) == right[1:]
    if words[0] in ('run', 'why') and out and not ('--all' in words and re.search(rb'(^|\n)no at [^\n]*\n$', out)):
        return False
    is_told = err == OUT_OF_MEMORY or (words[0] in ('run', 'why') and err == TOO_MANY)
    return status == 5 and is_told and not re.search(b'^breaks ', out, re.M) and right[1].startswith(out)


def try_program(line):
    """The status is what is right where no growth is refused. LINES, if any, are those that stand where the last growth is refused."""
    wanted, lines, words = line.split('|')
    words = words.split()
    *right, count = refusing(0, [PROGRAM, *words])
    refused, written = 0, b''
    for number, *came in each_refused([PROGRAM, *words]):
        if not is_answer(words, tuple(right), *came):
            return f'with growth {number} refused: {came}'
        if came[0] == 5:
            refused, written = refused + 1, came[1]
    if (came[0], refused > 0) != (int(wanted), True) or number != count + 1:
        return f'where no growth is refused, {refused} times out of memory, growths {count}: {came}'
    if lines and written.count(b'\n') != int(lines):
        return f'{written.count(10)} lines where the last growth is refused'


HINTS = (b'', b'next: yes with --hands\n', b'next: ninecheck try asks at each frame rate, with a hand on the panel and with the sheets of the program\n')


def try_hint(words):
    """Where memory is refused for what `why` says to ask next, the report stands, and the line says what can be asked."""
    report = refusing(0, [PROGRAM, *words.split()])[1]
    for number, status, out, err in each_refused([PROGRAM, *words.split()]):
        if status != 5 and ((status, out) != (1, report) or err not in HINTS):
            return f'with growth {number} refused: {status, out, err}'
    return None if err == HINTS[1] else f'where no growth is refused: {err}'


def try_test(name):
    """Each test passes, as it does where memory is there."""
    for number, status, _, err in each_refused([TRACK9_TESTS, name]):
        if status:
            return f'with growth {number} refused: {err.decode()}'


def try_rows(name):
    """Row 0 is told while the header is read, then row 1, and then the whole answer."""
    told = []
    for _, status, out, err in each_refused([BLOCK9_TESTS, name]):
        told += re.findall(rb'^ *(?:refused at row (\d+)|(whole))$', out + err, re.M)
        if status:
            return f'it ended with status {status}'
    if not re.fullmatch(b'(0 )+(1 )+whole', b' '.join(row or whole for row, whole in told)):
        return f'it told {told}'


def tests_of(judge, tests, form):
    """A task for each test of this form, of which there is one at least, if they are built."""
    if not tests:
        return []
    listed = subprocess.run([tests, '--list'], capture_output=True).stdout.decode() if os.path.exists(tests) else ''
    return [(judge, name) for name in re.findall(form, listed)] or [(lambda form: f'{tests} has no such test', form)]


def main():
    tasks = [(try_program, line) for line in open(LIST).read().splitlines()]
    tasks.append((try_hint, 'why examples/disputed-in-point.csv'))
    tasks += tests_of(try_test, TRACK9_TESTS, 'tests::refused::[a-z_]+')
    tasks += tests_of(try_rows, BLOCK9_TESTS, 'tests::rows::a_growth_refused_[a-z_]+')
    with ThreadPoolExecutor(os.cpu_count()) as pool:
        wrong = list(pool.map(lambda task: task[0](task[1]), tasks))
    for (_, name), what in zip(tasks, wrong):
        if what:
            print(f'FAILED {name}: {what}')
    failed = sum(what is not None for what in wrong)
    print(f'{len(tasks) - failed} passed, {failed} failed')


main()
