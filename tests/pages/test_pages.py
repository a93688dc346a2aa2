"""The commands that the README and the pages of docs/ show, as they stand there: of each after a dollar sign what it says must be what
stands below it. Of a block without one BLOCKS says who runs it."""
import dataclasses
import itertools
import os
import shutil
import subprocess

import pytest

from program import ROOT, is_on_trial

PAGES = ['README.md', *sorted(f'docs/{page.name}' for page in ROOT.glob('docs/*.md'))]
INDENT = '    '


@dataclasses.dataclass(frozen=True)
class Block:
    """What stands after four blanks below an empty line."""
    page: str
    lines: tuple

    @property
    def is_shown(self):
        return self.lines[0].startswith('$ ')

    def commands(self):
        """Each command after a dollar sign, with what stands below it. A long one goes on in the next line."""
        found = []
        for line in self.lines:
            if found and found[-1][0].endswith('\\') and not found[-1][1]:
                found[-1][0] += f'\n{line}'
            elif line.startswith('$ '):
                found.append([line[2:], ''])
            else:
                found[-1][1] += f'{line}\n'
        return [tuple(one) for one in found]


def blocks_of(page):
    lines, before = [], ''
    for line in [*ROOT.joinpath(page).read_text().split('\n'), '']:
        if line.startswith(INDENT) and (lines or not before):
            lines.append(line[len(INDENT):])
        elif lines:
            yield Block(page, tuple(lines))
            lines = []
        before = line


ALL = [block for page in PAGES for block in blocks_of(page)]
OTHERS = [block for block in ALL if not block.is_shown]

# The blocks without a dollar sign, in the order of the pages: who runs it, the page, and how it begins. A script that is named here takes
# the block from the page, a test of this file has it where it says so, and what is no command has nobody.
HERE = 'pages/test_pages.py'
BLOCKS = [
    (HERE, 'README.md', './ninecheck check examples/play.csv'),
    (None, 'docs/ARCHITECTURE.md', 'bytes'),
    (None, 'docs/ARCHITECTURE.md', 'crates ──rattle build──▶ module'),
    ('exports/sigrok.sh', 'docs/CAPTURE.md', 'sigrok-cli -d fx2lafw'),
    ('exports/sigrok.sh', 'docs/CAPTURE.md', 'sigrok-cli -i recording.sr'),
    ('exports/convert.sh', 'docs/CAPTURE.md', './ninecheck convert sigrok --samplerate 2000000 examples/exports/sigrok.txt'),
    ('exports/convert.sh', 'docs/CAPTURE.md', './ninecheck convert saleae --controller Editor --deck Deck'),
    ('exports/convert.sh', 'docs/CAPTURE.md', './ninecheck convert saleae --controller Editor --deck Deck'),
    ('exports/convert.sh', 'docs/CAPTURE.md', './ninecheck convert saleae examples/exports/saleae-older-two-files.csv'),
    ('exports/convert.sh', 'docs/CAPTURE.md', './ninecheck convert log --controller COM3 --deck COM4 examples/exports/serial.log'),
    ('exports/convert.sh', 'docs/CAPTURE.md', './ninecheck convert log --controller COM3 --deck COM4'),
    ('exports/convert.sh', 'docs/CAPTURE.md', 'for port in /dev/ttyUSB0 /dev/ttyUSB1'),
    (HERE, 'docs/CAPTURE.md', 'ninecheck convert log: timestamps are coarser'),
    ('exports/live.sh', 'docs/CAPTURE.md', 'for port in /dev/ttyUSB0 /dev/ttyUSB1'),
    ('exports/convert.sh', 'docs/CAPTURE.md', './ninecheck convert sigrok --samplerate 2000000 --from 0.02'),
    (HERE, 'docs/CAPTURE.md', 'ninecheck convert sigrok: line 10:'),
    (HERE, 'docs/CAPTURE.md', './ninecheck split --to part'),
    (HERE, 'docs/CAPTURE.md', './ninecheck check capture.csv'),
    ('pages/many.sh', 'docs/CAPTURE.md', 'find captures'),
    (None, 'docs/CAPTURE.md', '1 captures/tuesday.csv:'),
    ('pages/many.sh', 'docs/CAPTURE.md', 'find captures'),
    ('pages/many.sh', 'docs/CAPTURE.md', 'cut'),
    (None, 'docs/DECKS.md', '# an edit deck'),
    (None, 'docs/DECKS.md', 'unreadable deck sheet'),
    (None, 'docs/OUTPUT.md', 'record N: COMMAND'),
    (None, 'docs/OUTPUT.md', 'record N: goal G'),
    (None, 'docs/OUTPUT.md', 'records A to B at T: COMMAND BYTES -> REPLY'),
    (None, 'docs/OUTPUT.md', 'records A to B at T: COMMAND BYTES'),
]


def block(page, begins):
    """The lines of the block of this page that begins so."""
    return next(block.lines for block in OTHERS if block.page == page and block.lines[0].startswith(begins))


@pytest.fixture(scope='session', autouse=True)
def tools():
    needs = subprocess.run(['bash', '-c', '. tests/lib/tools.sh && need_tools jq make'], cwd=ROOT, capture_output=True, text=True)
    assert needs.returncode == 0, needs.stdout


@pytest.fixture
def here(tmp_folder):
    """A folder that has what the repository has, so that what a command writes does not stay."""
    for name in ROOT.glob('[!.]*'):
        os.symlink(name, tmp_folder / name.name)
    return tmp_folder


def say(here, command, **environment):
    """What a command says, on both streams."""
    done = subprocess.run(['bash', '-c', command], cwd=here, env={**os.environ, **environment}, stdin=subprocess.DEVNULL,
                          stdout=subprocess.PIPE, stderr=subprocess.STDOUT)
    return done.stdout.decode()


def shown():
    for block in filter(lambda block: block.is_shown, ALL):
        commands = block.commands()
        for number, (command, want) in enumerate(commands):
            before = [earlier for earlier, _ in commands[:number]]
            yield pytest.param(before, command, want, id=f'{block.page}: {command}')


@pytest.mark.parametrize('before, command, want', shown())
def test_command(here, before, command, want):
    # It may read what those before it in its block wrote.
    for earlier in before:
        say(here, earlier)
    assert say(here, command) == want


def others():
    for block, row in itertools.zip_longest(OTHERS, BLOCKS):
        yield pytest.param(block, row, id=f'{block.page}: {block.lines[0]}' if block else f'{row[1]}: {row[2]}')


@pytest.mark.parametrize('block, row', others())
def test_block_is_known(block, row):
    assert block is not None, 'no page has this block'
    assert row is not None, 'BLOCKS does not have this block'
    assert block.page == row[1]
    assert block.lines[0].startswith(row[2])


@pytest.mark.parametrize('who, page, begins', [row for row in BLOCKS if row[0] not in (None, HERE)])
def test_who_runs_a_block_reads_its_page(who, page, begins):
    assert page in ROOT.joinpath('tests', who).read_text()


def test_how_many_commands():
    assert len(list(shown())) == 33


def test_how_many_other_blocks():
    assert len(OTHERS) == 28


BUILDS = block('README.md', './ninecheck check')


def test_the_first_answer(here):
    # It builds nothing here, since the program is there; tests/building/unbuilt.sh has it where it is not.
    assert say(here, BUILDS[0]) == 'yes: records 6, exchanges 1, open 0\n'


# The second is what runs this, the third proves, which tests/building/make.sh has with a stand-in, and the fourth is the gate itself.
@pytest.mark.parametrize('line, word', enumerate(['make tools', 'make check', 'make', '.ci/run'], 1))
def test_what_builds_it(line, word):
    assert BUILDS[line].split('  ')[0] == word


def test_there_is_nothing_else_that_builds_it():
    assert len(BUILDS) == 6


def test_installing(here, record_property):
    command = BUILDS[5].split('  ')[0]
    if is_on_trial():
        record_property('said', [f'needs `make`: {command}'])
        return
    say(here, command, DESTDIR=str(here / 'placed'))
    version = say(ROOT, 'make/version.sh')
    assert say(here, 'placed/usr/local/bin/ninecheck --version') == f'ninecheck {version}'


def test_a_line_that_is_refused(here):
    line, = block('docs/CAPTURE.md', 'ninecheck convert sigrok: line 10:')
    assert say(here, './ninecheck convert sigrok --samplerate 2000000 < examples/exports/sigrok-damaged.txt') == f'{line}\n'


def test_coarse_times(here):
    line, = block('docs/CAPTURE.md', 'ninecheck convert log: timestamps are coarser')
    here.joinpath('coarse.log').write_text('0.001 A 20\n0.002 A 01\n')
    assert say(here, './ninecheck convert log --controller A --deck B coarse.log > capture.csv') == f'{line}\n'


SHORT = 'time_us,wire,byte\n400,C,20\n800,C,01\n1200,C,21\n'


def split(here):
    here.joinpath('long.csv').write_text(SHORT)
    return say(here, block('docs/CAPTURE.md', './ninecheck split --to part')[0])


def test_splitting(here):
    assert split(here) == 'part-001.csv\n'


def test_the_part_of_a_short_capture(here):
    split(here)
    assert here.joinpath('part-001.csv').read_text() == SHORT


def test_checking(here):
    shutil.copy(ROOT / 'examples/second-reply.csv', here / 'capture.csv')
    assert say(here, block('docs/CAPTURE.md', './ninecheck check capture.csv')[0]) == 'no at record 7: P1 reply without a command\n'
