"""The tables themselves: that what their lines say is what is asked and wanted, that a line that is wrong is told, and that a case has each
sign of `info`."""
import re

import pytest

from program import ROOT
from tables import Wrong, read_table

HEADER = 'time_us,wire,byte\n'


def cases_of(folder, text):
    folder.joinpath('table.txt').write_bytes(text.encode())
    return read_table(folder / 'table.txt')


@pytest.mark.parametrize('lines, rows', [
    ('records C 20', '400,C,20\n'),
    ('records C 20 00 sum D +1000 10', '400,C,20\n800,C,00\n1200,C,20\n2200,D,10\n'),
    ('records C 20\nrecords D 10', '400,C,20\n800,D,10\n'),
    ('records C FF 02 sum', '400,C,FF\n800,C,02\n1200,C,01\n'),
    ('records stop', '400,C,20\n800,C,00\n1200,C,20\n1600,D,10\n2000,D,01\n2400,D,11\n'),
    ('block two C 20\nrecords 2 times two', '400,C,20\n800,C,20\n'),
    ('block twice 2 times one\nblock one D 10\nrecords twice', '400,D,10\n800,D,10\n'),
    ('session PLAY', '400,C,20\n800,C,01\n1200,C,21\n1600,D,10\n2000,D,01\n2400,D,11\n'),
    ('session PLAY!', '400,C,20\n800,C,01\n1200,C,21\n1600,D,11\n2000,D,12\n2400,D,01\n2800,D,24\n'),
    ('session +100 ~50 STOP', '500,C,20\n900,C,00\n1300,C,20\n1750,D,10\n2150,D,01\n2550,D,11\n'),
    ('session d=0,01', '400,C,61\n800,C,20\n1200,C,01\n1600,C,82\n2000,D,71\n2400,D,20\n2800,D,01\n3200,D,92\n'),
    ('session s=20,01', '400,C,61\n800,C,20\n1200,C,12\n1600,C,93\n2000,D,72\n2400,D,20\n2800,D,20\n3200,D,01\n3600,D,B3\n'),
    ('session 2*( C 20 )', '400,C,20\n800,C,20\n'),
    ('session C 20 r=14,AA:01:02:03', '400,C,20\n800,C,61\n1200,C,0C\n1600,C,01\n2000,C,6E\n2400,D,74\n2800,D,14\n3200,D,03\n3600,D,02\n'
     '4000,D,01\n4400,D,AA\n4800,D,38\n'),
    ('records C 20\ntext 999,D,1\\x30\\n', '400,C,20\n999,D,10\n'),
])
def test_records(tmp_folder, lines, rows):
    case, = cases_of(tmp_folder, f'case one\nask check\n{lines}\nstatus 0\n')
    assert case.capture.decode() == HEADER + rows


@pytest.mark.parametrize('turn, time', enumerate(['24 59 59 09', '04 00 00 10', '09 00 00 10']))
def test_a_time_that_runs(tmp_folder, turn, time):
    case, = cases_of(tmp_folder, 'case one\nask check\nsession 3*( t=09:59:59:24+5 )\nstatus 0\n')
    rows = case.capture.decode().split('\n')[1 + turn * 11:][6:10]
    assert [row[-2:] for row in rows] == time.split()


@pytest.mark.parametrize('text, capture', [
    ('', b''), ('a\\tb\\r\\n', b'a\tb\r\n'), ('\\b1', b'\xef\xbb\xbf1'), ('\\x00\\xff\\\\', b'\x00\xff\\'), ('é', 'é'.encode()),
])
def test_text(tmp_folder, text, capture):
    case, = cases_of(tmp_folder, f'case one\nask check\ntext {text}\nstatus 0\n')
    assert case.capture == capture


def test_what_is_asked_and_wanted(tmp_folder):
    case, = cases_of(tmp_folder, '# a table\ncase a name\nask check\nask why --all\ntext x\nstatus 3\nout one\nout\nout  two\nerr three\n')
    assert (case.name, case.line, case.asks) == ('a name', 2, ('check', 'why --all'))
    assert (case.status, case.out, case.err) == (3, b'one\n\n two\n', b'three\n')


def test_marks_and_texts(tmp_folder):
    case, = cases_of(tmp_folder, 'name both one\\ntwo\ncase a\nask check\nrecords C 20 @first 01 21 @last\nstatus 0\nout @last, @first: @both\n')
    assert case.out == b'3, 1: one\ntwo\n'


def test_each_with(tmp_folder):
    cases = cases_of(tmp_folder, 'case $1 $3\nask $2\ntext x\nstatus 0\neach a | check\neach b |why\nwith 1\nwith 2 | 3\n')
    assert [(case.name, case.asks) for case in cases] == [
        ('a 1', ('check',)), ('a 2', ('check',)), ('b 1', ('why',)), ('b 2', ('why',))]


WHOLE = 'case a\nask check\ntext x\nstatus 0\n'


@pytest.mark.parametrize('text, wrong', [
    ('ask check\n', '1: a line before the first case'),
    (f'{WHOLE}wants x\n', '1: a line of no kind: wants'),
    ('case a\ntext x\nstatus 0\n', '1: the case wants ask, status and a capture'),
    ('case a\nask check\nstatus 0\n', '1: the case wants ask, status and a capture'),
    ('case a\nask check\ntext x\n', '1: the case wants ask, status and a capture'),
    ('case a\nask check\ntext x\nstatus none\n', '1: the case wants ask, status and a capture'),
    ('block b C 20\nblock b C 21\n', '2: twice: b'),
    ('block stop C 20\n', '1: twice: stop'),
    (WHOLE + WHOLE, '5: twice: a'),
    (f'{WHOLE}records C 20\n', '1: records behind a text'),
    (f'\n{WHOLE}out @none\n', '2: no such mark: @none'),
    ('case a\nask check\nrecords C 2\nstatus 0\n', '1: no such block: 2'),
    ('case a\nask check\nrecords 20\nstatus 0\n', '1: no such block: 20'),
    ('case a\nask check\nrecords 2 times none\nstatus 0\n', '1: no such block: none'),
    ('case a\nask check\nrecords C 0 times stop\nstatus 0\n', '1: no such block: 0'),
    ('case a\nask check\nsession WIND\nstatus 0\n', '1: no such block: WIND'),
    (f'{WHOLE}out $2\neach 1\n', '1: no such field: $2'),
    (f'{WHOLE}with 1\n', '1: with, and no each'),
])
def test_what_is_refused(tmp_folder, text, wrong):
    with pytest.raises(Wrong) as told:
        cases_of(tmp_folder, text)
    assert str(told.value) == f'{tmp_folder}/table.txt:{wrong}'


@pytest.mark.parametrize('sheet', sorted(sheet.name for sheet in ROOT.glob('tests/cases/*.toml')))
def test_a_table_asks_for_the_sheet(sheet):
    tables = [table.read_text() for table in ROOT.glob('tests/cases/*.txt')]
    assert any(f'--deck=tests/cases/{sheet}' in table for table in tables)


SIGNS = re.findall('^\\| `([^`]*)` \\|', ROOT.joinpath('docs/INFO.md').read_text().split('\n## Signs\n')[1].split('\n## ')[0], re.M)


@pytest.mark.parametrize('sign', SIGNS)
def test_a_case_has_the_sign(sign):
    assert f'\nout look at: {sign}, at record ' in ROOT.joinpath('tests/cases/info.txt').read_text()


def test_signs():
    assert len(SIGNS) >= 14
