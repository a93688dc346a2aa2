"""What pytest tests here beside functions: each case of a table, and each script of a room."""
import os
import re
import subprocess
import tempfile

import pytest

from case_checks import Checks
from program import ROOT
from tables import Wrong, read_table


def file_of(path, parent):
    """What a file of a room holds that is tested; nothing of any other file."""
    place = path.relative_to(ROOT).parts if path.is_relative_to(ROOT) else ()
    if len(place) != 3 or place[0] != 'tests':
        return None
    if path.suffix == '.sh':
        return ScriptFile.from_parent(parent, path=path)
    if place[1] == 'cases' and path.suffix == '.txt':
        return TableFile.from_parent(parent, path=path)
    return None


class Unlike(Exception):
    """What came is not what was wanted."""


class Counting(pytest.Item):
    """A test of several checks. How many of them passed and failed goes with the report of it."""

    def count(self, passed, failed):
        self.user_properties += [('passed', passed), ('failed', failed)]

    def repr_failure(self, excinfo):
        return str(excinfo.value) if isinstance(excinfo.value, Unlike) else super().repr_failure(excinfo)

    def reportinfo(self):
        return self.path, self.line, self.nodeid


class TableFile(pytest.File):
    def collect(self):
        try:
            for case in read_table(self.path.relative_to(ROOT)):
                yield CaseItem.from_parent(self, name=case.name, case=case)
        except Wrong as wrong:
            raise self.CollectError(str(wrong)) from None


class CaseItem(Counting):
    def __init__(self, case, **others):
        super().__init__(**others)
        self.case, self.line = case, case.line - 1

    def runtest(self):
        with tempfile.NamedTemporaryFile(suffix='.csv') as capture:
            capture.write(self.case.capture)
            capture.flush()
            checks = list(Checks(self.case, capture.name).all())
        wrong = [f'{name}\n{instead}' for name, instead in checks if instead is not None]
        self.count(len(checks) - len(wrong), len(wrong))
        if wrong:
            raise Unlike('\n'.join(wrong))


class ScriptFile(pytest.File):
    def collect(self):
        yield ScriptItem.from_parent(self, name=self.path.name, nodeid=self.nodeid)


class ScriptItem(Counting):
    line = 0

    def runtest(self):
        # What a script leaves behind may hold its output open, so that is a file and no pipe.
        with tempfile.TemporaryFile() as output:
            status = subprocess.call([self.path], cwd=ROOT, stdin=subprocess.DEVNULL, stdout=output, stderr=subprocess.STDOUT, env=alone())
            output.seek(0)
            text = output.read().decode(errors='replace')
        self.user_properties.append(('said', re.findall(r'^(?:needs `|at a smaller size: ).*', text, re.M)))
        counts = re.findall(r'^(\d+) passed, (\d+) failed$', text, re.M)
        if not counts:
            raise Unlike(f'{text}no last line, which is `N passed, M failed`')
        passed, failed = map(int, counts[-1])
        self.count(passed, failed or int(status != 0))
        if failed or status:
            raise Unlike(f'{text}status {status}')


def alone():
    """The environment without what pytest adds to it, and make: a script may run either."""
    return {name: value for name, value in os.environ.items() if not re.match('PYTEST_|(MAKEFLAGS|MAKELEVEL|MFLAGS)$', name)}
