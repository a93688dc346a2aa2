"""What is told in the last lines of a run: what was left out, how long it took, and how many checks passed and failed."""
import os
import shlex
import time


class Telling:
    """Adds up what came. A test that counts no checks is one."""

    def __init__(self):
        self.begun = time.monotonic()
        self.passed = self.failed = 0
        self.said, self.times = [], []

    def pytest_runtest_logreport(self, report):
        counts = dict(report.user_properties)
        if report.when == 'call':
            self.times.append((report.duration, report.nodeid))
            self.passed += counts.get('passed', int(report.passed))
            self.failed += counts.get('failed', int(report.failed))
            self.said += [f'{line} ({report.nodeid})' for line in counts.get('said', [])]
        elif report.failed:
            self.failed += 1

    def pytest_collectreport(self, report):
        self.failed += report.failed

    def pytest_terminal_summary(self, terminalreporter, config):
        if config.option.collectonly:
            return
        tell = terminalreporter.write_line
        terminalreporter.ensure_newline()
        for line in self.said:
            tell(line)
        if self.said:
            smaller = sum(line.startswith('at a smaller size: ') for line in self.said)
            tell(f'{len(self.said) - smaller} parts were left out, and {smaller} made smaller: the lines above say which, and what they need.')
        if not self.times and not self.failed:
            tell('no test has such a name')
            self.failed = 1
        slowest = ', '.join(f'{seconds:.0f} s {name}' for seconds, name in sorted(self.times, reverse=True)[:3])
        tell(f'{len(self.times)} tests in {time.monotonic() - self.begun:.0f} s, the slowest: {slowest}.')
        tell(f'{self.passed} passed, {self.failed} failed')


def quoted(name):
    return shlex.quote(name)
