"""Which tests run, and in which order."""
import os
import re

from xdist.scheduler import LoadScopeScheduling

# What takes long begins first, the slowest before all.
SLOW = [
    'tests/program/long.sh', 'tests/program/faults.sh', 'tests/judging/all.sh', 'tests/judging/drawn.sh', 'tests/program/growths.sh',
    'tests/judging/sync.sh', 'tests/building/trial.sh', 'tests/web/answers.sh', 'tests/web/browser.sh', 'tests/views/page.sh',
    'tests/views/view.sh', 'tests/views/advice.sh', 'tests/building/check.sh', 'tests/building/shell.sh',
]


class OneByOne(LoadScopeScheduling):
    """A worker gets a test when it begins the one before: it runs one and holds another."""

    def _split_scope(self, nodeid):
        return nodeid


def take_text(config, items):
    """`-k TEXT` takes the tests whose name has this text, also one with blanks, which pytest takes for a wrong expression."""
    text = config.option.keyword
    named = [item for item in items if text in item.nodeid]
    if ' ' in text and (named or not re.search(r'\b(and|or|not)\b', text)):
        config.option.keyword = ''
        config.hook.pytest_deselected(items=[item for item in items if text not in item.nodeid])
        items[:] = named


def put_slow_first(items):
    """Puts scripts first, the slow ones before others. Behind each stands a quick test, so that none waits at a worker whose test takes
    long."""
    scripts = [item for item in items if item.nodeid.endswith('.sh')]
    quick = [item for item in items if not item.nodeid.endswith('.sh')]
    scripts.sort(key=lambda item: SLOW.index(item.nodeid) if item.nodeid in SLOW else len(SLOW))
    workers = int(os.environ.get('PYTEST_XDIST_WORKER_COUNT', 1))
    first = scripts[:workers] + quick[:workers]
    rest = [item for pair in zip(scripts[workers:], quick[workers:]) for item in pair]
    items[:] = first + rest + scripts[workers + len(rest) // 2:] + quick[workers + len(rest) // 2:]
