"""Hands pytest what is tested here, in which order, and how what came is told. tests/README.md says how tests are run."""
import pathlib
import sys
import tempfile

import pytest

sys.dont_write_bytecode = True

import items  # noqa: E402
import order  # noqa: E402
import telling  # noqa: E402

collect_ignore = ['by_hand', 'lib']


@pytest.fixture
def tmp_folder():
    """A folder of the test's own, which goes with it."""
    with tempfile.TemporaryDirectory() as folder:
        yield pathlib.Path(folder)


def pytest_configure(config):
    # A worker hands its reports on to the one that tells.
    if not hasattr(config, 'workerinput'):
        config.pluginmanager.register(telling.Telling())


def pytest_collect_file(file_path, parent):
    return items.file_of(file_path, parent)


@pytest.hookimpl(tryfirst=True)
def pytest_collection_modifyitems(config, items):
    order.take_text(config, items)
    order.put_slow_first(items)


@pytest.hookimpl(optionalhook=True)
def pytest_xdist_make_scheduler(config, log):
    return order.OneByOne(config, log)


@pytest.hookimpl(hookwrapper=True)
def pytest_runtest_makereport(item):
    report = (yield).get_result()
    if report.failed:
        report.sections.append(('alone', f'make/check.sh {telling.quoted(item.nodeid)}'))
