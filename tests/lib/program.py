"""The program that is tested, for tests in Python, as program.sh has it for scripts."""
import functools
import os
import pathlib

ROOT = pathlib.Path(__file__).resolve().parents[2]
PROGRAM = os.environ.get('NINECHECK') or str(ROOT / 'crates/ninecheck/out/ninecheck')


@functools.cache
def is_on_trial():
    """It was compiled for a trial, with run-time checks."""
    return b'__asan_init' in pathlib.Path(PROGRAM).read_bytes()
