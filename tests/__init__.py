"""The tests, a package: every module is run from the root of the repository, as
python3 -m tests.unit.dates."""

import os
import sys

ROOT = os.path.dirname(os.path.dirname(os.path.abspath(__file__)))


# A module of this package as a command that can be run in any folder.
def command(name: str, *flags: str) -> tuple[str, ...]:
    return ('env', f'PYTHONPATH={ROOT}', sys.executable, *flags, '-m', f'tests.{name}')
