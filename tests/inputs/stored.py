"""The files that a program of the proved side reads, in its data folder."""

import sys
from pathlib import Path


# Writes the files into the folder.
def write(path, files):
    for name, data in files.items():
        (path / name).write_bytes(data)


# The names of the stored files that are not these, or are missing.
def others(path, files):
    stored = {one.name: one.read_bytes() for one in path.iterdir()} if path.is_dir() else {}
    return sorted(name for name in files.keys() | stored.keys() if files.get(name) != stored.get(name))


# The command line of a script that makes such files by name: writes them, or says
# which of the stored ones are others.
def command(script, arguments, folder):
    if len(arguments) != 2 or arguments[0] not in ('--write', '--check'):
        print(f'usage: {script} --write FOLDER | --check FOLDER', file=sys.stderr)
        return 2
    path = Path(arguments[1])
    if arguments[0] == '--write':
        write(path, folder())
        return 0
    wrong = others(path, folder())
    for name in wrong:
        print(f'{path / name} is not what {script} writes')
    return 1 if wrong else 0
