"""Draws docs/pictures/ from the answers of the second program (tests/second) on examples/morning/master.bin.

tools/pictures           writes the pictures
tools/pictures --check   writes nothing; a line for each picture that is missing or another than the script draws, and
                         status 1 where there is one
"""
import argparse
import sys
from pathlib import Path

from . import march, numbers, strips
from .answers import Answers

ROOT = Path(__file__).resolve().parent.parent.parent

FOLDER = 'docs/pictures'
MASTER = 'examples/morning/master.bin'


def all_pictures(answers):
    """Every picture by the name of its file."""
    made = {'march-2008.svg': march.picture(answers), 'numbers.svg': numbers.picture(answers)}
    for kind in strips.KINDS:
        made[f'kind-{kind}.svg'] = strips.picture(answers, kind)
    return made


def differences(folder, made):
    """A line for each picture that is missing or another than the script draws; others in the folder may be drawn by other scripts."""
    stored = {path.name: path for path in folder.glob('*.svg')}
    for name in sorted(made.keys() | stored.keys()):
        if name not in stored:
            yield f'{FOLDER}/{name} is missing: run tools/pictures'
        elif name in made and stored[name].read_bytes() != made[name].encode('utf-8'):
            yield f'{FOLDER}/{name} is not what tools/pictures draws: run tools/pictures'


def main():
    parser = argparse.ArgumentParser(description='Draws docs/pictures/ from the answers of the second program.')
    parser.add_argument('--check', action='store_true', help='write nothing, and say what is wrong')
    parser.add_argument('--root', type=Path, default=ROOT, help='the repository, where it is another')
    arguments = parser.parse_args()
    made = all_pictures(Answers((arguments.root / MASTER).read_bytes()))
    folder = arguments.root / FOLDER
    faults = list(differences(folder, made)) if arguments.check else []
    if not arguments.check:
        folder.mkdir(parents=True, exist_ok=True)
        for name, text in made.items():
            (folder / name).write_text(text, encoding='utf-8')
    for fault in faults:
        print(fault)
    if not faults:
        print(f'the pictures: {len(made)} drawn from the second program')
    return 1 if faults else 0


if __name__ == '__main__':
    sys.exit(main())
