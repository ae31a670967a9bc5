"""Runs the programs compose and decompose and the second program on the same texts
and files and compares what they write, byte for byte. Stops at the first difference.

python3 -m tests.compare.lists FOLDER [--seed N] [--cases N]

FOLDER holds the programs. Without --seed the made texts are others each time; the
seed is printed.
"""

import argparse
import os
import subprocess
import sys
import tempfile

from tests.inputs import cases, texts
from tests.second import lists, master

SECONDS = 20


# A run of a program: what it wrote to standard output and to standard error, and its status.
def run(program, data, *words):
    done = subprocess.run([*words, program], input=data, capture_output=True, timeout=SECONDS)
    return done.stdout, done.stderr, done.returncode


class Difference(Exception):
    pass


# Says what differs, with the text or file left in a folder.
def expect(name, data, wanted, got):
    if wanted == got:
        return
    path = os.path.join(tempfile.mkdtemp(prefix='lists-'), 'input')
    with open(path, 'wb') as file:
        file.write(data)
    raise Difference(f'{name}: wanted {wanted[0][:60]!r} {wanted[1:]}, got {got[0][:60]!r} {got[1:]}; the input is {path}')


# 02, note 7: "wherever all its product blocks but the last are full".
def is_full(file):
    blocks = master.blocks_of_kind(file, master.PRODUCTS)
    return all(master.number_of(block) == master.RECORDS_AT_MOST for block in blocks[:-1])


class Programs:

    def __init__(self, folder):
        self.compose = os.path.join(folder, 'compose')
        self.decompose = os.path.join(folder, 'decompose')

    # Both programs on a text: the file that they make of it.
    def text(self, name, data):
        file, said = lists.compose(data)
        expect(name, data, (file, said, 0), run(self.compose, data))
        return file, said

    # Both programs on a file; where it is accepted and its blocks are full, its text gives it back.
    def file(self, name, data):
        printed = lists.decompose(data)
        expect(name, data, (printed, b'', 0), run(self.decompose, data))
        if master.file_refusal(data) or not is_full(data):
            return 0
        expect(name, data, (data, b'', 0), run(self.compose, printed))
        return 1

    # Both programs where standard input cannot be read, and where standard output takes nothing.
    def broken(self):
        for name, program, data in (('compose', self.compose, texts.example()), ('decompose', self.decompose, cases.example())):
            for way, command, why in (('input', 'exec "$0" <&-', b'Bad file descriptor'),
                                      ('output', 'exec "$0" >/dev/full', b'No space left on device')):
                said = b'%s: standard %s: %s\n' % (name.encode(), way.encode(), why)
                expect(f'{name} without {way}', data, (b'', said, 0), run(program, data, 'sh', '-c', command))

    # A text with a fault, whose answer is known.
    def fault(self, name, data, said):
        expect(f'the second program on {name}', data, (b'', said), lists.compose(data))
        self.text(name, data)

    # An accepted text and how decompose prints it.
    def form(self, name, data, printed):
        file, _ = self.text(name, data)
        expect(name, data, (printed, b'', 0), run(self.decompose, file))


# 02, note 7, on every file of the test suite; the example from its text.
def compare_files(programs):
    full = sum(programs.file(name, data) for name, data in cases.cases())
    for name, data in (('no byte', b''), ('65,537 bytes', bytes(65537)), ('200,000 bytes', bytes(200_000))):
        programs.file(name, data)
    file, _ = programs.text('the example', texts.example())
    expect('the example', texts.example(), (cases.example(), b''), (file, b''))
    return full


def compare_texts(programs, seed, count):
    for name, data, said in texts.faults():
        programs.fault(name, data, said)
    for name, data, printed in texts.other_forms():
        programs.form(name, data, printed)
    accepted = 0
    for number, data in enumerate(texts.made(seed, count)):
        file, said = programs.text(f'text {number} of seed {seed}', data)
        accepted += not said
        programs.file(f'the file of text {number} of seed {seed}', file)
    return accepted


def main(arguments):
    parser = argparse.ArgumentParser(description=__doc__, formatter_class=argparse.RawDescriptionHelpFormatter)
    parser.add_argument('folder')
    parser.add_argument('--seed', type=int, default=None)
    parser.add_argument('--cases', type=int, default=texts.COUNT)
    asked = parser.parse_args(arguments)
    programs = Programs(os.path.abspath(asked.folder))
    seed = int.from_bytes(os.urandom(4), 'big') if asked.seed is None else asked.seed
    print(f'compose: seed {seed}', flush=True)
    try:
        programs.broken()
        full = compare_files(programs)
        accepted = compare_texts(programs, seed, asked.cases)
    except Difference as difference:
        print(difference)
        print(f'compose: differs from the second program, seed {seed}')
        return 1
    print(f'compose: {full} files given back, {asked.cases} texts equal, {accepted} of them accepted, seed {seed}')
    return 0


if __name__ == '__main__':
    sys.exit(main(sys.argv[1:]))
