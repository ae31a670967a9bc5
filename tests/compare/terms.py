"""Runs the program terms and the second program on the same runs and compares
what they print, byte for byte. Stops at the first difference.

python3 -m tests.compare.terms PROGRAM [--seed N] [--cases N]

Without --seed the runs are others each time; the seed is printed.
"""

import argparse
import os
import re
import resource
import shutil
import subprocess
import sys
import tempfile
import time
from itertools import zip_longest

from tests.inputs import sessions
from tests.inputs.runs.case import CLOSED, PIECES, STORED, UNREADABLE, WHOLE, write
from tests.second import terms

SECONDS = 20
OUTPUT_AT_MOST = 1 << 26


# ---- One run of the program ----

# Standard input of a run: a pipe, or an open file.
def input_of(case, folder):
    if case.feed in (WHOLE, PIECES):
        return subprocess.PIPE
    if case.feed == STORED:
        return os.open(os.path.join(folder, 'input'), os.O_RDONLY)
    return os.open(folder if case.feed == UNREADABLE else os.devnull, os.O_RDONLY)


# Writes the input through the pipe in a few pieces, with pauses, so that reads
# come back short. A program that ends early closes the pipe.
def feed_pieces(pipe, commands):
    length = max(1, len(commands) // 5)
    try:
        for start in range(0, len(commands), length):
            pipe.write(commands[start:start + length])
            pipe.flush()
            time.sleep(0.002)
    except BrokenPipeError:
        pass


# Starts the program in the folder; what it prints goes to files there.
def start(program, case, folder):
    command = [program] if case.feed != CLOSED else ['sh', '-c', 'exec "$0" <&-', program]
    source = input_of(case, folder)
    printed, errors = (os.path.join(folder, name) for name in ('printed', 'errors'))
    with open(printed, 'wb') as out, open(errors, 'wb') as more:
        child = subprocess.Popen(command, cwd=folder, stdin=source, stdout=out, stderr=more)
    if source != subprocess.PIPE:
        os.close(source)
    return child


# Feeds the program and waits for its end: its status, or None after the limit.
def status_of(child, case, limit):
    try:
        if case.feed == PIECES:
            feed_pieces(child.stdin, case.commands)
        child.communicate(case.commands if case.feed == WHOLE else None, timeout=limit)
    except subprocess.TimeoutExpired:
        child.kill()
        child.wait()
        return None
    return child.returncode


# Reads a file of a folder.
def read(folder, name):
    with open(os.path.join(folder, name), 'rb') as file:
        return file.read()


# ---- Comparison ----

# The lines of an output with their line feeds.
def lines_of(data):
    return re.findall(rb'[^\n]*\n|[^\n]+', data)


# The first line that differs: its number from 1 and both lines, empty after an
# output's end; None where the outputs are equal.
def first_difference(expected, printed):
    pairs = zip_longest(lines_of(expected), lines_of(printed), fillvalue=b'')
    for number, (one, other) in enumerate(pairs, 1):
        if one != other:
            return number, one, other
    return None


# The number of the input line to which an output line belongs.
def input_line(expected, number):
    return sum(line[:1] in (b'O', b'R', b'C', b'N', b'B') for line in lines_of(expected)[:number])


# What differs, in words, or an empty string. A status below 0 is a signal's.
def difference(expected, printed, status):
    words = [f'ended with status {status}'] if status else ['no end in time'] if status is None else []
    found = first_difference(expected, printed)
    if found:
        number, one, other = found
        words += [f'output line {number} (input line {input_line(expected, number)}) differs',
                  f'  second program: {one[:200]!r}', f'  program:        {other[:200]!r}']
    return '\n'.join(words)


# Runs both programs on a case in a folder. (what differs, expected output).
def compare_case(program, case, folder, limit=SECONDS):
    sessions.put(case, folder)
    expected = terms.answers(terms.read_master(os.path.join(folder, 'master.bin')), case.commands)
    status = status_of(start(program, case, folder), case, limit)
    found = difference(expected, read(folder, 'printed'), status)
    if found:
        write(os.path.join(folder, 'expected'), expected)
    return found, expected


# Says which case differs, how, where its files are and how to run it again.
def report(program, seed, number, case, folder, found):
    print(f'case {number} of seed {seed} ({case.name}): {found}')
    print(f'  files: {folder}/ master.bin, input, expected, printed, errors')
    print(f'  again: python3 -m tests.compare.terms {program} --seed {seed} --cases {number + 1}')
    print(f'terms: differs from the second program, seed {seed}')


# Compares all cases of a seed: 0 if all are equal, else 1.
def compare(program, seed, count):
    lines, seen = 0, set()
    for number, case in enumerate(sessions.cases(seed, count)):
        folder = tempfile.mkdtemp(prefix=f'terms-{seed}-{number}-')
        found, expected = compare_case(program, case, folder)
        if found:
            report(program, seed, number, case, folder, found)
            return 1
        shutil.rmtree(folder)
        lines += expected.count(b'\n')
        seen |= sessions.answers_in(expected)
    missing = sessions.WANTED - seen
    if missing and count >= sessions.COUNT:
        print(f'terms: no case of seed {seed} prints {sorted(missing)}')
        return 1
    print(f'terms: {count} cases, {lines:,} lines equal, seed {seed}')
    return 0


def main(arguments):
    parser = argparse.ArgumentParser(description=__doc__, formatter_class=argparse.RawDescriptionHelpFormatter)
    parser.add_argument('program')
    parser.add_argument('--seed', type=int, default=None)
    parser.add_argument('--cases', type=int, default=sessions.COUNT)
    asked = parser.parse_args(arguments)
    program = os.path.abspath(asked.program)
    if not os.access(program, os.X_OK):
        print(f'terms: {program} is no program')
        return 2
    # A program that prints without end is stopped by the size of its output.
    resource.setrlimit(resource.RLIMIT_FSIZE, (OUTPUT_AT_MOST, OUTPUT_AT_MOST))
    seed = int.from_bytes(os.urandom(4), 'big') if asked.seed is None else asked.seed
    print(f'terms: seed {seed}', flush=True)
    return compare(program, seed, asked.cases)


if __name__ == '__main__':
    sys.exit(main(sys.argv[1:]))
