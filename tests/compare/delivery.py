"""Runs the programs deliver, reconcile and query and the second program on the same
mornings and compares what they print on standard output and on standard error, byte for
byte. Stops at the first difference.

python3 -m tests.compare.delivery FOLDER [--seed N] [--cases N] [--only PROGRAM ..]

FOLDER holds the programs. Without --seed the mornings are others each time; the seed is
printed.
"""

import argparse
import os
import re
import resource
import shutil
import sys
import tempfile

from tests.compare import terms as compare
from tests.inputs.runs import mornings
from tests.inputs.runs.case import FILE, WHOLE, Case, Master, write
from tests.second.deliver import deliver
from tests.second.query import query
from tests.second.reconcile import reconcile

PROGRAMS = ('deliver', 'reconcile', 'query')
INPUTS = {'deliver': 'no input', 'reconcile': 'rows', 'query': 'questions'}

# What every set must have: each refusal of a file, of a call and of a question, each
# difference of a key, each answer.
WANTED = frozenset((
    *(f'master.bin: NO {number}' for number in range(1, 9)),
    *(f'deliver NO {number}' for number in (9, 11, 12, 13, 14, 15, 16, 19, 21, 24, 26, 27, 28, 29)),
    *(f'reconcile NO {number}' for number in (11, 16, 24)),
    *(f'query NO {number}' for number in (9, 11, 16, 17, 18, 19, 20, 21, 22, 24)),
    *(f'reconcile {why}' for why in ('missing', 'extra', 'twice', 'day', 'number', 'days_back', 'product')),
    'deliver BAD', 'reconcile BAD', 'query BAD', 'deliver row', 'reconcile summary', 'reconcile nothing differs',
    'too many rows',
    'query last', 'query due', 'query OK', 'query size', 'query amount', 'query negative amount', 'query zero'))


# ---- What the second program prints ----

def expected(case):
    return {'deliver': deliver(case.file, case.notices),
            'reconcile': reconcile(case.file, case.notices, case.rows),
            'query': query(case.file, case.notices, case.questions)}


# A line on standard error, as WANTED names it.
def told_in(name, line):
    if line.startswith('master.bin'):
        return line
    found = re.fullmatch(r'notices.txt:\d+: (NO \d+) .*|(?:notices.txt|standard input):\d+: (BAD)|\d+ products, .*',
                         line)
    return f'{name} {found.group(1) or found.group(2) or "summary"}'


# The amount of cash at the end of an answer, as WANTED names it.
def amount_in(word):
    if not re.fullmatch(r'-?\d+\.\d{8}', word):
        return None
    return 'negative amount' if word[0] == '-' else 'amount' if word.strip('0') != '.' else 'zero'


# An answer of query, as WANTED names it.
def answered_in(line):
    words = line.split(' ')
    if words[0] == 'BAD':
        return 'query BAD'
    if words[-2] == 'NO':
        return f'query NO {words[-1]}'
    return f'query {amount_in(words[-1]) or ("OK" if words[-1] == "OK" else words[1])}'


# What an expectation has of what is wanted.
def seen_in(outputs):
    texts = {name: [part.decode('latin-1').split('\n')[:-1] for part in both] for name, both in outputs.items()}
    seen = {told_in(name, line) for name, (_, errors) in texts.items() for line in errors}
    seen |= {f'reconcile {line.split(",")[2]}' for line in texts['reconcile'][0][1:]}
    seen |= {answered_in(line) for line in texts['query'][0]}
    if len(texts['deliver'][0]) > 1:
        seen.add('deliver row')
    if len(texts['reconcile'][0]) == 1:
        seen.add('reconcile nothing differs')
    if texts['deliver'][0] and not texts['reconcile'][0]:
        seen.add('too many rows')
    return seen


# ---- Runs ----

# The input of a program, and how it comes.
def input_of(name, case):
    return {'deliver': (b'', WHOLE), 'reconcile': (case.rows, case.feed), 'query': (case.questions, case.feed)}[name]


# What a program prints in a folder, on both outputs, and its status.
def run(folder_of_programs, name, case, folder, limit):
    data, feed = input_of(name, case)
    write(os.path.join(folder, 'input'), data)
    one = Case(name, Master(FILE, case.file), data, feed)
    status = compare.status_of(compare.start(os.path.join(folder_of_programs, name), one, folder), one, limit)
    return compare.read(folder, 'printed'), compare.read(folder, 'errors'), status


# What differs in an output, in words, or an empty string.
def difference(where, wanted, got):
    found = compare.first_difference(wanted, got)
    if not found:
        return ''
    number, one, other = found
    return f'{where}, line {number}: second program {one[:200]!r}, program {other[:200]!r}'


# What differs in a case, in words, or an empty string; and what the second program says.
def compare_case(folder_of_programs, case, folder, limit=compare.SECONDS, programs=PROGRAMS):
    for name, data in (('master.bin', case.file), ('notices.txt', case.notices), ('rows', case.rows),
                       ('questions', case.questions)):
        write(os.path.join(folder, name), data)
    outputs = expected(case)
    for name in programs:
        printed, errors, status = run(folder_of_programs, name, case, folder, limit)
        ended = 'no end in time' if status is None else f'ended with status {status}' if status else ''
        found = [words for words in (ended, difference('standard output', outputs[name][0], printed),
                                     difference('standard error', outputs[name][1], errors)) if words]
        if found:
            return f'{name} ({INPUTS[name]}): {"; ".join(found)}', outputs
    return '', outputs


# Compares all cases of a seed: 0 if all are equal, else 1.
def compare_all(folder_of_programs, seed, count, programs=PROGRAMS):
    seen, lines = set(), 0
    for number, case in enumerate(mornings.cases(seed, count)):
        folder = tempfile.mkdtemp(prefix=f'delivery-{seed}-{number}-')
        found, outputs = compare_case(folder_of_programs, case, folder, programs=programs)
        if found:
            print(f'case {number} of seed {seed} ({case.name}): {found}')
            print(f'  files: {folder}/ master.bin, notices.txt, rows, questions, printed, errors')
            print(f'  again: python3 -m tests.compare.delivery {folder_of_programs} --seed {seed} --cases {number + 1}')
            print(f'deliver: differs from the second program, seed {seed}')
            return 1
        shutil.rmtree(folder)
        seen |= seen_in(outputs)
        lines += sum(part.count(b'\n') for name in programs for part in outputs[name])
    if WANTED - seen and count >= mornings.COUNT:
        print(f'deliver: no case of seed {seed} has {sorted(WANTED - seen)}')
        return 1
    names = ' and '.join(filter(None, (', '.join(programs[:-1]), programs[-1])))
    print(f'deliver: {count} cases of {names}, {lines:,} lines equal, seed {seed}')
    return 0


def main(arguments):
    parser = argparse.ArgumentParser(description=__doc__, formatter_class=argparse.RawDescriptionHelpFormatter)
    parser.add_argument('folder')
    parser.add_argument('--seed', type=int, default=None)
    parser.add_argument('--cases', type=int, default=mornings.COUNT)
    parser.add_argument('--only', nargs='+', choices=PROGRAMS, default=PROGRAMS)
    asked = parser.parse_args(arguments)
    folder = os.path.abspath(asked.folder)
    for name in asked.only:
        if not os.access(os.path.join(folder, name), os.X_OK):
            print(f'deliver: {os.path.join(folder, name)} is no program')
            return 2
    # A program that prints without end is stopped by the size of its output.
    resource.setrlimit(resource.RLIMIT_FSIZE, (compare.OUTPUT_AT_MOST, compare.OUTPUT_AT_MOST))
    seed = int.from_bytes(os.urandom(4), 'big') if asked.seed is None else asked.seed
    print(f'deliver: seed {seed}', flush=True)
    return compare_all(folder, seed, asked.cases, tuple(asked.only))


if __name__ == '__main__':
    sys.exit(main(sys.argv[1:]))
