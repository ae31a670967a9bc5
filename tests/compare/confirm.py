"""Runs the program confirm and the second program on the same inputs and compares
what they print, byte for byte. Stops at the first difference.

python3 -m tests.compare.confirm PROGRAM [--seed N] [--cases N]

Without --seed the inputs are others each time; the seed is printed.
"""

import argparse
import os
import random
import subprocess
import sys
import tempfile

from tests.inputs.products import EVERY_KIND
from tests.inputs.runs import lines
from tests.second import confirm, master, table, terms, trading, vendor
from tests.second.trading import Calendar

COUNT = 400
SECONDS = 20

# What every set must print at least once.
WANTED = {b'YES', b'DIFFERS', b'REFUSED', b'BAD'}


# ---- Inputs ----

# A calendar of some years with some closed days.
def calendar(chance):
    first, years = chance.choice(((2000, 6), (2008, 8), (2008, 16), (2084, 16)))
    plain = Calendar(first, years, frozenset())
    days = (chance.randint(trading.first_day(plain), trading.last_day(plain)) for _ in range(60))
    return Calendar(first, years, frozenset(day for day in days if trading.is_trading_day(plain, day)))


# The lines of an open, rolls and closes, and the table after them; None where one
# was refused.
def history(chance, file, days):
    code = chance.choice(EVERY_KIND).id
    day = chance.randrange(*days)
    number, held, _, _ = table.open_table(file, code, day)
    text = [f'O {code.decode().strip()} {terms.day_text(day)}']
    while not number and chance.random() < 0.5:
        letter = chance.choice('RC')
        day = held.date + chance.randrange(-1, 40)
        text.append(f'{letter} {terms.day_text(day)}')
        number, held, _, _ = (table.roll if letter == 'R' else table.close)(held, day)
    return text, None if number else held


# One change of a listing.
def changed(chance, pairs):
    place = chance.randrange(len(pairs))
    key, day = pairs[place]
    other = chance.choice(((key, day + 1), (key, day - 1), (key + 1, day), (key - 1, day), (0, 0), (key, 0)))
    return chance.choice((
        pairs[:place] + pairs[place + 1:], pairs + [pairs[place]], pairs + [other],
        pairs[:place] + [other] + pairs[place + 1:], [], pairs * 20))


# The lines of a listing; now and then one that is none.
def listing_lines(chance, kind, pairs):
    text = [f'{terms.key_text(kind, max(0, key))} {terms.day_text(max(0, day))}' for key, day in pairs]
    if chance.random() < 0.15:
        bad = chance.choice(('', ' ', 'R 2009-01-01', 'C 2009-01-02', 'O A1 2008-03-20', '2008-00 2008-03-20',
                             '2008-03 2008-3-20', '2008-03-07  2008-03-07', '2008-02-30 2008-03-20', 'x' * 70000))
        text.insert(chance.randrange(len(text) + 1), bad)
    return text


# A master file and an input.
def made(chance):
    cover = calendar(chance)
    file = master.build(cover, EVERY_KIND)
    days = trading.first_day(cover), trading.last_day(cover) - 800 * chance.randrange(3)
    text, held = history(chance, file, days)
    if held:
        pairs = vendor.fresh_pairs(held)
        chance.shuffle(pairs)
        for _ in range(chance.choice((0, 0, 1, 1, 2))):
            pairs = changed(chance, pairs or vendor.fresh_pairs(held))
        text += listing_lines(chance, held.product.kind, pairs)
    else:
        text += ['nothing'] * chance.randrange(2)
    return file, ('\n'.join(text) + chance.choice(('', '\n'))).encode()


# The first inputs of a set: the ends of what there is to read.
def fixed():
    first, line = b'O AXA 2008-03-20\n', b'2008-03 2008-03-20\n'
    count = (65536 - len(first)) // len(line)
    for text in (b'', b'\n', first[:-1], first, first + line * count, first + line * (count + 1),
                 b'x' * 65536, b'x' * 65537, first + b'\0', *(first + bytes([byte]) + line for byte in range(256))):
        yield lines.FILE, text
    for file in (b'', bytes(1024), lines.FILE[:-1], lines.FILE + lines.FILE):
        yield file, first + line


# The inputs of a seed, in order.
def inputs(seed, count):
    yield from fixed()
    for number in range(count):
        yield made(random.Random(f'{seed} {number}'))


# ---- Comparison ----

# What the program prints for an input in a folder of its own.
def printed(program, file, text):
    with tempfile.TemporaryDirectory() as folder:
        with open(os.path.join(folder, 'master.bin'), 'wb') as out:
            out.write(file)
        ran = subprocess.run([program], cwd=folder, input=text, capture_output=True, timeout=SECONDS)
        return ran.stdout + ran.stderr if ran.returncode == 0 else b'status %d' % ran.returncode


# Compares all inputs of a seed: 0 if all are equal, else 1.
def compare(program, seed, count):
    seen = set()
    for number, (file, text) in enumerate(inputs(seed, count)):
        expected, found = confirm.answer(file, text), printed(program, file, text)
        if expected != found:
            folder = tempfile.mkdtemp(prefix=f'confirm-{seed}-{number}-')
            for name, data in (('master.bin', file), ('input', text)):
                with open(os.path.join(folder, name), 'wb') as out:
                    out.write(data)
            print(f'confirm: input {number} of seed {seed}: second program {expected!r}, program {found[:200]!r}; files: {folder}')
            return 1
        seen.add(expected.split()[0])
    if WANTED - seen and count >= COUNT:
        print(f'confirm: no input of seed {seed} prints {sorted(WANTED - seen)}')
        return 1
    print(f'confirm: {number + 1} inputs, all equal, seed {seed}')
    return 0


def main(arguments):
    parser = argparse.ArgumentParser(description=__doc__, formatter_class=argparse.RawDescriptionHelpFormatter)
    parser.add_argument('program')
    parser.add_argument('--seed', type=int, default=None)
    parser.add_argument('--cases', type=int, default=COUNT)
    asked = parser.parse_args(arguments)
    program = os.path.abspath(asked.program)
    if not os.access(program, os.X_OK):
        print(f'confirm: {program} is no program')
        return 2
    seed = int.from_bytes(os.urandom(4), 'big') if asked.seed is None else asked.seed
    return compare(program, seed, asked.cases)


if __name__ == '__main__':
    sys.exit(main(sys.argv[1:]))
