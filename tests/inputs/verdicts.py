"""Lists of every sort for the program verdicts, which prints what the library says
of them (02, note 12).

python3 -m tests.inputs.verdicts --write FOLDER writes its master file and its lists,
--check FOLDER says whether the stored ones are what it writes.
"""

import os
import random
import sys
from dataclasses import replace

from tests.inputs.products import EVERY_KIND
from tests.second import dates, master, table, trading, vendor
from tests.second.trading import Calendar

CLOSED = ((2000, 1, 21), (2000, 2, 18), (2001, 4, 13), (2002, 3, 29), (2003, 4, 18), (2004, 4, 9))
COVER = Calendar(2000, 16, frozenset(dates.day_of(*date) for date in CLOSED))
FILE = master.build(COVER, EVERY_KIND)
TABLES, LISTS = 20, 40


# A list of numbers, near the table's fresh listing or far from it.
def numbers_of(chance, held):
    pairs = vendor.fresh_pairs(held)
    chance.shuffle(pairs)
    for _ in range(chance.choice((0, 0, 1, 1, 2, 3))):
        key, day = chance.choice(pairs or [(0, 0)])
        others = ((key, day), (key, day + 1), (key, 0), (key + 1, day), (0, 0), (0, day), (65535, 65535), (65535, day))
        pairs = chance.choice((pairs + [chance.choice(others)], [chance.choice(others)] + pairs, pairs[1:], pairs[:-1], pairs * 2))
    numbers = [number for pair in pairs for number in pair][:1024]
    return numbers[:-1] if numbers and chance.random() < 0.15 else numbers


# The tables: every kind on several dates, the cover's first days among them, so that
# January 2000, whose number is 0, is listed.
def moments():
    for place in range(TABLES):
        item = EVERY_KIND[place % len(EVERY_KIND)]
        first = trading.first_day(COVER) + 7
        yield item, first if place < len(EVERY_KIND) else first + 173 * place


# Each list: the id, the date, whether the table is made unsound, and the numbers.
def lists():
    for place, (item, date) in enumerate(moments()):
        number, held, _, _ = table.open_table(FILE, item.id, date)
        assert number == 0, (item.id, date, number)
        chance = random.Random(f'verdicts {place}')
        for _ in range(LISTS):
            yield item.id, date, int(chance.random() < 0.05), numbers_of(chance, held), held


# The file of the lists.
def script():
    parts = []
    for code, date, wrong, numbers, _ in lists():
        words = (date, wrong, len(numbers), *numbers)
        parts.append(b'\0\1' + code + b''.join(word.to_bytes(2, 'big') for word in words))
    return b''.join(parts)


# What is printed: the refusal, 1 for a yes, and the month or Friday.
def expected():
    for _, _, wrong, numbers, held in lists():
        number, same, key = vendor.judge(replace(held, given=60000) if wrong else held, numbers)
        yield f'V {number} {int(same)} {key}'


def main(arguments):
    mode, folder = arguments
    status = 0
    for name, data in (('master.bin', FILE), ('lists', script())):
        path = os.path.join(folder, name)
        if mode == '--write':
            with open(path, 'wb') as out:
                out.write(data)
        else:
            with open(path, 'rb') as stored:
                if stored.read() != data:
                    print(f'{path} is not what tests/inputs/verdicts.py writes')
                    status = 1
    return status


if __name__ == '__main__':
    sys.exit(main(sys.argv[1:]))
