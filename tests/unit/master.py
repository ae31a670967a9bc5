"""Tests of master files: how they are built, judged and read, and the stored ones."""

import os
import subprocess
import tempfile
import unittest
from dataclasses import replace

from tests import command
from tests.inputs import cases
from tests.inputs.march import EASTER, FRIDAY_21, PLAIN, THURSDAY_20, weekdays_between
from tests.inputs.products import AXA, item
from tests.second import dates, listing, master, table
from tests.second.product import SHARE
from tests.second.trading import Calendar


class MasterFiles(unittest.TestCase):

    PRODUCTS = [item(b'A'), item(b'A1'), item(b'AB'), item(b'B', b'IT01', 0, SHARE, 1),
                item(b'ZZZZ', b'DE11', 3, 65535 * SHARE, 5)]

    def refusal(self, *damages, products=PRODUCTS, calendar=EASTER, per_block=2):
        return master.load(master.build(calendar, products, per_block, damages))

    def test_accepted(self):
        self.assertEqual(self.refusal(), (0, 3, 5))
        file = master.build(EASTER, self.PRODUCTS, 2)
        self.assertEqual(master.read_calendar(file), EASTER)
        self.assertEqual(master.read_products(file), self.PRODUCTS)
        self.assertEqual(len(file), 6 * 512)

    def test_damages(self):
        cases = [
            (1, ('length', 0)), (1, ('length', 512)), (1, ('length', 3071)),
            (1, ('length', 66048)), (3, ('length', 3584)),
            (2, ('bytes only', 4, 300, b'A')), (2, ('check', 5, 1)),
            (3, ('bytes', 0, 0, b'\3')), (3, ('bytes', 3, 0, b'\0')),
            (3, ('bytes', 2, 1, b'\2')), (3, ('bytes', 1, 4, b'\1')),
            (3, ('bytes', 1, 2, b'\x07\xcf')), (3, ('bytes', 1, 2, b'\x08\x34')),
            (3, ('bytes', 3, 2, b'\0\0')), (3, ('bytes', 3, 2, b'\0\x10')),
            (3, ('bytes', 0, 6, b'\1')), (3, ('bytes', 5, 15, b'\1')),
            (4, ('exchange', 0, 1)), (4, ('exchange', 2, 3)), (4, ('repeat', 1)),
            (4, ('drop', 1)), (4, ('exchange', 0, 5)),
            (5, ('bytes', 0, 16 + 0, b'\x08')),
            (5, ('bytes', 0, 16 + 45, b'\x02')), (5, ('bytes', 0, 62, b'\1')),
            (5, ('bytes', 2, 509, b'\1')), (5, ('bytes', 1, 16 + 45, b'\x04')),
            (7, ('bytes', 3, 16, b' ')), (7, ('bytes', 3, 16, b'a')),
            (7, ('bytes', 3, 17, b' A')), (7, ('bytes', 3, 20, b'F1')),
            (7, ('bytes', 3, 22, b'0')), (7, ('bytes', 3, 23, b'A')),
            (7, ('bytes', 3, 24, b'1')), (7, ('bytes', 3, 28, b'\4')),
            (7, ('bytes', 3, 28, b'\0')), (7, ('bytes', 3, 29, b'\0\0')),
            (7, ('bytes', 3, 31, b'\0\2')), (7, ('bytes', 3, 33, b'EUX')),
            (7, ('bytes', 3, 38, b'\1')), (7, ('bytes', 3, 47, b'\1')),
            (7, ('bytes', 3, 80, b'\1')), (7, ('bytes', 5, 48, b'\1')),
            (7, ('bytes', 4, 496, b'\1')), (7, ('bytes', 4, 509, b'\1')),
            (8, ('exchange', 3, 4)), (8, ('bytes', 4, 16, b'A1  ')),
            (0, ('bytes', 3, 23, b'9')), (0, ('bytes', 3, 33, b'GBX')),
        ]
        for number, damage in cases:
            years, records = (3, 5) if number == 0 else (0, 0)
            self.assertEqual(self.refusal(damage), (number, years, records), damage)

    def test_other_refusals(self):
        self.assertEqual(self.refusal(products=[])[0], 4)
        self.assertEqual(self.refusal(calendar=Calendar(2008, 0, frozenset()))[0], 4)
        week = weekdays_between(dates.day_of(2009, 4, 6), dates.day_of(2009, 4, 10))
        self.assertEqual(self.refusal(calendar=replace(PLAIN, closed=week))[0], 6)
        turn = weekdays_between(dates.day_of(2008, 12, 29), dates.day_of(2009, 1, 2))
        self.assertEqual(self.refusal(calendar=replace(PLAIN, closed=turn))[0], 6)
        edge = weekdays_between(dates.day_of(2008, 1, 1), dates.day_of(2008, 1, 6))
        self.assertEqual(self.refusal(calendar=replace(PLAIN, closed=edge))[0], 0)
        many = [item(b'%04d' % k) for k in range(120)]
        long = Calendar(2000, 16, frozenset())
        self.assertEqual(self.refusal(products=many, calendar=long, per_block=15), (0, 16, 120))
        self.assertEqual(self.refusal(products=many[:112], calendar=long, per_block=1),
                         (0, 16, 112))
        self.assertEqual(self.refusal(products=many[:113], calendar=long, per_block=1)[0], 1)
        seventeen = master.build(long, self.PRODUCTS)
        extra = master.block_of(master.CALENDAR, 2016, 16, b'')
        joined = bytearray(seventeen[:16 * 512] + extra + seventeen[16 * 512:])
        master.renumber(joined)
        self.assertEqual(master.load(bytes(joined))[0], 4)

    def test_check_plus_modulus(self):
        # The size of the fifteenth record stands in bytes 477 and 478.
        many = [item(b'%04d' % k, size=SHARE if k < 14 else 0) for k in range(15)]
        check = master.check_of(master.build(PLAIN, many)[3 * 512:])
        shares = next(shares for shares in range(1, 65536)
                      if (check + 478 * (shares // 256) + 479 * (shares % 256)) % 65521 < 15)
        good = many[:14] + [replace(many[14], size=shares * SHARE)]
        self.assertEqual(self.refusal(products=good, per_block=15), (0, 3, 15))
        self.assertEqual(self.refusal(('check', 3, 65521), products=good, per_block=15),
                         (2, 0, 0))

    def test_lower_number_wins(self):
        eight, seven = ('exchange', 3, 4), ('bytes', 4, 509, b'\1')
        five, three = ('bytes', 2, 509, b'\1'), ('bytes', 5, 6, b'\1')
        two = ('bytes only', 0, 62, b'\1')
        week = weekdays_between(dates.day_of(2009, 4, 6), dates.day_of(2009, 4, 10))
        closed = replace(PLAIN, closed=week)
        self.assertEqual(self.refusal(eight, seven)[0], 7)
        self.assertEqual(self.refusal(eight, seven, calendar=closed)[0], 6)
        self.assertEqual(self.refusal(seven, five, calendar=closed)[0], 5)
        self.assertEqual(self.refusal(five, three)[0], 3)
        self.assertEqual(self.refusal(five, three, two)[0], 2)
        self.assertEqual(self.refusal(two, ('length', 3073))[0], 1)

    def test_data(self):
        with open(os.path.join(cases.DATA, 'closures-2000-2099.csv')) as lines:
            calendar = master.calendar_from_csv(lines, 2008, 16)
        with open(os.path.join(cases.DATA, 'products-2008.csv')) as lines:
            products = master.products_from_csv(lines)
        file = master.build(calendar, products)
        self.assertEqual(master.load(file), (0, 16, len(products)))
        for one in products[::50]:
            number, held, entered, left = table.open_table(file, one.id, THURSDAY_20)
            self.assertEqual((number, entered, left), (0, sum(listing.COUNTS[one.kind]), 0))
            self.assertTrue(table.is_sound(held))


class Cases(unittest.TestCase):

    def test_names_say_the_refusal(self):
        names = []
        for name, file in cases.cases():
            self.assertEqual(master.load(file)[0], cases.refusal_of(name), name)
            names.append(name)
        self.assertEqual(len(names), len(set(names)))
        self.assertEqual({cases.refusal_of(name) for name in names}, set(range(9)))

    def test_example(self):
        file = cases.example()
        self.assertEqual(master.load(file), (0, 8, 788))
        calendar, products = master.contents(file)
        self.assertEqual((calendar.first_year, len(calendar.closed)), (2008, 53))
        self.assertIn(FRIDAY_21, calendar.closed)
        self.assertEqual(products[b'AXA '], replace(AXA, kind=3))

    # The faults that the cases with two faults have: each alone gets its number.
    def test_single_faults(self):
        self.assertEqual(master.load(cases.six()), (0, 3, 6))
        self.assertEqual(master.load(cases.six(cases.LENGTH))[0], 1)
        for number in range(2, 9):
            for fault in (cases.EARLY[number], cases.LATE[number]):
                self.assertEqual(master.load(cases.six(fault))[0], number)

    # The program `files` reads at most 1,000 cases through a buffer of 66,048 bytes.
    def test_stored(self):
        data, rest, lengths = cases.stored(), 0, []
        self.assertLess(len(data), 1_500_000)
        while rest < len(data):
            lengths.append(int.from_bytes(data[rest:rest + 4], 'big'))
            rest += 4 + lengths[-1]
        self.assertEqual(lengths, [len(file) for _, file in cases.cases()])
        self.assertLessEqual(len(lengths), 1000)
        self.assertLessEqual(max(lengths), 66048)

    def test_check_mode(self):
        with tempfile.TemporaryDirectory() as folder:
            paths = [os.path.join(folder, 'cases'), os.path.join(folder, 'master.bin')]

            def run(*arguments):
                return subprocess.run([*command('inputs.cases'), *arguments],
                                      capture_output=True).returncode

            self.assertEqual(run('--write', paths[0]), 0)
            self.assertEqual(run('--check', *paths), 1)
            self.assertEqual(run('--example', paths[1]), 0)
            self.assertEqual(run('--check', *paths), 0)
            with open(paths[0], 'ab') as out:
                out.write(b'\0')
            self.assertEqual(run('--check', *paths), 1)


if __name__ == '__main__':
    unittest.main()
