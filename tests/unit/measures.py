"""Tests of measures (02, note 11)."""

import random
import unittest
from dataclasses import replace

from tests.inputs.march import EASTER, FRIDAY_21, PLAIN, THURSDAY_20, opened
from tests.inputs.products import AXA, item
from tests.second import master, product, table, writing
from tests.second.book import Book
from tests.second.product import SHARE
from tests.second.trading import Calendar


# 02, note 11. Worked by hand; sizes are in ten-thousandths of a share, prices in 1/10,000
# of the currency.
class Measures(unittest.TestCase):

    FUTURE = item(b'F', b'FR01', 0, tick=1)

    # A table of a future with this size, which no file need have.
    def table_of(self, size, one=FUTURE):
        held = opened([one], Calendar(2008, 5, frozenset()), THURSDAY_20)
        return replace(held, product=replace(one, size=size))

    # The refusal, the size afterwards and the price.
    def measured(self, size, p, q, price):
        held = self.table_of(size)
        number, after, adjusted = table.measure(held, p, q, price)
        self.assertEqual(after, replace(held, product=replace(held.product, size=after.product.size)))
        return number, after.product.size, adjusted

    # 100 shares at 12.3400, 2 for 1: 200 shares at 6.1700. 3 for 2: 150 shares, and 12.34 ×
    # 100 / 150 = 8.22666.. is 8.2267. 1 for 3 of 100 shares at 10.0000: 33.3333 shares, and
    # 10 × 100 / 33.3333 = 30.00003 is 30.0000. 3 for 1 back: 99.9999 shares, and 30 ×
    # 33.3333 / 99.9999 = 10.
    def test_splits_and_reductions(self):
        for size, p, q, price, changed, adjusted in (
                (1_000_000, 2, 1, 123_400, 2_000_000, 61_700), (1_000_000, 3, 2, 123_400, 1_500_000, 82_267),
                (1_000_000, 1, 3, 100_000, 333_333, 300_000), (333_333, 3, 1, 300_000, 999_999, 100_000),
                (1_000_000, 1, 1, 123_400, 1_000_000, 123_400),
                (655_359_999, 1, 1, 999_999_999, 655_359_999, 999_999_999),
                (1_000_000, 1, 1000, 7, 1_000, 7_000), (10_000, 1000, 1, 999_000, 10_000_000, 999)):
            self.assertEqual(self.measured(size, p, q, price), (0, changed, adjusted), (size, p, q, price))

    # "halves upward": 1 × 1 / 2 = 0.5 is 1, 3 / 2 = 1.5 is 2, 5 / 2 = 2.5 is 3, 2 / 3 is 1, 4 / 3
    # is 1; the prices are those of the rounded size: 100 × 1 / 1, 100 × 3 / 2, 100 × 5 / 3 =
    # 166.67, 100 × 2 / 1, 100 × 4 / 1. Of the price: 3 / 2 = 1.5 is 2, 1 / 2 is 1, 5 / 2 is 3.
    def test_halves(self):
        for size, p, q, changed, adjusted in ((1, 1, 2, 1, 100), (3, 1, 2, 2, 150), (5, 1, 2, 3, 167),
                                              (2, 1, 3, 1, 200), (4, 1, 3, 1, 400)):
            self.assertEqual(self.measured(size, p, q, 100), (0, changed, adjusted))
        for price, adjusted in ((1, 1), (3, 2), (5, 3), (4, 2)):
            self.assertEqual(self.measured(1_000_000, 2, 1, price), (0, 2_000_000, adjusted))

    # At the ends of both ranges. 1,472.7191 shares × 89 / 2 = 65,535.99995; 63,386.0633 × 884 /
    # 855 = 65,535.999949; 64,516,129 × 31 / 2 = 999,999,999.5.
    def test_question_29(self):
        for size, p, q, price, expected in (
                (1, 1, 3, 100, (29, 1, 0)), (3, 1, 7, 100, (29, 3, 0)), (3, 1, 6, 100, (0, 1, 300)),
                (655_359_999, 2, 1, 100, (29, 655_359_999, 0)), (655_359_999, 7, 1, 100, (29, 655_359_999, 0)),
                (655_359_999, 1000, 1, 100, (29, 655_359_999, 0)),
                (14_727_191, 89, 2, 100, (29, 14_727_191, 0)), (633_860_633, 884, 855, 100, (0, 655_359_999, 97)),
                (10_000, 1, 2, 999_999_999, (29, 10_000, 0)), (10_000, 1, 2, 500_000_000, (29, 10_000, 0)),
                (10_000, 1, 2, 499_999_999, (0, 5_000, 999_999_998)),
                (31, 2, 31, 64_516_129, (29, 31, 0)), (31, 2, 31, 64_516_128, (0, 2, 999_999_984)),
                (1_000_000, 3, 1, 1, (29, 1_000_000, 0)), (1_000_000, 1000, 499, 1, (29, 1_000_000, 0)),
                (1_000_000, 1000, 501, 1, (0, 1_996_008, 1))):
            self.assertEqual(self.measured(size, p, q, price), expected, (size, p, q, price))

    # "28, after 10, 19 and 21": p and q "both 1 to 1,000". The first no counts.
    def test_questions(self):
        for p, q, price, number in ((1, 1, 0, 19), (0, 0, 0, 19), (1, 1, 1_000_000_000, 19), (0, 1, 1, 28),
                                    (1, 0, 1, 28), (1001, 1, 1, 28), (1, 1001, 1, 28), (1001, 1001, 1, 28),
                                    (1000, 1000, 1, 0), (1, 1, 999_999_999, 0), (1, 1, 1, 0)):
            self.assertEqual(self.measured(1_000_000, p, q, price)[0], number, (p, q, price))
        unsound = self.table_of(0)
        self.assertEqual(table.measure(unsound, 0, 0, 0), (10, unsound, 0))
        for kind in product.KINDS:
            future = kind in product.FUTURES
            held = self.table_of(1_000_000, item(b'F', b'FR01' if future else b'FR11', kind))
            self.assertEqual(table.measure(held, 2, 1, 0)[0], 19)
            self.assertEqual(table.measure(held, 0, 1, 5)[0], 28 if future else 21)
            self.assertEqual(table.measure(held, 1, 1, 5)[0], 0 if future else 21)

    # 20 is not among them: an adjusted price need lie on no tick.
    def test_no_tick(self):
        held = self.table_of(1_000_000, item(b'F', b'FR01', 0, tick=100))
        number, after, adjusted = table.measure(held, 3, 1, 101)
        self.assertEqual((number, after.product.size, adjusted), (0, 3_000_000, 34))

    # "new price × new size differs from the old product by at most half the new size".
    def test_value_is_kept(self):
        rest = random.Random(11)
        accepted = 0
        for _ in range(3000):
            size = rest.choice((rest.randrange(1, 50), rest.randrange(1, 2_000_000), rest.randrange(1, 655_360_000)))
            p, q = rest.randrange(1, 1001), rest.randrange(1, 1001)
            price = rest.choice((rest.randrange(1, 100), rest.randrange(1, 1_000_000_000)))
            number, changed, adjusted = product.measured(0, size, p, q, price)
            if number == 0:
                accepted += 1
                self.assertLessEqual(2 * abs(adjusted * changed - price * size), changed)
                self.assertLessEqual(2 * abs(changed * q - size * p), q)
                # a half goes upward, so only the upper end is reached
                self.assertLess(2 * (price * size - adjusted * changed), changed)
                self.assertLess(2 * (size * p - changed * q), q)
        self.assertGreater(accepted, 1000)

    # 3 contracts of 100 shares from 12.3400 to 12.5000: +480,000; the other way −480,000.
    # 33.3333 shares × 0.0001: 33.3333 of 1/10,000. One ten-thousandth of a share from 0.0001
    # to 0: −0 and a rest of 1. 100,000 × 65,535.9999 × 99,999.9998.
    def test_cash(self):
        for size, contracts, agreed, final, expected in (
                (1_000_000, 3, 123_400, 125_000, (False, 480_000, 0)),
                (1_000_000, 3, 125_000, 123_400, (True, 480_000, 0)),
                (333_333, 1, 100, 101, (False, 33, 3_333)), (333_333, 1, 101, 100, (True, 33, 3_333)),
                (1, 1, 1, 0, (True, 0, 1)), (1, 1, 1, 2, (False, 0, 1)), (1, 1, 7, 7, (False, 0, 0)),
                (9_999, 3, 1, 2, (False, 2, 9_997)), (1, 9_999, 1, 2, (False, 0, 9_999)),
                (1, 10_000, 2, 1, (True, 1, 0)),
                (655_359_999, 100_000, 1, 999_999_999, (False, 6_553_599_976_892_800_020, 0)),
                (655_359_999, 100_000, 999_999_999, 0, (True, 6_553_599_983_446_400_010, 0))):
            self.assertEqual(table.cash(self.table_of(size), contracts, agreed, final), (0, *expected))

    # "whole sizes give the old amount and rest 0": contracts × shares × (final − agreed).
    def test_cash_of_whole_sizes(self):
        rest = random.Random(12)
        for _ in range(500):
            shares, contracts = rest.randrange(1, 65_536), rest.randrange(1, 100_001)
            agreed, final = rest.randrange(1, 1_000_000_000), rest.randrange(1_000_000_000)
            old = contracts * shares * (final - agreed)
            parts = product.cash_parts(replace(self.FUTURE, size=shares * SHARE), contracts, final, agreed)
            self.assertEqual(parts, (old < 0, abs(old), 0))

    # "record bytes 20–21 hold 0 to 9,999"; "a file's [size] not below one share".
    def test_question_7(self):
        for shares, part, number in ((100, 0, 0), (100, 9_999, 0), (100, 10_000, 7), (100, 65_535, 7), (1, 0, 0),
                                     (0, 9_999, 7), (0, 10_000, 7), (0, 5_000, 7), (65_535, 9_999, 0)):
            file = master.build(PLAIN, [AXA], damages=(
                ('bytes', 3, 16 + 13, shares.to_bytes(2, 'big')), ('bytes', 3, 16 + 20, part.to_bytes(2, 'big'))))
            self.assertEqual(master.load(file)[0], number, (shares, part))
            if number == 0:
                self.assertEqual(master.read_products(file), [replace(AXA, size=10_000 * shares + part)])
        self.assertEqual(master.load(master.build(PLAIN, [AXA], damages=(('bytes', 3, 16 + 22, b'\1'),)))[0], 7)

    # 33.3333 shares: bytes 13–14 are 33, bytes 20–21 are 3,333, hexadecimal 0d05.
    def test_record(self):
        record = master.record_of(replace(AXA, size=333_333))
        self.assertEqual(record, b'AXA FR11XPAR\x01\x00\x21\x00\x64EUR\x0d\x05' + bytes(10))
        self.assertEqual(master.product_of(record).size, 333_333)

    # The record of a table's product is accepted in a file where the size is a share or
    # more, and gets 7 below that.
    def test_record_of_a_table(self):
        for size, number in ((10_000, 0), (9_999, 7), (1, 7), (655_359_999, 0)):
            held = self.table_of(size)
            self.assertTrue(table.is_sound(held))
            draft = writing.draft_of(PLAIN, [held.product])
            self.assertEqual(writing.write(draft, bytes(2048))[0], number)

    # "A measure changes no month, day or number": rolls, closures and reopenings give the
    # same with measures between them as without, and keep the size. A measure after a measure
    # starts from the size that the first left: 100 shares, 1 for 3 and 1 for 3, is 11.1111.
    def test_in_a_history(self):
        held = opened([self.FUTURE], Calendar(2008, 5, frozenset([FRIDAY_21])), THURSDAY_20)
        plain = held
        for name, day in (('roll', FRIDAY_21), ('close', FRIDAY_21 + 27), ('reopen', FRIDAY_21 + 27)):
            number, held, price = table.measure(held, 1, 3, 123_400)
            self.assertEqual(number, 0)
            moved, plain = getattr(table, name)(held, day), getattr(table, name)(plain, day)
            self.assertEqual((moved[0], *moved[2:]), (0, *plain[2:]))
            held, plain = moved[1], plain[1]
            self.assertEqual(replace(held, product=plain.product), plain)
        self.assertEqual(held.product.size, 37_037)
        sizes = [product.new_size(size, 1, 3) for size in (1_000_000, 333_333, 111_111)]
        self.assertEqual(sizes, [333_333, 111_111, 37_037])

    # The book answers as the table does, and a refused measure leaves it as it was.
    def test_book(self):
        book = Book(0, b'FR01', 1_000_000, EASTER, THURSDAY_20)
        before = dict(vars(book))
        for p, q, price, number in ((1, 1, 0, 19), (0, 1, 1, 28), (1, 1001, 1, 28), (3, 1, 1, 29), (1000, 1, 1, 29)):
            self.assertEqual(book.measure(p, q, price), (number, 0))
            self.assertEqual(vars(book), before)
        self.assertEqual(book.measure(3, 2, 123_400), (0, 82_267))
        self.assertEqual(vars(book), {**before, 'size': 1_500_000})
        self.assertEqual(Book(1, b'FR11', 1_000_000, EASTER, THURSDAY_20).measure(0, 0, 1), (21, 0))


if __name__ == '__main__':
    unittest.main()
