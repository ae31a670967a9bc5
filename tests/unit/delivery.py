"""Tests of the second program's deliver, by answers worked by hand, and of examples/morning."""

import os
import unittest

from tests import ROOT
from tests.inputs.small_morning import (ALL_ROWS, AXA, AXAW, AXA_ROWS, DELIVERY_HEADING, FILE, MARK, ONE, OPEN,
                                        file_of, text)
from tests.second import master, words
from tests.second.deliver import deliver
from tests.second.query import query
from tests.second.reconcile import reconcile


class Deliver(unittest.TestCase):

    # Both outputs for the lines of some notices, as lists of lines.
    def said(self, *lines, file=FILE):
        printed, errors = deliver(file, text(*lines))
        return printed.decode().splitlines(), errors.decode().splitlines()

    # The rows of a product.
    def rows(self, code, *lines, file=FILE):
        printed, _ = self.said(*lines, file=file)
        return [line for line in printed if line.startswith(code + ',')]

    def test_opened(self):
        self.assertEqual(deliver(FILE, OPEN), (text(DELIVERY_HEADING, *ALL_ROWS), b''))

    # 01's session: "R 2008-03-21"; and 18 April closed, which is April's last trading day.
    def test_rolled_and_closed(self):
        rolled = ['AXA,2,2008-04,2008-04-18,0', *AXA_ROWS[2:], 'AXA,7,2009-03,2009-03-20,0']
        self.assertEqual(self.rows('AXA', 'O 2008-03-20', 'R 2008-03-21'), rolled)
        closed = ['AXA,2,2008-04,2008-04-17,1', *rolled[1:]]
        self.assertEqual(self.rows('AXA', 'O 2008-03-20', 'R 2008-03-21', 'C 2008-04-18'), closed)
        self.assertEqual(self.rows('AXA', 'O 2008-03-20', 'C 2008-04-18', 'R 2008-03-21'), closed)
        reopened = ('O 2008-03-20', 'R 2008-03-21', 'C 2008-04-18', 'E 2008-04-18')
        self.assertEqual(self.rows('AXA', *reopened), rolled)

    # A weekly option's Friday that is closed keeps its name.
    def test_closed_friday(self):
        self.assertEqual(self.rows('AXAW', 'O 2008-03-20', 'C 2008-04-04')[1], 'AXAW,2,2008-04-04,2008-04-03,1')

    # 01: "Roll sets the date it is given, a later or equal one."
    def test_same_date(self):
        self.assertEqual(self.said('O 2008-03-20', 'R 2008-03-20', 'R 2008-03-20'), ([DELIVERY_HEADING, *ALL_ROWS], []))

    # A month between two others gets the next number: after April 2008 AXA lists June 2009
    # too, and the future April 2009.
    def test_numbers(self):
        rows = self.rows('AXAF', 'O 2008-03-20', 'R 2008-04-21')
        self.assertEqual(rows[0], 'AXAF,3,2008-05,2008-05-16,0')
        self.assertEqual(rows[-3:], ['AXAF,17,2009-05,2009-05-15,0', 'AXAF,14,2009-12,2009-12-18,0',
                                     'AXAF,15,2010-12,2010-12-17,0'])

    # "refused calls by product, of each by line": a roll back (12), a day closed already
    # (14), a day that trades reopened (26), a day outside the cover (11).
    def test_refused(self):
        printed, errors = self.said('O 2008-03-20', 'R 2008-03-19', '', 'C 2008-03-21', 'E 2008-03-25', 'R 2011-01-03')
        self.assertEqual(printed, [DELIVERY_HEADING, *ALL_ROWS])
        self.assertEqual(errors, [f'notices.txt:{line}: NO {number} {code}' for code in ('AXA', 'AXAF', 'AXAW', 'PENY')
                                  for line, number in ((2, 12), (4, 14), (5, 26), (6, 11))])

    # 27 comes of the weekly option alone: Thursday 3 April is closed, the date is Thursday,
    # and Friday 4 April is closed, which takes that maturity's day back to Wednesday, before
    # the date; reopened, it would come back.
    def test_27_of_one_product(self):
        printed, errors = self.said('O 2008-04-01', 'C 2008-04-03', 'R 2008-04-03', 'C 2008-04-04', 'E 2008-04-04')
        self.assertEqual(errors, ['notices.txt:5: NO 27 AXAW'])
        self.assertIn('AXAW,2,2008-04-11,2008-04-11,0', printed)
        self.assertIn('AXAW,5,2008-05-09,2008-05-09,0', printed)

    # 01, question 24: a weekly option is opened from the eighth day on; 16 of the future,
    # which lists a December after the cover; 11 of every product.
    def test_openings(self):
        printed, errors = self.said('O 2008-01-07', 'R 2008-01-08', 'M AXAW 1 1 1', 'M AXA 1 1 1')
        self.assertEqual(errors, ['notices.txt:4: NO 21 AXA', 'notices.txt:1: NO 24 AXAW'])
        self.assertEqual({line.split(',')[0] for line in printed[1:]}, {'AXA', 'AXAF', 'PENY'})
        self.assertEqual(self.said('', 'O 2009-01-19', 'C 2009-01-18')[1], [
            'notices.txt:3: NO 13 AXA', 'notices.txt:2: NO 16 AXAF', 'notices.txt:3: NO 13 AXAW',
            'notices.txt:3: NO 13 PENY'])
        self.assertEqual(self.said('O 2007-12-31', 'R 2008-03-20'), (
            [DELIVERY_HEADING], [f'notices.txt:1: NO 11 {code}' for code in ('AXA', 'AXAF', 'AXAW', 'PENY')]))

    # A measure: 21 of an option, 9 of an unknown id, "for each such line", after all others;
    # a measure of a product without a table is told as neither.
    def test_measures(self):
        printed, errors = self.said('O 2008-03-20', 'M ZZZ 3 2 12.3400', 'M AXA 3 2 12.3400', 'M AXAF 3 2 12.3400',
                                    'M ZZZ 3 2 12.3400', 'M PENY 1001 1 1', 'M A 1 1 1')
        self.assertEqual(printed, [DELIVERY_HEADING, *ALL_ROWS])
        self.assertEqual(errors, ['notices.txt:3: NO 21 AXA', 'notices.txt:6: NO 28 PENY', 'notices.txt:2: NO 9 ZZZ',
                                  'notices.txt:5: NO 9 ZZZ', 'notices.txt:7: NO 9 A'])
        self.assertEqual(self.said('O 2008-01-07', 'M AXAW 3 2 1')[1], ['notices.txt:1: NO 24 AXAW'])

    # "one that is too large for its call is refused by its question (28, 19, 22), never cut
    # and never bad"; the order is 19, 21, 28, 29. 4,294,967,298 is 2 in 32 bits, and
    # 18,446,744,073,709,551,618 in 64.
    def test_large_numbers(self):
        for words_of, number in (
                ('1000 2 12', 0), ('0001000 2 12', 0), ('1001 2 12', 28), ('1 1001 12', 28), ('0 1 12', 28),
                ('1 0 12', 28), ('4294967298 1 12', 28), ('1 18446744073709551618 12', 28), ('9' * 60000 + ' 1 12', 28),
                ('0' * 60000 + '1 1 12', 0), ('1 1 99999.9999', 0), ('1 1 100000', 19), ('1 1 100000.0000', 19),
                ('1 1 0', 19), ('1 1 0.0000', 19), ('1 1 0.0001', 0), ('1 1 ' + '9' * 5000, 19),
                ('1 1 ' + '9' * 5000 + '.0001', 19), ('1 1 1844674407370955.1617', 19), ('0 0 0', 19),
                ('1 1000 99999', 29), ('1000 1 0.0001', 29), ('1000 2 0.1000', 0), ('1000 1 12', 29)):
            with self.subTest(words_of[:40]):
                errors = self.said('O 2008-03-20', 'M AXAF ' + words_of)[1]
                self.assertEqual(errors, [f'notices.txt:2: NO {number} AXAF'] if number else [])

    # A refused file, and "nothing else"; it is judged before the notices are read.
    def test_refused_file(self):
        for file, number in ((b'', 1), (FILE[:-1], 1), (FILE + bytes(65537), 1), (FILE[:-1] + b'\1', 2),
                             (file_of('Y 2008 1', AXA)[512:] * 2, 3)):
            for lines in (OPEN, b'', b'nothing\n'):
                self.assertEqual(deliver(file, lines), (b'', b'master.bin: NO %d\n' % number))

    # 01: up to 1,905 products in a file; the order is the file's.
    def test_order(self):
        codes = ['0', '00', '0A', '1', '9Z', 'A', 'A0', 'AA', 'ZZZZ']
        file = file_of('Y 2008 3', *(AXA.replace('AXA', code) for code in codes))
        printed, _ = self.said('O 2008-03-20', file=file)
        self.assertEqual([line.split(',')[0] for line in printed[1::6]], codes)


class BadNotices(unittest.TestCase):

    # The number of the bad line that deliver tells, 0 for none; nothing else is printed.
    def bad(self, data, file=ONE):
        printed, errors = deliver(file, data)
        if printed:
            self.assertFalse(errors.endswith(b'BAD\n'))
            return 0
        number = int(errors.split(b':')[1])
        self.assertEqual(errors, b'notices.txt:%d: BAD\n' % number)
        return number

    # "where no line says anything, K is the number after the last line (1 of an empty file)".
    def test_nothing_said(self):
        for data, number in ((b'', 1), (b'\n', 2), (b'\n\n', 3), (b' ', 2), (b' \t\r\n', 2), (b'#', 2), (b'#\n', 2),
                             (b'# O 2008-03-20\n\n#', 4), (MARK, 1), (MARK + b'\n', 2), (MARK + b'#', 2)):
            self.assertEqual(self.bad(data), number, data)

    # Blanks at a line's end, the mark, comments and empty lines play no part.
    def test_good(self):
        plain = deliver(FILE, OPEN + b'R 2008-03-21\nM AXA 3 2 1\n')
        self.assertEqual(plain[1], b'notices.txt:3: NO 21 AXA\n')
        for data in (b'O 2008-03-20\nR 2008-03-21\nM AXA 3 2 1', b'O 2008-03-20\r\nR 2008-03-21\r\nM AXA 3 2 1\r\n',
                     MARK + b'O 2008-03-20\nR 2008-03-21\nM AXA 3 2 1',
                     b'O 2008-03-20 \t\r \nR 2008-03-21\r\r\nM AXA 3 2 1 '):
            self.assertEqual(deliver(FILE, data), plain, data)
        more = b'\n#\n \t\nO 2008-03-20\n# R 2009-01-01\nR 2008-03-21\n\nM AXA 3 2 1\n#\xff\0'
        self.assertEqual(deliver(FILE, more), (plain[0], b'notices.txt:8: NO 21 AXA\n'))

    # "The first line that says something is the only `O`."
    def test_one_opening(self):
        for data, number in ((b'R 2008-03-21\n' + OPEN, 1), (OPEN + OPEN, 2), (b'\n#\n\nC 2008-04-18\n' + OPEN, 4),
                             (OPEN + b'R 2008-03-21\nO 2008-03-22\n', 3), (b'M AXA 3 2 1\n', 1), (b'x\n' + OPEN, 1)):
            self.assertEqual(self.bad(data), number, data)

    # Other lines, each after an opening; the first of two is told.
    def test_other_lines(self):
        for line in (b'R 2008-02-30', b'R 2008-04-31', b'R 2100-01-01', b'R 1999-12-31', b'R 2008-3-21',
                     b'R  2008-03-21', b' R 2008-03-21', b'R 2008-03-21 1', b'R', b'R ', b'r 2008-03-21',
                     b'X 2008-03-21', b'R\t2008-03-21', b'R 2008-03-21\0', b'\0', b' # nothing', b'\xef\xbb\xbf',
                     b'\xef\xbb\xbfR 2008-03-21', b'\x0c', b'\x0bR 2008-03-21', b'R 2008-03-21\x0c',
                     b'R 2008-03-21\xc2\xa0', b'O AXA 2008-03-20', b'C AXA 2008-04-18', b'E 2008-13-01', b'M AXA 3 2',
                     b'M AXA 3 2 1 1', b'M AXA 3 2 1.', b'M AXA 3 2 .1000', b'M AXA 3 2 1.000', b'M AXA 3 2 1.00000',
                     b'M AXA 3 2 1.0000.', b'M AXA 3 2 1,0000', b'M AXA 3 2 -1', b'M AXA 3 2 +1', b'M AXA 3.0000 2 1',
                     b'M AXA 3 2.0000 1', b'M AXA  3 2 1', b'M AXA 3  2 1', b'M  AXA 3 2 1', b'M AXAAA 3 2 1',
                     b'M axa 3 2 1', b'M 3 2 1', b'M AXA x 2 1', b'M AXA 3 2 1e3', b'M AXA 0x3 2 1', b'M AXA 3/2 1',
                     b'M AXA "3" 2 1', b'R 2008-03-21\rC 2008-04-18', b'R 2008-03-21#', b'R 2008-03-21 # a roll',
                     b'M AXA 3 2 1 #'):
            self.assertEqual(self.bad(OPEN + line + b'\n'), 2, line)
            self.assertEqual(self.bad(OPEN + b'#\n' + line), 3, line)
            self.assertEqual(self.bad(OPEN + line + b'\nnothing\n'), 2, line)
        for line in (b'O 2008-02-30', b'O', b'O 2008-03-20 2008-03-21', MARK + b'O 2008-03-20', b'\r' + OPEN):
            self.assertEqual(self.bad(MARK + line + b'\n'), 1, line)

    # "At most 65,536 bytes, the mark included; beyond that the line that holds byte 65,537
    # is bad."
    def test_length(self):
        rest = 65536 - len(OPEN)
        for data, number in (
                (OPEN + b'#' * rest, 0), (OPEN + b'#' * (rest + 1), 2), (MARK + OPEN + b'#' * (rest - 3), 0),
                (MARK + OPEN + b'#' * (rest - 2), 2), (OPEN + b'\n' * rest, 0), (OPEN + b'\n' * (rest + 1), rest + 2),
                (OPEN + b'#' * (rest - 1) + b'\n', 0), (OPEN + b'#' * rest + b'\n', 2),
                (OPEN + b'#' * (rest - 1) + b'\n\n', 3), (OPEN + b'#' * (rest - 1) + b'\n#', 3),
                (OPEN + b' ' * rest, 0), (OPEN + b' ' * rest + b' ', 2), (b'\n' * 65536, 65537), (b'\n' * 65537, 65537),
                (b'\n' * 65538, 65537), (b'#' * 65537, 1), (OPEN + b'x\n' + b'#' * 65536, 2), (b'x' * 65537, 1),
                (OPEN[:-1] + b' ' * 65536, 1), (b'#' * 65520 + b'\n' + OPEN + b'R 2008-03-21\n', 3),
                (b'#' * 65530 + b'\n' + OPEN + b'x\n', 2), (OPEN + b'#' * 200000 + b'\n' + b'x\n' * 9, 2)):
            self.assertEqual(self.bad(data), number, (data[:20], len(data)))

    # The same of the other two programs, whatever stands on standard input.
    def test_other_programs(self):
        for more in (b'', b'AXA size\n', b'AXA,2008-03,2008-03-20\n', b'x'):
            for data, number in ((b'', 1), (OPEN + OPEN, 2), (OPEN + b'#' * 65536, 2)):
                told = b'', b'notices.txt:%d: BAD\n' % number
                self.assertEqual((reconcile(ONE, data, more), query(ONE, data, more)), (told, told))
            for program in (reconcile, query):
                self.assertEqual(program(ONE[:-1], OPEN, more), (b'', b'master.bin: NO 1\n'))


class FileThatGrows(unittest.TestCase):

    # A roll that was refused with 11 is accepted with another year: 16 alone is not enough.
    def test_11(self):
        calls = b'O 2008-03-20\nR 2011-01-03\n'
        longer = file_of('Y 2008 5', 'C 2008-03-21', AXA)
        self.assertEqual(deliver(ONE, calls), (text(DELIVERY_HEADING, *AXA_ROWS), b'notices.txt:2: NO 11 AXA\n'))
        printed, errors = deliver(longer, calls)
        self.assertEqual((printed.splitlines()[1], errors), (b'AXA,7,2011-01,2011-01-21,0', b''))

    # Nor is 11 with 16: Friday 26 December 2008 can be closed in a file that ends with 2008,
    # and not where 1 January 2009 is closed too, as the seven days between have no trading
    # day then.
    def test_15(self):
        closed = [f'C 2008-12-{day}' for day in (29, 30, 31)]
        calls = b'O 2008-11-24\nC 2008-12-26\n'
        short, longer = file_of('Y 2008 1', *closed, AXAW), file_of('Y 2008 2', *closed, 'C 2009-01-01', AXAW)
        self.assertEqual((deliver(short, calls)[0].splitlines()[-1], deliver(short, calls)[1]),
                         (b'AXAW,4,2008-12-26,2008-12-25,1', b''))
        self.assertEqual((deliver(longer, calls)[0].splitlines()[-1], deliver(longer, calls)[1]),
                         (b'AXAW,4,2008-12-26,2008-12-26,0', b'notices.txt:2: NO 15 AXAW\n'))

    # More products change nothing of the others.
    def test_products_added(self):
        calls = b'O 2008-03-20\nR 2008-03-25\nC 2008-04-18\nM AXA 1 1 1\n'
        one, more = deliver(ONE, calls), deliver(FILE, calls)
        self.assertEqual(one[0].splitlines(),
                         [line for line in more[0].splitlines() if line.startswith((b'product', b'AXA,'))])
        self.assertEqual(one[1], more[1])


class Example(unittest.TestCase):

    # A file of examples/morning.
    def read(self, name):
        with open(os.path.join(ROOT, 'examples', 'morning', name), 'rb') as file:
            return file.read()

    def setUp(self):
        self.file, self.notices, self.delivery = map(self.read, ('master.bin', 'notices.txt', 'delivery.csv'))

    # All six kinds.
    def test_kinds(self):
        self.assertEqual({item.kind for item in master.read_products(self.file)}, {0, 1, 2, 3, 4, 5})

    # The comment of line 38 was a notice that every product refused with 14.
    def test_comment(self):
        lines = self.notices.splitlines(keepends=True)
        self.assertEqual(lines[37], b'# C 2008-05-01\n')
        printed, errors = deliver(self.file, b''.join([*lines[:37], lines[37][2:], *lines[38:]]))
        told = errors.splitlines()
        self.assertEqual((printed, told.pop(6)), (self.delivery, b'notices.txt:38: NO 14 BMW'))
        self.assertEqual({line.split()[-2] for line in told if line.startswith(b'notices.txt:38:')}, {b'14'})
        self.assertEqual(len(told), 12)

    # The next morning: what its README says that is to be reloaded.
    def test_next_morning(self):
        printed, errors = reconcile(self.file, self.notices + b'R 2008-04-21\n', self.delivery)
        said = [line.split(b',') for line in printed.splitlines()[1:]]
        monthly = [words.id_word(item.id) for item in master.read_products(self.file) if item.kind != 5]
        self.assertEqual([line[0] for line in said], [code for code in monthly for _ in range(2)])
        self.assertEqual([line[2] for line in said], [b'extra', b'missing'] * 10)
        self.assertEqual({line[1] for line in said[::2]}, {b'2008-04'})
        self.assertEqual(errors, b'12 products, 116 rows, 20 differ, 0 bad\n')

    # Notices 8 and 9, the closure and the reopening of 11 April, as its README tells them.
    def test_closed_friday(self):
        lines = self.notices.splitlines(keepends=True)
        moved = [line for line in deliver(self.file, b''.join(lines[:19]))[0].splitlines() if b',2008-04-10,' in line]
        self.assertEqual(moved, [b'AXAW,3,2008-04-11,2008-04-10,1', b'SIEW,3,2008-04-11,2008-04-10,1'])


if __name__ == '__main__':
    unittest.main()
