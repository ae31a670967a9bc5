"""Tests of the second program's reconcile, by answers worked by hand."""

import unittest

from tests.inputs.small_morning import (ALL_ROWS, AXA, AXAW, AXA_ROWS, DELIVERY_HEADING, FILE, HEADING, MARK, ONE,
                                        OPEN, file_of, text)
from tests.second.reconcile import reconcile

# The file and the delivery of the example that is told to users: three products on 20
# March 2008.
SAMPLE = file_of('Y 2008 3', 'C 2008-03-21', *(AXA.replace('AXA', code) for code in ('ABBN', 'ACR', 'AXA')))
SAMPLE_ROWS = [row.replace('AXA', code) for code in ('ABBN', 'ACR', 'AXA') for row in AXA_ROWS]


class Reconcile(unittest.TestCase):

    # The lines under the heading and those on standard error for some rows.
    def said(self, *lines, file=SAMPLE, calls=OPEN):
        printed, errors = reconcile(file, calls, text(*lines))
        printed, errors = printed.decode().splitlines(), errors.decode().splitlines()
        self.assertEqual(printed[0], HEADING)
        return printed[1:], errors

    # The lines under the heading alone, with nothing bad.
    def differences(self, *lines, file=SAMPLE, calls=OPEN):
        printed, errors = self.said(*lines, file=file, calls=calls)
        self.assertEqual(len(errors), 1, errors)
        self.assertTrue(errors[0].endswith(f' {len(printed)} differ, 0 bad'), errors)
        return printed

    # Five fields as three.
    def short(self, row):
        code, _, maturity, day, _ = row.split(',')
        return ','.join((code, maturity, day))

    # The rows with one of them replaced, left out, or others put in.
    def changed(self, row, *others):
        place = SAMPLE_ROWS.index(row)
        return SAMPLE_ROWS[:place] + list(others) + SAMPLE_ROWS[place + 1:]

    def test_nothing_differs(self):
        short = [self.short(row) for row in SAMPLE_ROWS]
        for rows in (SAMPLE_ROWS, SAMPLE_ROWS[::-1], short, short[::-1], SAMPLE_ROWS[::2] + short[1::2],
                     [DELIVERY_HEADING, *SAMPLE_ROWS], ['product', '', *short]):
            self.assertEqual(self.said(*rows), ([], ['3 products, 18 rows, 0 differ, 0 bad']))

    # The example that is told to users, in its order; the rows stand in another.
    def test_sample(self):
        rows = [row for row in SAMPLE_ROWS if row not in
                ('ABBN,4,2008-06,2008-06-20,0', 'AXA,1,2008-03,2008-03-20,1', 'AXA,3,2008-05,2008-05-16,0')]
        rows += ['XXXX,2008-03,2008-03-20', 'AXA,4,2008-05,2008-05-16,0', 'AXA,2008-04,2008-04-18',
                 'ACR,2020-01,2020-01-17', 'AXA,2008-03,2008-03-21', 'XXXX,1,2008-03-28,2008-03-20,0']
        self.assertEqual(self.said(*rows), ([
            'ABBN,2008-06,missing,,2008-06-20', 'ACR,2020-01,extra,2020-01-17,',
            'AXA,2008-03,day,2008-03-21,2008-03-20',
            'AXA,2008-04,twice,2008-04-18,2008-04-18', 'AXA,2008-05,number,4,3', 'XXXX,,product,,'],
            ['3 products, 21 rows, 6 differ, 0 bad']))

    # "the first `why` that holds", with all that come after it; "`delivered` is that of the
    # first row with the key".
    def test_first_why(self):
        row = 'AXA,2,2008-04,2008-04-18,0'
        for others, said in (
                ((), 'missing,,2008-04-18'),
                (('AXA,2008-04,2008-04-17', 'AXA,9,2008-04,2008-04-18,9'), 'twice,2008-04-17,2008-04-18'),
                ((row, 'AXA,2008-04,2008-04-17'), 'twice,2008-04-18,2008-04-18'),
                ((row, row, row), 'twice,2008-04-18,2008-04-18'),
                (('AXA,9,2008-04,2008-04-17,9',), 'day,2008-04-17,2008-04-18'),
                (('AXA,9,2008-04,2008-04-18,9',), 'number,9,2'), (('AXA,0,2008-04,2008-04-18,0',), 'number,0,2'),
                (('AXA,65535,2008-04,2008-04-18,0',), 'number,65535,2'),
                (('AXA,2,2008-04,2008-04-18,9',), 'days_back,9,0'),
                (('AXA,2,2008-04,2008-04-18,65535',), 'days_back,65535,0'),
                (('AXA,0009,2008-04,2008-04-18,00',), 'number,9,2')):
            self.assertEqual(self.differences(*self.changed(row, *others)), ['AXA,2008-04,' + said])
        self.assertEqual(self.differences(*self.changed(row, 'AXA,00002,2008-04,2008-04-18,000')), [])

    # "delivered, not listed, however often": one line for a key.
    def test_extra(self):
        self.assertEqual(self.differences(*SAMPLE_ROWS, 'AXA,2008-07,2008-07-18', 'AXA,1,2008-07,2008-07-19,0',
                                          'AXA,2000-01,2099-12-31', 'AXA,2099-12,2000-01-01'),
                         ['AXA,2000-01,extra,2099-12-31,', 'AXA,2008-07,extra,2008-07-18,',
                          'AXA,2099-12,extra,2000-01-01,'])

    # Nothing delivered: all is missing, keys rising.
    def test_missing(self):
        right = [f'{code},{month},missing,,{day}' for row in SAMPLE_ROWS for code, _, month, day, _ in [row.split(',')]]
        for rows in ((), ('',), ('product,maturity,last_trading_day',)):
            self.assertEqual(self.said(*rows), (right, ['3 products, 0 rows, 18 differ, 0 bad']))

    # "once for each id that is not in the file, in the order of their first rows".
    def test_unknown(self):
        rows = ['ZZ,2008-03,2008-03-20', 'B,2008-03-20,2008-03-20', 'ZZ,2008-03,2008-03-20', '0,1,2008-03,2008-03-20,1',
                'B,2008-03,2008-03-20', 'AX,2008-03,2008-03-20']
        self.assertEqual(self.said(*rows[:3], *SAMPLE_ROWS, *rows[3:]), (
            ['ZZ,,product,,', 'B,,product,,', '0,,product,,', 'AX,,product,,'],
            ['3 products, 24 rows, 4 differ, 0 bad']))

    # "Rows of a product without a table are `extra`": the weekly one is not open on 7
    # January (24). Its opening is told, the roll that another refuses is not.
    def test_without_a_table(self):
        calls = b'O 2008-01-07\nR 2008-01-04\nM ZZZ 1 1 1\n'
        printed, errors = self.said('AXAW,2008-01-11,2008-01-11', 'AXAW,2008-01-11,2008-01-10',
                                    'AXAW,1,2008-01-04,2008-01-04,0', 'AXAW,2008-01,2008-01-18', file=FILE, calls=calls)
        self.assertEqual([line for line in printed if line.startswith('AXAW')],
                         ['AXAW,2008-01-04,extra,2008-01-04,', 'AXAW,2008-01-11,extra,2008-01-11,'])
        self.assertEqual(errors,
                         ['notices.txt:1: NO 24 AXAW', 'standard input:4: BAD', '4 products, 3 rows, 30 differ, 1 bad'])

    # Months and Fridays; a date that is no Friday is a maturity that is not listed.
    def test_fridays(self):
        self.assertEqual(self.differences(*ALL_ROWS, 'AXAW,2008-03-27,2008-03-27', 'AXAW,2008-03-28,2008-03-28',
                                          file=FILE), [
            'AXAW,2008-03-27,extra,2008-03-27,', 'AXAW,2008-03-28,twice,2008-03-28,2008-03-28'])

    # Yesterday's delivery: "the list of what to reload".
    def test_yesterday(self):
        self.assertEqual(self.differences(*AXA_ROWS, file=ONE, calls=OPEN + b'R 2008-03-21\nC 2008-04-18\n'), [
            'AXA,2008-03,extra,2008-03-20,', 'AXA,2008-04,day,2008-04-18,2008-04-17',
            'AXA,2009-03,missing,,2009-03-20'])


class Rows(unittest.TestCase):

    # The numbers of the bad lines among some, and the count of good rows.
    def read(self, data, file=FILE):
        _, errors = reconcile(file, OPEN, data)
        *bad, last = errors.decode().splitlines()
        places = [int(line.removeprefix('standard input:').removesuffix(': BAD')) for line in bad]
        words_of = last.split()
        self.assertEqual(len(places), int(words_of[6]))
        return places, int(words_of[2])

    # Whether a line is a good row; there is another before it.
    def is_good(self, line):
        places, count = self.read(b'AXA,2008-03,2008-03-20\n' + line + b'\n')
        self.assertIn((places, count), (([], 2), ([2], 1)), line)
        return not places

    # Separators, quotes, blanks at the end: the same row.
    def test_forms(self):
        for line in (b'AXA,2008-04,2008-04-18', b'AXA;2008-04;2008-04-18', b'AXA\t2008-04\t2008-04-18',
                     b'AXA;2008-04,2008-04-18', b'AXA\t2008-04;2008-04-18', b'"AXA","2008-04","2008-04-18"',
                     b'AXA,"2008-04",2008-04-18', b'"AXA"\t2008-04;"2008-04-18"', b'AXA,2,2008-04,2008-04-18,0',
                     b'AXA;"2";2008-04;"2008-04-18";"0"', b'AXA,002,2008-04,2008-04-18,00000000000000000000',
                     b'AXA,2008-04,2008-04-18 \t\r', b'AXA\t2008-04\t2008-04-18\t', b'"AXA";"2008-04";"2008-04-18" ',
                     b'AXA,2,2008-04,2008-04-18,0\r', b'AXA\t2\t2008-04\t2008-04-18\t0\t\t'):
            self.assertTrue(self.is_good(line), line)
            rows = b'\n'.join((AXA_ROWS[0].encode(), *(row.encode() for row in AXA_ROWS[2:]), line))
            self.assertEqual(reconcile(ONE, OPEN, rows), (text(HEADING), b'1 products, 6 rows, 0 differ, 0 bad\n'),
                             line)

    def test_bad(self):
        for line in (
                b'AXA', b'AXA,2008-04', b'AXA,2008-04,2008-04-18,', b'AXA,2008-04,2008-04-18,0', b',2008-04,2008-04-18',
                b'AXA,2,2008-04,2008-04-18', b'AXA,2,2008-04,2008-04-18,0,', b'AXA,2,2008-04,2008-04-18,0,0', b',,',
                b',,,,', b'AXA 2008-04 2008-04-18', b'AXA, 2008-04,2008-04-18', b'AXA ,2008-04,2008-04-18',
                b' AXA,2008-04,2008-04-18', b'AXA:2008-04:2008-04-18', b'AXA|2008-04|2008-04-18',
                b"'AXA','2008-04','2008-04-18'", b'AXA,,2008-04,2008-04-18', b'"AXA,2008-04,2008-04-18',
                b'AXA",2008-04,2008-04-18', b'"AXA"",2008-04,2008-04-18', b'""AXA"",2008-04,2008-04-18',
                b'"AXA"x,2008-04,2008-04-18', b'"AXA" ,2008-04,2008-04-18', b'A"X"A,2008-04,2008-04-18',
                b'AXA,2008-04,"2008-04-18 "', b'AXA,"2008-04,2008-04-18"', b'"AXA,2008-04",2008-04-18',
                b'"AXA;2008-04;2008-04-18"', b'"",2008-04,2008-04-18', b'",2008-04,2008-04-18', b'AXA,2008-04,"',
                b'AXA,2008-04,""', b'"""AXA""",2008-04,2008-04-18', b'axa,2008-04,2008-04-18',
                b'AXAXA,2008-04,2008-04-18', b'AX-A,2008-04,2008-04-18', b'zz,2008-04,2008-04-18',
                b'AXA,2008-04,2008-04-31', b'AXA,2008-04,2008-04', b'AXA,2008-04,18.04.2008', b'AXA,2008-04,2100-01-01',
                b'AXA,2008-04,1999-12-31', b'AXA,2008-04,2008-4-18', b'AXA,2008-13,2008-04-18',
                b'AXA,2008-00,2008-04-18', b'AXA,2100-01,2008-04-18', b'AXA,1999-12,2008-04-18',
                b'AXA,2008-4,2008-04-18', b'AXA,2008-04-18,2008-04-18', b'AXA,2,2008-04-18,2008-04-18,0',
                b'AXAW,2008-04,2008-04-18', b'AXAW,2008-02-30,2008-04-18', b'ZZ,2008-13,2008-04-18',
                b'ZZ,2008-02-30,2008-04-18', b'ZZ,x,2008-04-18', b'ZZ,2008-04,2008-04-31', b'ZZ,x,2008-04,2008-04-18,0',
                b'AXA,-2,2008-04,2008-04-18,0', b'AXA,+2,2008-04,2008-04-18,0', b'AXA,,2008-04,2008-04-18,0',
                b'AXA,2,2008-04,2008-04-18,x', b'AXA,65536,2008-04,2008-04-18,0', b'AXA,2,2008-04,2008-04-18,65536',
                b'AXA,4294967298,2008-04,2008-04-18,0', b'AXA,18446744073709551618,2008-04,2008-04-18,0',
                b'AXA,2.0,2008-04,2008-04-18,0', b'AXA,2008-04,2008-04-18,2,0', b'# AXA,2008-04,2008-04-18', b'#',
                b'product,maturity,last_trading_day', b'product', b'"product";x', b'\0', b'AXA,2008-04,2008-04-18\0',
                b'AXA,2008-04,2008-04-18\x0c', b'\xef\xbb\xbfAXA,2008-04,2008-04-18', b'\xff'):
            self.assertFalse(self.is_good(line), line)

    # Rows of an id that is not in the file: both forms are taken.
    def test_unknown(self):
        for line in (b'ZZ,2008-04,2008-04-18', b'ZZ,2008-04-18,2008-04-18', b'ZZ,2,2008-04,2008-04-18,0',
                     b'ZZ,2,2008-04-01,2008-04-18,0'):
            self.assertTrue(self.is_good(line), line)
        self.assertTrue(self.is_good(b'AXAW,2008-04-18,2008-04-18'))

    # "the first line that is not empty where its first field is `product`".
    def test_heading(self):
        row = b'AXA,2008-03,2008-03-20\n'
        for line in (b'product', b'"product"', b'product,maturity,last_trading_day', b'product;x', b'product\t',
                     b'product,"a",b"c',
                     b'"product","number"', b'product,' + b'x' * 500, b'product \r', b'product,,,,,,,'):
            self.assertEqual(self.read(line + b'\n' + row), ([], 1), line)
            self.assertEqual(self.read(MARK + b'\r\n \n' + line + b'\n' + row), ([], 1), line)
            self.assertEqual(self.read(row + line), ([2], 1), line)
            self.assertEqual(self.read(line + b'\n' + line + b'\n' + row), ([2], 1), line)
            self.assertEqual(self.read(b'x\n' + line + b'\n' + row), ([1, 2], 1), line)
        for line in (b'Product,x', b'products,x', b' product', b'"product,x', b'product",x', b'""product"",x',
                     b'product x', b'number,product', MARK + b'product', b'product:x', b'prod', b'"product" ,x'):
            self.assertEqual(self.read(MARK + line + b'\n' + row), ([1], 1), line)

    # "Line ends and the mark as above; empty lines are passed over"; lines are counted all
    # the same.
    def test_lines(self):
        row = b'AXA,2008-03,2008-03-20'
        self.assertEqual(self.read(b''), ([], 0))
        self.assertEqual(self.read(MARK), ([], 0))
        self.assertEqual(self.read(MARK + row), ([], 1))
        self.assertEqual(self.read(MARK + MARK + row), ([1], 0))
        self.assertEqual(self.read(b'\n \n\t\r\n' + row + b'\r\nx\n\n' + row), ([5], 2))
        self.assertEqual(self.read(b'\nx\nx\n' + row + b'\n\nx'), ([2, 3, 6], 1))
        self.assertEqual(self.read(row + b'\n' + MARK + row), ([2], 1))

    # "more than 255 bytes": the blanks at the line's end and the mark are not counted.
    def test_length(self):
        number = 255 - len(b'AXA,,2008-04,2008-04-18,0')
        line = b'AXA,' + b'2'.rjust(number, b'0') + b',2008-04,2008-04-18,0'
        longer = line.replace(b'AXA,', b'AXA,0')
        self.assertEqual((len(line), len(longer)), (255, 256))
        for good in (line, line + b'\r', line + b' ' * 500, MARK + line, b' ' * 500, MARK + line + b'\t' * 300,
                     b'\r' * 256):
            self.assertEqual(self.read(good)[0], [], good[-20:])
        for bad in (longer, longer + b'\r', MARK + longer, longer + b' ' * 300, b'x' * 100_000,
                    line + b' ' * 300 + b'x'):
            self.assertEqual(self.read(bad), ([1], 0), bad[-20:])

    # "More than 65,536 good rows: the first one too many is told as bad, reading ends, and
    # standard output stays empty." The summary is not there.
    def test_too_many(self):
        row = b'AXA,2008-03,2008-03-20\n'
        most = b'product\n\nx\n' + row * 65535 + b'ZZ,2008-03,2008-03-20\n'
        printed, errors = reconcile(ONE, OPEN, most + b'\nx\n')
        self.assertEqual(printed.count(b'\n'), 8)
        self.assertEqual(errors,
                         b'standard input:3: BAD\nstandard input:65541: BAD\n1 products, 65536 rows, 7 differ, 2 bad\n')
        for more in (row, row[:-1], row + b'x\n' + row, b'ZZ,2008-03,2008-03-20\n'):
            self.assertEqual(reconcile(ONE, OPEN, most + more),
                             (b'', b'standard input:3: BAD\nstandard input:65540: BAD\n'))
        self.assertEqual(reconcile(ONE, OPEN, most + b'x\n' + row + b'x\n'), (
            b'', b'standard input:3: BAD\nstandard input:65540: BAD\nstandard input:65541: BAD\n'))
        file, calls = file_of('Y 2008 3', AXA, AXAW), b'O 2008-01-07\n'
        self.assertEqual(reconcile(file, calls, row * 65537),
                         (b'', b'notices.txt:1: NO 24 AXAW\nstandard input:65537: BAD\n'))


if __name__ == '__main__':
    unittest.main()
