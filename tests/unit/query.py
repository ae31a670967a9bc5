"""Tests of the second program's query, by answers worked by hand."""

import unittest

from tests.inputs.small_morning import FILE, MARK, OPEN, text
from tests.second.query import query


class Query(unittest.TestCase):

    # The answers to some questions.
    def said(self, *lines, calls=OPEN, file=FILE):
        printed, errors = query(file, calls, text(*lines))
        self.assertEqual(errors, b'')
        return printed.decode().splitlines()

    # What stands after one question.
    def answer(self, line, calls=OPEN, file=FILE):
        said, = self.said(line, calls=calls, file=file)
        self.assertTrue(said.startswith(line + ' '), said)
        return said[len(line) + 1:]

    def test_last(self):
        self.assertEqual(self.said('AXA last 2008-06', 'AXA last 2008-03', 'AXAW last 2008-04-04'), [
            'AXA last 2008-06 2008-06-20 0', 'AXA last 2008-03 2008-03-20 1', 'AXAW last 2008-04-04 2008-04-04 0'])
        for line in ('AXA last 2008-07', 'AXA last 2099-12', 'AXA last 2000-01', 'AXAW last 2008-04-18',
                     'AXAW last 2008-04-05'):
            self.assertEqual(self.answer(line), 'NO 18')
        calls = OPEN + b'R 2008-03-21\nC 2008-04-18\n'
        self.assertEqual(self.answer('AXA last 2008-04', calls), '2008-04-17 1')
        self.assertEqual(self.answer('AXA last 2008-03', calls), 'NO 18')

    # 01: options of FR11 are due on the third trading day after, futures on the next; 02,
    # note 5: "from any day in the cover". 21 March is closed, 22 and 23 are a weekend.
    def test_due(self):
        for line, said in (('AXA due 2008-03-22', '2008-03-26'), ('AXA due 2008-03-20', '2008-03-26'),
                           ('AXA due 2008-03-19', '2008-03-25'), ('AXAF due 2008-03-20', '2008-03-24'),
                           ('AXAF due 2008-03-24', '2008-03-25'), ('AXA due 2007-12-31', 'NO 11'),
                           ('AXA due 2011-01-01', 'NO 11'), ('AXA due 2010-12-29', 'NO 17'),
                           ('AXAF due 2010-12-31', 'NO 17'), ('AXAF due 2010-12-30', '2010-12-31'),
                           ('AXA due 2008-01-01', '2008-01-04')):
            self.assertEqual(self.answer(line), said, line)

    # 01: "Price 5 with tick 5 passes, 6 gets 20"; here the tick is 100, or 0.0100.
    def test_tick(self):
        for line, said in (('AXA tick 12.3400', 'OK'), ('AXA tick 12', 'OK'), ('AXA tick 12.3401', 'NO 20'),
                           ('AXA tick 0', 'NO 19'), ('AXA tick 0.0000', 'NO 19'), ('AXA tick 99999.9900', 'OK'),
                           ('AXA tick 99999.9999', 'NO 20'), ('AXA tick 100000', 'NO 19'),
                           ('AXA tick 100000.0100', 'NO 19'), ('AXA tick 0012.3400', 'OK'), ('PENY tick 0.0001', 'OK'),
                           ('AXA tick 0.0001', 'NO 20'), ('AXA tick ' + '9' * 200, 'NO 19'),
                           ('AXA tick 429496.7396', 'NO 19'), ('AXA tick ' + '0' * 200 + '1', 'OK')):
            self.assertEqual(self.answer(line), said, line)

    # 01: "3 contracts of 100, agreed 12.3400, final 12.5000: +480,000" in 1/10,000.
    def test_cash(self):
        for line, said in (
                ('AXAF cash 3 12.3400 12.5000', '48.00000000'), ('AXAF cash 3 12.5000 12.3400', '-48.00000000'),
                ('AXAF cash 3 12.3400 12.3400', '0.00000000'), ('AXAF cash 003 12 13', '300.00000000'),
                ('AXAF cash 3 12.3400 0', '-3702.00000000'),
                ('AXAF cash 100000 99999.9900 0', '-999999900000.00000000'),
                ('PENY cash 1 0.0001 0.0002', '0.00010000'), ('PENY cash 1 0.0002 0.0001', '-0.00010000'),
                ('AXAF cash 0 12.3400 12.5000', 'NO 22'), ('AXAF cash 100001 12 13', 'NO 22'),
                ('AXAF cash 3 12 100000', 'NO 22'), ('AXAF cash 3 12 99999.9999', '29996399.97000000'),
                ('AXAF cash 4294967299 12 13', 'NO 22'), ('AXAF cash ' + '9' * 200 + ' 12 13', 'NO 22'),
                ('AXAF cash 0 0 100000', 'NO 19'), ('AXAF cash 0 12.3401 100000', 'NO 20'),
                ('AXA cash 0 12.3400 100000', 'NO 21'), ('AXA cash 3 12.3401 12.5000', 'NO 20'),
                ('AXAF cash 3 100000 12', 'NO 19')):
            self.assertEqual(self.answer(line), said, line)

    # 02, note 11: measures change the size; 100 by 3 for 2 is 150, by 1 for 3 33.3333, by 1
    # for 6 16.6667.
    def test_size(self):
        self.assertEqual(self.said('AXA size', 'AXAF size', 'PENY size'),
                         ['AXA size 100', 'AXAF size 100', 'PENY size 1'])
        for measures, said in ((('3 2',), '150'), (('1 3',), '33.3333'), (('1 6',), '16.6667'),
                               (('2 1', '1 3'), '66.6667'),
                               (('1 3', '3 1'), '99.9999'), (('1 1000',), '0.1000'), (('1 1000', '1 1000'), '0.0001')):
            calls = OPEN + b''.join(b'M AXAF %s 0.0100\n' % ratio.encode() for ratio in measures)
            self.assertEqual(self.answer('AXAF size', calls), said)
            self.assertEqual(self.answer('PENY size', calls), '1')
        calls = OPEN + b'M AXAF 1 3 12.3400\nR 2008-03-25\nM AXAF 0 1 1\n'
        self.assertEqual(self.answer('AXAF size', calls), '33.3333')
        self.assertEqual(self.answer('AXAF cash 1 0.0100 0.0200', calls), '0.33333300')

    # "`-0.00000001`": one ten-thousandth of a share that falls by 0.0001.
    def test_smallest(self):
        calls = OPEN + b'M PENY 1 1000 0.0001\nM PENY 1 10 0.0001\n'
        self.assertEqual(self.said('PENY size', 'PENY cash 1 0.0002 0.0001', 'PENY cash 1 0.0001 0.0002',
                                   'PENY cash 1 0.0001 0.0001', 'PENY cash 10001 0.0002 0.0001', calls=calls), [
            'PENY size 0.0001', 'PENY cash 1 0.0002 0.0001 -0.00000001', 'PENY cash 1 0.0001 0.0002 0.00000001',
            'PENY cash 1 0.0001 0.0001 0.00000000', 'PENY cash 10001 0.0002 0.0001 -0.00010001'])

    # "9 of an id that is not in the file, the opening's number of a product without a table".
    def test_no_table(self):
        questions = ('{} due 2008-03-22', '{} tick 1', '{} tick 0', '{} cash 0 0 0', '{} size')
        for form in questions + ('{} last 2008-06', '{} last 2008-06-06'):
            self.assertEqual(self.answer(form.format('ZZ')), 'NO 9')
        for form in questions + ('{} last 2008-06-06',):
            self.assertEqual(self.answer(form.format('AXAW'), b'O 2008-01-07\n'), 'NO 24')
        self.assertEqual(self.said('AXAW last 2008-06', calls=b'O 2008-01-07\n'), ['BAD 1'])
        self.assertEqual(self.said('AXAF size', 'AXA size', calls=b'O 2009-01-19\n'),
                         ['AXAF size NO 16', 'AXA size 100'])

    # Refused notices are not told.
    def test_refused_notices(self):
        self.assertEqual(self.answer('AXA size', OPEN + b'R 2008-03-19\nM ZZ 1 1 1\nM AXA 1 1 1\n'), '100')

    def test_bad(self):
        for line in ('AXA', 'AXA ', 'AXA last', 'AXA last 2008-13', 'AXA last 2008-6', 'AXA last 2008-06-20',
                     'AXAW last 2008-06', 'AXAW last 2008-02-30', 'ZZ last 2008', 'ZZ last 2008-13',
                     'ZZ last 2008-02-30', 'AXA due 2008-02-30', 'AXA due 2008-06', 'AXA due', 'AXA due 2100-01-01',
                     'AXA tick', 'AXA tick 1.5', 'AXA tick -1', 'AXA tick .5000', 'AXA tick 1.', 'AXA tick 1 1',
                     'AXA cash 3 12.3400', 'AXA cash 3 12.3400 12.5000 1', 'AXA cash 3.0000 1 1', 'AXA cash -3 1 1',
                     'AXA cash 3 1 -1', 'AXA size 1', 'AXA sizes', 'AXA Size', 'axa size', 'AXAXA size', 'AXA  size',
                     ' AXA size', 'AXA\tsize', 'size AXA', 'size', 'O AXA 2008-03-20', 'R 2008-03-21', 'AXA,size',
                     '"AXA" size', 'AXA size #', ' #', 'x', 'AXA size\0', '\0'):
            self.assertEqual(self.said('AXA size', line, 'AXA size'), ['AXA size 100', 'BAD 2', 'AXA size 100'], line)

    # "Empty lines and comments are passed over"; lines are counted all the same; the answer
    # is the line without the mark and the blanks at its end.
    def test_lines(self):
        self.assertEqual(query(FILE, OPEN, b''), (b'', b''))
        self.assertEqual(query(FILE, OPEN, MARK), (b'', b''))
        self.assertEqual(query(FILE, OPEN, MARK + b'AXA size \t\r\n\n \r\n# why\nx\n#\nAXA size'), (
            b'AXA size 100\nBAD 5\nAXA size 100\n', b''))
        self.assertEqual(query(FILE, OPEN, MARK + MARK + b'AXA size\n'), (b'BAD 1\n', b''))
        self.assertEqual(query(FILE, OPEN, b'\xff\n#\xff\n\x80 size\n'), (b'BAD 1\nBAD 3\n', b''))

    # "one of more than 255 bytes": the blanks at its end and the mark are not counted; a
    # comment of any length is passed over.
    def test_length(self):
        line = b'AXA tick ' + b'1'.rjust(246, b'0')
        self.assertEqual(len(line), 255)
        for data, said in ((line, line + b' OK\n'), (MARK + line + b'\r\n', line + b' OK\n'),
                           (line + b' ' * 1000, line + b' OK\n'), (line.replace(b'1', b'01'), b'BAD 1\n'),
                           (b'#' + line, b''), (b'#' * 5000, b''), (b' ' * 5000, b''),
                           (b'x' * 100_000 + b'\nAXA size', b'BAD 1\nAXA size 100\n'),
                           (b'AXA size' + b' ' * 300 + b'1', b'BAD 1\n')):
            self.assertEqual(query(FILE, OPEN, data), (said, b''), data[:30])


if __name__ == '__main__':
    unittest.main()
