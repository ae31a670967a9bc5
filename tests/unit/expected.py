"""Tests of what the comparing programs must print."""

import subprocess
import unittest

from tests import command
from tests.inputs import cases


class Expected(unittest.TestCase):

    def lines(self, name):
        ran = subprocess.run([*command('compare.expected'), name],
                             capture_output=True)
        self.assertEqual(ran.returncode, 0)
        self.assertTrue(ran.stdout.endswith(b'\n'))
        return ran.stdout.decode('ascii').splitlines()

    def test_dates(self):
        lines = [line for line in self.lines('compare_rules') if line[0] in 'MDN']
        self.assertEqual(len(lines), 1200 + 108 * 14 * 7 + 1772 + 71)
        for line in ('M 0 0 5 31', 'M 1199 36494 1 31', 'D 2008 1 1 0 2922',
                     'D 2001 2 29 23 0', 'D 2000 13 1 23 0', 'N 0 0 2000 1 1',
                     'N 36524 0 2099 12 31', 'N 36525 23 0 0 0', 'N 65527 23 0 0 0'):
            self.assertIn(line, lines)

    def test_calendars(self):
        lines = [line for line in self.lines('compare_rules') if line[0] in 'KTX']
        heads = [line for line in lines if line[0] == 'K']
        self.assertEqual(len(heads), 36)
        self.assertEqual(heads[0], 'K 0 2000 1 1 1 1')
        self.assertEqual(heads[14], 'K 14 2084 16 1 1 0')
        self.assertEqual(lines[1:3], ['T 0 1 0 0 0 0 2 4', 'T 5 1 0 1 5 0 6 10'])
        self.assertEqual([line[0] for line in lines[-17:]], ['X'] + ['K'] * 16)

    # 02, note 4: clean second maps, and others that question 5 refuses, in turn.
    def test_second_maps(self):
        lines = [line for line in self.lines('compare_rules') if line[0] in 'KE']
        heads = [line.split() for line in lines if line[0] == 'K'][20:]
        self.assertEqual([head[5] for head in heads], ['1', '0'] * 8)
        marked = [line for line in lines if line[0] == 'E' and line.split()[2] == '1']
        self.assertTrue(marked)
        self.assertTrue(all(line.split()[3] == '1' for line in marked))

    def test_files(self):
        lines = self.lines('compare_files')
        heads = [line for line in lines if line[0] == 'F']
        accepted = [line for line in heads if line.split()[2] == '0']
        self.assertEqual(len(heads), len(list(cases.cases())))
        self.assertEqual(len(lines), 3 * len(heads) + len(accepted) * (1 + len(cases.IDS)))
        by_blocks = [line for line in lines if line[0] == 'B']
        self.assertEqual([line.split()[1:] for line in by_blocks], [line.split()[2:] for line in heads])
        calls = [line.split()[1:] for line in lines if line[0] == 'U']
        self.assertEqual(calls[1], '2 0 1 1 0 1 1 0 1 0 1 1'.split())
        for blocks, number, *rest in calls:
            right = ('0', 3 * int(blocks) + 4) if 2 <= int(blocks) <= 128 else ('1', 0)
            self.assertEqual((number, len(rest)), right)
        self.assertEqual(lines[:3], [
            'F 0 0 8 788', 'C 2008 8 53 235919',
            'I 0 11 10 65 88 65 32 70 82 49 49 88 80 65 82 3 1000000 100 69 85 82'])

    # 02, note 14: the values, and the calendars of two seeds.
    def test_made_up(self):
        lines = [line for line in self.lines('compare_rules') if line[0] in 'VZ']
        self.assertEqual(len(lines), 412)
        self.assertEqual(lines[0], 'V 0 1013904223')
        self.assertEqual(lines[1].split()[:9], ['Z', '0', '2000', '1', '0', '2000', '1', '1', '1'])
        self.assertIn('Z 59783 2000 1 0 2000 1 1 1 9 10 11 12 157 212 334', lines)
        self.assertIn('Z 7 2000 17 4 0 0 1 1', lines)

    # 02, note 13: the first lines, and a call whose three tables are rolled.
    def test_mornings(self):
        lines = self.lines('compare_rounds')
        self.assertEqual(lines[:5], ['J 5 0 1 5 0', 'J 7 0 2 5 7 0', 'J 9 0 3 5 7 9 0', 'J 2 0 4 5 7 9 2 0',
                                     'H 3 0 3 5 7 9 0 4 2 5 7 9 0'])
        at = lines.index('M 3 0 3 5 15 25 0 8 35 45 55 65 75 5 15 25 0')
        self.assertEqual([line.split()[:3] for line in lines[at + 1:at + 4]],
                         [['R', '5', '0'], ['R', '15', '0'], ['R', '25', '0']])


if __name__ == '__main__':
    unittest.main()
