"""Tests of the second program's texts, by answers written by hand, and that the
comparison with compose and decompose can fail: python3 -m tests.unit.lists"""

import os
import shlex
import shutil
import tempfile
import unittest

from tests import ROOT, command
from tests.compare import lists as compare_lists
from tests.inputs import cases, texts
from tests.second import generated, lists, master

SECOND = shlex.join(command('second.lists', '-S'))

# Stand-ins for compose and decompose, as shell scripts; {} is the second program.
RIGHT = 'exec {}'
WRONG_COMPOSE = {
    'a byte more': '{}; echo',
    'nothing': 'exit 0',
    'a status': '{}; exit 3',
    'another number': '{} 2>&1 >/dev/null | sed s/NO/BAD/ >&2',
    'the answer on standard output': '{} 2>&1',
    'no line': '{} 2>&1 >/dev/null | sed "s/ line.*//" >&2',
    'no id': '{} 2>&1 >/dev/null | sed "s/ AXA$//" >&2',
}
WRONG_DECOMPOSE = {
    'a line less': '{} | head -n -1',
    'another day': '{} | sed s/2008-03-21/2008-03-20/',
    'C for X': '{} | sed s/^X/C/',
    'whole shares alone': '{} | sed "s/[.][0-9]*//"',
    'the answer on standard error': '{} >&2',
}


class Texts(unittest.TestCase):

    def test_faults(self):
        for name, data, said in texts.faults():
            with self.subTest(name):
                self.assertEqual((b'', said), lists.compose(data))

    def test_other_forms(self):
        for name, data, printed in texts.other_forms():
            with self.subTest(name):
                file, said = lists.compose(data)
                self.assertEqual((printed, b''), (lists.decompose(file), said))

    def test_example(self):
        self.assertEqual((cases.example(), b''), lists.compose(texts.example()))
        self.assertEqual(texts.example(), lists.decompose(cases.example()))

    # 01's example: "With 2008–2010, only 21 March 2008 closed, and AXA [..]".
    def test_bytes(self):
        file, _ = lists.compose(texts.text(texts.COVER, texts.WEEK[4], texts.AXA))
        self.assertEqual(2048, len(file))
        self.assertEqual(bytes([1, 1, 0x07, 0xd8, 0, 0]), file[:6])
        self.assertEqual(bytes([2, 1, 0, 1, 0, 3]), file[1536:1542])
        self.assertEqual(b'AXA FR11XPAR\x01\x00\x64\x00\x64EUR' + bytes(12), file[1552:1584])
        self.assertEqual([16 + 80 // 8], [k for k in range(16, 108) if file[k]])
        self.assertEqual(0, master.file_refusal(file))

    # 02, note 11: "record bytes 20–21 hold 0 to 9,999"; 3,333 is hexadecimal 0d05.
    def test_bytes_of_a_size(self):
        file, said = lists.compose(texts.text(texts.COVER, texts.changed(5, b'33.3333')))
        self.assertEqual(b'', said)
        self.assertEqual(b'AXA FR11XPAR\x01\x00\x21\x00\x64EUR\x0d\x05' + bytes(10), file[1552:1584])
        self.assertEqual(texts.text(texts.COVER, texts.changed(5, b'33.3333')), lists.decompose(file))

    # 02, note 7: the files with most records.
    def test_most(self):
        for cover, count in ((b'Y 2008 1', 1905), (b'Y 2000 16', 1680)):
            file, said = lists.compose(texts.text(cover, *texts.many(count)))
            self.assertEqual((65536, b''), (len(file), said))

    # 02, note 14: the file of a seed is the one that its calendar's own text gives.
    def test_seeds(self):
        for seed, first, years in ((1, 2008, 3), (26355, 2000, 1), (8256, 2000, 14), (4294967295, 2084, 16)):
            _, calendar = generated.make(seed, first, years)
            self.assertTrue(calendar.closed)
            days = [lists.day_line(b'C', day)[:-1] for day in calendar.closed]
            file, said = lists.compose(texts.text(b'S %d %d %d' % (seed, first, years), texts.AXA))
            self.assertEqual((file, said), lists.compose(texts.text(b'Y %d %d' % (first, years), *days, texts.AXA)))
            self.assertEqual((b'', 0), (said, master.file_refusal(file)))

    # The made texts have faults and have none, with a seed and without one.
    def test_made(self):
        answers = {(data[:1], lists.compose(data)[1][:3]) for data in texts.made(1, 120)}
        self.assertLessEqual({(letter, said) for letter in (b'Y', b'S') for said in (b'', b'BAD', b'NO ')}, answers)


class Compare(unittest.TestCase):

    # The programs in a folder, as scripts.
    def programs(self, compose=RIGHT, decompose=RIGHT):
        folder = tempfile.TemporaryDirectory()
        self.addCleanup(folder.cleanup)
        for name, script in (('compose', compose), ('decompose', decompose)):
            path = os.path.join(folder.name, name)
            with open(path, 'w') as out:
                out.write('#!/bin/sh\n' + script.format(f'{SECOND} {name}') + '\n')
            os.chmod(path, 0o755)
        os.chdir(folder.name)
        self.addCleanup(os.chdir, ROOT)
        return compare_lists.Programs(folder.name)

    # A refused text, and a file with closed days of both kinds that is given back.
    def run_both(self, programs):
        programs.text('no product', texts.text(texts.COVER))
        programs.text('7', texts.text(texts.COVER, texts.changed(7, b'JPY')))
        return programs.file('X and C', lists.compose(
            texts.text(texts.COVER, texts.WEEK[4], b'X 2008-03-24', texts.changed(5, b'100.0001')))[0])

    def test_right(self):
        self.assertEqual(1, self.run_both(self.programs()))

    def test_wrong(self):
        for way, scripts in (('compose', WRONG_COMPOSE), ('decompose', WRONG_DECOMPOSE)):
            for name, script in scripts.items():
                with self.subTest(f'{way}: {name}'), self.assertRaises(compare_lists.Difference) as found:
                    self.run_both(self.programs(**{way: script}))
                shutil.rmtree(os.path.dirname(str(found.exception).rsplit(' ', 1)[1]))

    # Blocks that are not full are not given back, and not asked for.
    def test_full(self):
        self.assertTrue(compare_lists.is_full(cases.example()))
        self.assertFalse(compare_lists.is_full(cases.six()))


if __name__ == '__main__':
    unittest.main()
