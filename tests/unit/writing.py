"""Tests of writing a master file."""

import contextlib
import io
import os
import tempfile
import unittest
from dataclasses import replace

from tests import ROOT
from tests.inputs import cases, writings
from tests.second import master, writing
from tests.second.trading import Calendar


class Writings(unittest.TestCase):

    # The number and the length of a draft from 2008 on that is written into a
    # buffer of some bytes.
    def answer(self, first_year, years, count, room=writings.BUFFER):
        calendar = Calendar(2008, 1, frozenset())
        one = replace(writing.draft_of(calendar, cases.many_products(count) if count else []),
                      first_year=first_year, years=years)
        return writing.write(one, writings.buffer_before(room))[:2]

    # Worked by hand: blocks of 512 bytes, one for each year and one for 15 records.
    def test_lengths(self):
        for first_year, years, count, room, expected in (
                (2008, 3, 1, 2048, (0, 2048)), (2008, 3, 1, 2047, (25, 0)),
                (2008, 3, 15, 66048, (0, 2048)), (2008, 3, 16, 66048, (0, 2560)),
                (2008, 3, 30, 66048, (0, 2560)), (2008, 3, 31, 66048, (0, 3072)),
                (2000, 16, 1680, 65536, (0, 65536)), (2000, 16, 1681, 66048, (25, 0)),
                (2000, 1, 1905, 65536, (0, 65536)), (2000, 1, 1906, 66048, (25, 0)),
                (2090, 16, 1, 66048, (3, 0)), (2090, 17, 1, 66048, (3, 0)),
                (2000, 17, 1, 66048, (4, 0)), (2008, 3, 0, 66048, (4, 0)),
                (1999, 0, 1, 66048, (4, 0)), (1999, 1, 0, 66048, (3, 0))):
            with self.subTest(first_year=first_year, years=years, count=count, room=room):
                self.assertEqual(self.answer(first_year, years, count, room), expected)

    def test_names_say_the_refusal(self):
        for name, one, room in writings.drafts():
            with self.subTest(name=name):
                self.assertEqual(writing.refusal_of(one, room), writings.refusal_of(name))

    # "Input whose file questions 3 to 8 would refuse [..] gets that number": the
    # judge of files says the same of the file, where its numbers fit two bytes and
    # its list ends with a record.
    def test_as_the_file_is_judged(self):
        judged = 0
        for name, one, room in writings.drafts():
            if one.first_year + one.years > 65535 or len(one.records) % master.RECORD:
                continue
            file = writing.file_of(one)
            number = next((number for number, question in master.FILE_QUESTIONS[2:]
                           if not question(file)), 0)
            with self.subTest(name=name):
                expected = writing.refusal_of(one, 10 ** 9)
                self.assertEqual(number, 0 if expected == 25 else expected)
            judged += 1
        self.assertGreater(judged, 90)

    # "The file holds what was handed in, and loading it gives the counts"; "Bytes
    # after the file's end in the buffer remain. [..] No refusal writes anything."
    def test_written(self):
        for name, one, room in writings.drafts():
            before = writings.buffer_before(room)
            number, length, after = writing.write(one, before)
            with self.subTest(name=name):
                self.assertEqual(after[length:], before[length:])
                if number == 0:
                    self.assertEqual(master.load(after[:length]), (0, one.years, len(one.records) // 32))
                    again = writing.draft_from(after[:length])
                    self.assertEqual(again.records, one.records)
                    self.assertEqual(writing.maps_of(again), writing.maps_of(one))

    # The example of examples/ from its two lists.
    def test_example(self):
        with open(os.path.join(cases.DATA, 'closures-2000-2099.csv')) as lines:
            calendar = master.calendar_from_csv(lines, 2008, 8)
        with open(os.path.join(cases.DATA, 'products-2008.csv')) as lines:
            one = writing.draft_of(calendar, master.products_from_csv(lines))
        with open(os.path.join(ROOT, 'examples', 'master.bin'), 'rb') as file:
            self.assertEqual(writing.write(one, b'')[:2], (25, 0))
            self.assertEqual(writing.file_of(one), file.read())

    # "Writing out what an accepted file holds gives that same file wherever all its
    # product blocks but the last are full."
    def test_written_again(self):
        for name, file in writings.files():
            counts = [master.number_of(block)
                      for block in master.blocks_of_kind(file, master.PRODUCTS)]
            number, length, after = writing.write(writing.draft_from(file), bytes(65536))
            with self.subTest(name=name):
                self.assertEqual(number, 0)
                full = all(count == 15 for count in counts[:-1])
                self.assertEqual(after[:length] == file, full)

    def test_stored(self):
        with tempfile.TemporaryDirectory() as folder:
            self.assertEqual(writings.main(['--write', folder]), 0)
            self.assertEqual(writings.main(['--check', folder]), 0)
            with open(os.path.join(folder, 'drafts'), 'ab') as file:
                file.write(b'x')
            with contextlib.redirect_stdout(io.StringIO()) as said:
                self.assertEqual(writings.main(['--check', folder]), 1)
            self.assertIn('drafts is not what tests/inputs/writings.py writes', said.getvalue())


if __name__ == '__main__':
    unittest.main()
