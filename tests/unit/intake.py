"""Tests of loading a file one block at a time (02, note 8)."""

import unittest
from dataclasses import dataclass, replace
from unittest import mock

from tests.inputs import cases
from tests.inputs.products import item
from tests.second import dates, intake, master


# 02, note 8: loaders that go astray, each by one fault in what it carries.
class StopsAtTheFirstFault(intake.Carried):
    def with_block(self, block):
        return self if self.lowest else super().with_block(block)


class FirstFaultKept(intake.Carried):
    def with_block(self, block):
        after = super().with_block(block)
        return replace(after, lowest=self.lowest or after.lowest)


class LastFaultKept(intake.Carried):
    def with_block(self, block):
        after = intake.Carried.with_block(replace(self, lowest=0), block)
        return replace(after, lowest=after.lowest or self.lowest)


class DaysForgotten(intake.Carried):
    def with_block(self, block):
        return intake.Carried.with_block(replace(self, days=''), block)


class DaysBeforeTheCover(intake.Carried):
    def with_block(self, block):
        return intake.Carried.with_block(self if self.taken else replace(self, days='------'), block)


class FirstIdCarried(intake.Carried):
    def with_block(self, block):
        ids = intake.ids_of(block)
        return replace(super().with_block(block), last_id=ids[0] if ids else self.last_id)


class IdsOfOneBlock(intake.Carried):
    def with_block(self, block):
        return intake.Carried.with_block(replace(self, last_id=b''), block)


class CalendarLast(intake.Carried):
    def is_in_order(self, block):
        return intake.Carried.is_in_order(replace(self, announced=self.announced + 1), block)


class YearsRise(intake.Carried):
    def is_in_order(self, block):
        later = self.next_year is not None and self.next_year <= master.number_of(block)
        return intake.Carried.is_in_order(
            replace(self, next_year=master.number_of(block)) if later else self, block)


# Judges 4 by the number of the calendar blocks, the first year and the last.
@dataclass(frozen=True)
class YearsJudgedAtTheEnd(intake.Carried):
    first_year: int = 0
    last_year: int = 0

    def with_block(self, block):
        after, year = super().with_block(block), master.number_of(block)
        if block[0] != master.CALENDAR:
            return after
        return replace(after, last_year=year, first_year=self.first_year if self.taken else year)

    def is_in_order(self, block):
        return intake.Carried.is_in_order(
            replace(self, next_year=self.next_year and master.number_of(block)), block)

    def result(self):
        if self.lowest in (0, 5, 6, 7, 8) and self.last_year != self.first_year + self.years - 1:
            return 4, 0, 0
        return super().result()


ASTRAY = (StopsAtTheFirstFault, FirstFaultKept, LastFaultKept, DaysForgotten, DaysBeforeTheCover,
          FirstIdCarried, IdsOfOneBlock, CalendarLast, YearsRise, YearsJudgedAtTheEnd)

days_of = intake.days_of


# Texts of a year's days that go astray: a leap year of 365 days, any year of 366, and
# weekends that do not count.
def days_of_365(block):
    return days_of(block)[:365]


def days_of_366(block):
    days = days_of(block)
    return days + '+' if len(days) == 365 else days


def days_without_weekends(block):
    first = dates.first_day_of_year(master.number_of(block)) if days_of(block) else 0
    return ''.join(mark for n, mark in enumerate(days_of(block)) if dates.is_weekday(first + n))


class Intake(unittest.TestCase):

    # The files that a way of loading answers otherwise than the whole-file load.
    def differing(self, way):
        return (name for name, file in cases.cases()
                if intake.load(file, -(-len(file) // master.BLOCK), way) != master.load(file))

    def test_result_is_that_of_load(self):
        self.assertEqual(list(self.differing(intake.Whole)), [])
        self.assertEqual(list(self.differing(intake.Carried)), [])

    # Each way to go astray shows in a file of the test suite.
    def test_where_loaders_go_astray(self):
        for way in ASTRAY:
            self.assertTrue(any(self.differing(way)), way)
        for days in (days_of_365, days_of_366, days_without_weekends):
            with mock.patch.object(intake, 'days_of', days):
                self.assertTrue(any(self.differing(intake.Carried)), days)

    def test_announcements(self):
        for blocks in range(-1, 300):
            number, state = intake.announce(blocks, intake.Carried)
            self.assertEqual((number, state is None), (0, False) if 2 <= blocks <= 128 else (1, True))

    # "So does a block that isn't 512 bytes or is one too many, and a final call made too
    # early; the state is then as before."
    def test_refused_calls(self):
        blocks = master.blocks_of(cases.six())
        for way in (intake.Whole, intake.Carried):
            _, state = intake.announce(6, way)
            for block in blocks:
                for other in (b'', block[:1], block[:511], block + b'\0', block * 2):
                    self.assertEqual(state.take(other), (1, state))
                self.assertEqual(state.finish(), (1, 0, 0))
                number, state = state.take(block)
                self.assertEqual(number, 0)
            self.assertEqual(state.take(blocks[5]), (1, state))
            self.assertEqual(state.finish(), (0, 3, 6))

    # Announced 3 where there are 2: the final call gets 1, then the third block is taken.
    def test_one_block_more(self):
        two = master.blocks_of(cases.small())
        third = master.block_of(master.PRODUCTS, 1, 2, master.record_of(item(b'C')))
        _, state = intake.announce(3, intake.Carried)
        for block in two:
            _, state = state.take(block)
        self.assertEqual(state.finish(), (1, 0, 0))
        number, state = state.take(third)
        self.assertEqual((number, state.finish()), (0, (0, 1, 4)))


if __name__ == '__main__':
    unittest.main()
