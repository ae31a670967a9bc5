"""Loading a master file one block at a time (02, note 8), in two ways: one keeps the
blocks and loads them whole at the end, which is what the note says the result is;
the other carries a few values from block to block.

A state is an object with take(block) and finish(). The program gateway:
python3 -m tests.second.intake NUMBER < master.bin
"""

import sys
from collections.abc import Callable, Iterator
from dataclasses import dataclass, replace
from functools import lru_cache

from tests.second import dates, master, trading

BLOCKS_AT_LEAST = 2
BLOCKS_AT_MOST = 128
WEEK = 7

# (refusal, years, records)
Result = tuple[int, int, int]


# 02, note 8: "An announced number outside 2 to 128 gets 1 before any block": (refusal,
# state), the state being None with a refusal.
def announce(blocks: int, way: 'Callable[[int], State]') -> 'tuple[int, State | None]':
    if not BLOCKS_AT_LEAST <= blocks <= BLOCKS_AT_MOST:
        return 1, None
    return 0, way(blocks)


# "the number of blocks said beforehand"; what is carried is the way's own. "So does a
# block that isn't 512 bytes or is one too many, and a final call made too early; the
# state is then as before."
@dataclass(frozen=True)
class State:
    announced: int
    taken: int = 0

    # (refusal, state)
    def take(self, block: bytes) -> 'tuple[int, State]':
        if len(block) != master.BLOCK or self.taken == self.announced:
            return 1, self
        return 0, replace(self.with_block(block), taken=self.taken + 1)

    def finish(self) -> Result:
        return self.result() if self.taken == self.announced else (1, 0, 0)

    # What each way does with a block, and its result after the last one.
    def with_block(self, block: bytes) -> 'State':
        raise NotImplementedError

    def result(self) -> Result:
        raise NotImplementedError


# Keeps the blocks: "it is the result of the whole-file load".
@dataclass(frozen=True)
class Whole(State):
    file: bytes = b''

    def with_block(self, block: bytes) -> State:
        return replace(self, file=self.file + block)

    def result(self) -> Result:
        return master.load(self.file)


# Carries values: the lowest refusal so far, the year that a next calendar block must
# have (None before the first block and after a product block), the last days of the
# calendar blocks as a text of '+' for a trading day and '-' for another, six at most,
# the greatest id and the counts.
@dataclass(frozen=True)
class Carried(State):
    lowest: int = 0
    next_year: int | None = None
    days: str = ''
    last_id: bytes = b''
    years: int = 0
    records: int = 0

    def with_block(self, block: bytes) -> State:
        refusals = [number for number, is_right in self.questions(block) if not is_right]
        lowest = min([number for number in (self.lowest, *refusals) if number], default=0)
        if block[0] == master.CALENDAR:
            return replace(self, lowest=lowest, next_year=master.number_of(block) + 1,
                           days=(self.days + days_of(block))[1 - WEEK:], years=self.years + 1)
        ids = ids_of(block)
        return replace(self, lowest=lowest, next_year=None, last_id=ids[-1] if ids else self.last_id,
                       records=self.records + len(ids))

    def result(self) -> Result:
        return (self.lowest, 0, 0) if self.lowest else (0, self.years, self.records)

    # The answers of a block to the questions that are asked "each over the whole file".
    def questions(self, block: bytes) -> Iterator[tuple[int, bool]]:
        yield 2, int.from_bytes(block[master.CHECK:], 'big') == master.check_of(block)
        yield 3, master.header_is_right(block, self.taken)
        yield 4, self.is_in_order(block)
        if block[0] == master.CALENDAR:
            yield 5, master.calendar_block_is_clean(block)
            yield 6, '-' * WEEK not in self.days + days_of(block)
        if block[0] == master.PRODUCTS:
            yield 7, records_are_right(block)
            yield 8, rises([self.last_id, *ids_of(block)])

    # 01, question 4, of the next block: calendar blocks "of consecutive rising years come
    # first", at most 16 of them, and the last block is a product block.
    def is_in_order(self, block: bytes) -> bool:
        if block[0] != master.CALENDAR:
            return self.taken > 0 and block[0] == master.PRODUCTS
        return (self.taken < trading.YEARS_AT_MOST and self.taken + 1 < self.announced
                and (self.taken == 0 or self.next_year == master.number_of(block)))


# The days of a calendar block's year as a text; none where it is no year of 2000-2099.
# Texts are kept, as files that differ in other blocks are taken one after the other.
@lru_cache(maxsize=256)
def days_of(block: bytes) -> str:
    year = master.number_of(block)
    if not dates.FIRST_YEAR <= year <= dates.LAST_YEAR:
        return ''
    calendar = trading.Calendar.from_maps(year, 1, block[master.HEADER:master.MAP_END])
    days = range(trading.first_day(calendar), trading.last_day(calendar) + 1)
    return ''.join('+' if trading.is_trading_day(calendar, day) else '-' for day in days)


# The used records of a block; a block has places for 15.
def records_of(block: bytes) -> list[bytes]:
    if block[0] != master.PRODUCTS:
        return []
    return [master.record_at(block, k) for k in range(min(master.number_of(block), master.RECORDS_AT_MOST))]


def ids_of(block: bytes) -> list[bytes]:
    return [record[:4] for record in records_of(block)]


# 01, question 7, of one block.
def records_are_right(block: bytes) -> bool:
    records = records_of(block)
    return (all(map(master.record_is_right, records))
            and not any(block[master.HEADER + master.RECORD * len(records):master.CHECK]))


def rises(ids: list[bytes]) -> bool:
    return all(one < next_one for one, next_one in zip(ids, ids[1:]))


# A file announced with a number of blocks and handed over in parts of 512 bytes: the
# result, or the refusal of the first call that is refused.
def load(file: bytes, blocks: int, way: Callable[[int], State] = Carried) -> Result:
    number, state = announce(blocks, way)
    if state is None:
        return number, 0, 0
    for block in master.blocks_of(file):
        number, state = state.take(block)
        if number:
            return number, 0, 0
    return state.finish()


# What the program gateway prints for its arguments and its standard input. The number
# is one argument of 1 to 8 digits; anything else is no number of blocks.
def answer(arguments: list[str], data: bytes) -> str:
    said = arguments[0] if len(arguments) == 1 else ''
    blocks = int(said) if said.isascii() and said.isdigit() and len(said) <= 8 else 0
    number, years, records = load(data, blocks)
    return f'NO {number}\n' if number else f'OK {years} {records}\n'


if __name__ == '__main__':
    sys.stdout.write(answer(sys.argv[1:], sys.stdin.buffer.read()))
