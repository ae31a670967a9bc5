"""The book of demand 3 (01, "The table"; 02, notes 2, 3, 9 and 11). It knows nothing
of table.py."""

from tests.second import listing, product, trading


# 01, The table: "It holds a calendar, a date, maturities (month, day, number),
# the count given and the months that left." A maturity also has the days stepped
# back: (key, day, days back, number). 02, note 3: "demand 3 and its book read with
# Fridays for months"; the key is the month or the Friday.
class Book:

    # 01, The table: "fed the opened product's kind and group, the file's
    # calendar and the opening's date"; "It starts with the fresh listing,
    # numbered 1, 2, .. by rising month; given is its length, and no month has
    # left." 02, note 11: "fed the opened product's size too".
    def __init__(self, kind: int, group: bytes, size: int, calendar: trading.Calendar, date: int) -> None:
        self.kind = kind
        self.group = group
        self.size = size
        self.calendar = calendar
        self.date = date
        fresh = listing.fresh_listing(calendar, group, kind, date)
        self.maturities = [(key, day, back, place + 1)
                           for place, (key, day, back) in enumerate(fresh)]
        self.given = len(fresh)
        self.left: list[int] = []

    # 01, question 16, "asked with the date and calendar that the call would
    # leave".
    def _fits(self, calendar: trading.Calendar, date: int) -> bool:
        return listing.listing_in_cover(calendar, self.group, self.kind, date)

    # 01, The table: "The fresh listing then replaces the old. A month in both
    # keeps its number; a new one has entered and takes the next number after
    # given, by rising month; given grows by the entered. A month only in the
    # old one joins those that left." The accepted call's answer: (0, entered,
    # left).
    def _accept(self, calendar: trading.Calendar, date: int) -> tuple[int, int, int]:
        fresh = {key: (day, back) for key, day, back
                 in listing.fresh_listing(calendar, self.group, self.kind, date)}
        numbers = {key: number for key, _, _, number in self.maturities}
        entered = sorted(fresh.keys() - numbers.keys())
        left = sorted(numbers.keys() - fresh.keys())
        for place, key in enumerate(entered):
            numbers[key] = self.given + 1 + place
        self.calendar = calendar
        self.date = date
        self.maturities = [(key, *fresh[key], numbers[key]) for key in sorted(fresh)]
        self.given += len(entered)
        self.left += left
        return 0, len(entered), len(left)

    # 01, The table: "A roll or close asks the book its questions except 10 [..]
    # At a no, the book stays as it is and answers that question's number,
    # counts 0 and 0." Roll: 11, 12, 16; "roll sets the date".
    def roll(self, date: int) -> tuple[int, int, int]:
        if not trading.in_cover(self.calendar, date):
            return 11, 0, 0
        if date < self.date:
            return 12, 0, 0
        if not self._fits(self.calendar, date):
            return 16, 0, 0
        return self._accept(self.calendar, date)

    # The same for close: 11, 13 to 16; "close marks the day closed".
    def close(self, day: int) -> tuple[int, int, int]:
        if not trading.in_cover(self.calendar, day):
            return 11, 0, 0
        if not day > self.date:
            return 13, 0, 0
        if not trading.is_trading_day(self.calendar, day):
            return 14, 0, 0
        if not trading.every_week_trades_without(self.calendar, day):
            return 15, 0, 0
        closed = trading.close_day(self.calendar, day)
        if not self._fits(closed, self.date):
            return 16, 0, 0
        return self._accept(closed, self.date)

    # 02, note 9: "the book takes a reopening like a close, with its own questions
    # except 10 and the day cleared in both maps": 11, 13, 26, 27.
    def reopen(self, day: int) -> tuple[int, int, int]:
        if not trading.in_cover(self.calendar, day):
            return 11, 0, 0
        if not day > self.date:
            return 13, 0, 0
        if not trading.is_closed_weekday(self.calendar, day):
            return 26, 0, 0
        reopened = trading.reopen_day(self.calendar, day)
        if not listing.front_stays(self.calendar, reopened, self.group, self.kind, self.date):
            return 27, 0, 0
        return self._accept(reopened, self.date)

    # 02, note 11: the book "answers a measure as this note says, 10 left out, and changes
    # only its size": (number, price). No month enters or leaves.
    def measure(self, p: int, q: int, price: int) -> tuple[int, int]:
        number, self.size, adjusted = product.measured(self.kind, self.size, p, q, price)
        return number, adjusted
