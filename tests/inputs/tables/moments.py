"""Calls that fit the moment of a history: the dates, days, months and prices that
decide between answers (01, "Questions"; 02, notes 3, 9 and 11)."""

from tests.second import dates, listing, product, trading


# A date to roll to: equal, a little later, at and after the front month's last
# trading day, earlier, near the cover's end, outside the cover.
def some_date(numbers, book):
    front = book.maturities[0][1]
    end = trading.last_day(book.calendar)
    return numbers.one_of((
        book.date, book.date + 1, book.date + numbers.below(12), front, front, front + 1,
        front + 1 + numbers.below(40), max(0, book.date - 1 - numbers.below(40)),
        end - numbers.below(20), end + 1 + numbers.below(400),
        max(0, trading.first_day(book.calendar) - 1 - numbers.below(400)),
    ))


# A day to close: a last trading day or the day before, one soon after the date,
# a Saturday, a day already closed, one not after the date, one outside the cover.
def some_day(numbers, book):
    _, last, _, _ = numbers.one_of(book.maturities)
    front = book.maturities[0][1]
    soon = book.date + 1 + numbers.below(60)
    return numbers.one_of((
        front, front - 1, front, last, last - 1, soon, soon, soon - dates.weekday(soon) + 5,
        numbers.one_of(sorted(book.calendar.closed) or [soon]), book.date - numbers.below(3),
        trading.last_day(book.calendar) + 1 + numbers.below(400),
        max(0, trading.first_day(book.calendar) - 1 - numbers.below(400)),
    ))


# 01, Where loaders go astray: "Keeping a front month whose day a closure has
# just moved before the date." The trading day before the front month's last one
# is closed, the date rolls to the day before the last one, and the last one is
# closed too.
def push_calls(book):
    last = book.maturities[0][1]
    before = trading.latest_trading_day(book.calendar, last - 1)
    earlier = trading.latest_trading_day(book.calendar, (before or last) - 1)
    if earlier is None:
        return [('C', last)]
    return [('R', earlier), ('C', before), ('R', last - 1), ('C', last)]


# The closed days after a date, or the day itself where there are none.
def closed_after(calendar, date):
    return sorted(day for day in calendar.closed if day > date) or [date]


# 02, note 9. A day to reopen: one of the next closed days, one of the days from a last
# trading day to its anchor, a day of the second map, a closed day, a last trading day,
# a Saturday, a day not after the date, one outside the cover.
def some_closed_day(numbers, book):
    after = closed_after(book.calendar, book.date)
    _, last, back, _ = numbers.one_of(book.maturities)
    soon = book.date + 1 + numbers.below(60)
    marked = [day for day in after if day in book.calendar.exchange] or after
    return numbers.one_of((
        after[0], after[0], numbers.one_of(after[:6]), last + back, last + min(back, 1), numbers.one_of(marked),
        numbers.one_of(after), last, soon - dates.weekday(soon) + 5, book.date - numbers.below(3),
        trading.last_day(book.calendar) + 1 + numbers.below(400),
        max(0, trading.first_day(book.calendar) - 1 - numbers.below(400)),
    ))


# 02, note 9, question 27: the front month or Friday pushed out, then the day that did
# it reopened, which would bring it back.
def push_and_reopen_calls(book):
    calls = push_calls(book)
    return [*calls, ('E', calls[-1][1])]


# A last trading day closed and reopened.
def close_and_reopen_calls(numbers, book):
    _, last, _, _ = numbers.one_of(book.maturities)
    return [('C', last), ('E', last)]


# Rolls, closes and reopenings.
def some_calls_and_reopenings(numbers, book):
    choice = numbers.below(10)
    if choice == 0:
        return push_and_reopen_calls(book)
    if choice == 1:
        return close_and_reopen_calls(numbers, book)
    if choice < 6:
        return [('E', some_closed_day(numbers, book))]
    return some_calls(numbers, book)


# A roll, a close, or calls that push the front month out.
def some_calls(numbers, book):
    choice = numbers.below(6)
    if choice == 0:
        return push_calls(book)
    if choice < 3:
        return [('R', some_date(numbers, book))]
    return [('C', some_day(numbers, book))]


# 02, note 11. A measure p for q: a small ratio, the largest and the smallest, one that
# 28 refuses; a price that is usual, at the ends of its range, or refused by 19.
RATIOS = ((1, 1), (2, 1), (1, 2), (3, 2), (2, 3), (1, 3), (10, 1), (1, 10), (7, 11), (1000, 999), (999, 1000),
          (1, 1000), (1000, 1), (0, 1), (1, 0), (1001, 1), (1, 1001))


def some_measure(numbers):
    p, q = numbers.one_of(RATIOS)
    price = numbers.one_of((1 + numbers.below(2000000), 1 + numbers.below(2000000), 123400, 1, 7, 999999999, 0,
                            1000000000, 4294967295))
    return 'Z', p, q, price


# Measures between rolls, closes and reopenings.
def some_calls_and_measures(numbers, book):
    if numbers.below(2) == 0:
        return [some_measure(numbers)]
    return some_calls_and_reopenings(numbers, book)


PRICES = (0, 1, 5, 6, 100, 123400, 123456, 999999900, 999999999, 1000000000, 4294967295)
FINALS = (0, 1, 125000, 999999999, 1000000000, 4294967295)
CONTRACTS = (0, 1, 3, 100000, 100001, 4294967295)


# A month for the call of a listed month: listed, just before and after the listing,
# between two listed ones, out of range. Of a weekly option a day: a listed Friday,
# the days and Fridays around it, its month's third Friday, its month's number.
def some_key(numbers, book):
    key, _, _, _ = numbers.one_of(book.maturities)
    if product.is_weekly(book.kind):
        month = dates.month_of(key)
        return numbers.one_of((key, key, key - 1, key + 1, key - 7, key + 7, listing.third_friday(month),
                               month, 65535))
    return numbers.one_of((key, key, max(0, key - 1), key + 1, 1200, 65535))


# A day for the due day: near the date, a last trading day, near the cover's
# end, outside the cover.
def some_due_day(numbers, book):
    _, last, _, _ = numbers.one_of(book.maturities)
    end = trading.last_day(book.calendar)
    return numbers.one_of((last, last, book.date + numbers.below(9), end - numbers.below(6),
                           end - numbers.below(6), end + 1 + numbers.below(400)))


# One of the calls that give values.
def some_value(script, numbers):
    choice = numbers.below(4)
    if choice == 0:
        script.last_trading_day(some_key(numbers, script.book))
    elif choice == 1:
        script.due(some_due_day(numbers, script.book))
    elif choice == 2:
        script.tick(numbers.one_of(PRICES))
    else:
        script.cash(numbers.one_of(CONTRACTS), numbers.one_of(PRICES), numbers.one_of(FINALS))
