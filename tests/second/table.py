"""The table of listed maturities and its calls (01, "The table", "Questions";
02, notes 2 to 5, 9 and 11).

Every call answers first the number of the question that refused it, or 0.
"""

from dataclasses import dataclass, replace

from tests.second import listing, master, product, trading
from tests.second.product import NO_PRODUCT, Product
from tests.second.trading import Calendar

PLACES = 15
UNUSED = (0, 0, 0, 0)

# A place: key, day, days back, number.
Place = tuple[int, int, int, int]


# 01, The table: "It holds the product's fields, the calendar, the date, up to
# 15 maturities by rising month (month, last trading day, listing number; unused
# places zero) and the count of numbers given." 02, note 2: "The table keeps [the
# days stepped back] for each maturity". A place: key, day, days back, number; the
# key is the month or, of a weekly option, the Friday.
@dataclass(frozen=True)
class Table:
    product: Product
    calendar: Calendar
    date: int
    places: tuple[Place, ...]
    given: int


# What a call answers: the number of its refusal, the table, entered, left.
Answer = tuple[int, Table, int, int]

# 01, Questions: "open: a table of zeros".
ZERO_TABLE = Table(NO_PRODUCT, Calendar(0, 0, frozenset()), 0, (UNUSED,) * PLACES, 0)


# The used places of a table.
def maturities(table: Table) -> list[Place]:
    return [place for place in table.places if place != UNUSED]


# The fresh listing of a table's product for its calendar and date.
def fresh_listing(table: Table) -> tuple[listing.Fresh, ...]:
    return listing.fresh_listing(table.calendar, table.product.group,
                                 table.product.kind, table.date)


# 01, question 16, for a table's product, calendar and date.
def listing_in_cover(table: Table) -> bool:
    return listing.listing_in_cover(table.calendar, table.product.group,
                                    table.product.kind, table.date)


# 01, The table: "Both then hold the fresh listing; a month that was there keeps
# its number, and months that enter take the next numbers by rising month. A
# month left if the old table had it and the new has not." The same with Fridays of
# weekly tables. The table comes with its new calendar and date and its old
# maturities. (table, entered, left).
def relist(table: Table) -> tuple[Table, int, int]:
    old = {key: number for key, _, _, number in maturities(table)}
    fresh = fresh_listing(table)
    given = table.given
    places = []
    for key, day, back in fresh:
        if key in old:
            places.append((key, day, back, old[key]))
        else:
            given += 1
            places.append((key, day, back, given))
    left = len(set(old) - {key for key, _, _ in fresh})
    entered = given - table.given
    places += [UNUSED] * (PLACES - len(places))
    return replace(table, places=tuple(places), given=given), entered, left


# ---- Soundness ----

# 01, The table: "its product fields and calendar satisfy questions 5, 6 and 7,
# with 1 to 16 years from 2000 to 2099".
def fields_are_sound(table: Table) -> bool:
    calendar = table.calendar
    return (trading.cover_fits(calendar)
            and trading.is_clean(calendar)
            and trading.every_week_trades(calendar)
            and product.fields_are_right(table.product))


# 01, The table: "its months and days are the fresh listing, all of it in the
# cover, and unused places are zero"; of the days stepped back, 02, note 2: "a
# sound table has it right".
def places_are_sound(table: Table) -> bool:
    fresh = fresh_listing(table)
    used = tuple((key, day, back) for key, day, back, _ in table.places[:len(fresh)])
    unused = table.places[len(fresh):]
    return (len(table.places) == PLACES and listing_in_cover(table)
            and used == fresh and all(place == UNUSED for place in unused))


# 01, The table: "its numbers are distinct, from 1 to the count given; and given
# − listed is at least 0 and at most the number of cover months before the front
# month", or of weekly Fridays before the front one (02, note 3).
def numbers_are_sound(table: Table) -> bool:
    fresh = fresh_listing(table)
    numbers = [number for _, _, _, number in table.places[:len(fresh)]]
    before = listing.keys_before(table.calendar, table.product.kind, fresh[0][0])
    return (len(set(numbers)) == len(numbers)
            and all(1 <= number <= table.given for number in numbers)
            and 0 <= table.given - len(fresh) <= before)


# 01, question 10: "Is the table sound?" 02, note 3: "and the date passes 24".
def is_sound(table: Table) -> bool:
    return (fields_are_sound(table)
            and trading.in_cover(table.calendar, table.date)
            and listing.passes_24(table.calendar, table.product.kind, table.date)
            and places_are_sound(table)
            and numbers_are_sound(table))


# ---- Calls that give the table back: (number, table, entered, left) ----

# 01, Questions: "Open: 1–9, 11, 16." "Open numbers the listed months 1, 2, ..
# by rising month; entered is the months listed and left is 0." 02, note 3: "24,
# after 11, in opening kind 5".
def open_table(file: bytes, code: bytes, date: int) -> Answer:
    number, calendar, item = master.find(file, code)
    if calendar is None or item is None:
        return number, ZERO_TABLE, 0, 0
    if not trading.in_cover(calendar, date):
        return 11, ZERO_TABLE, 0, 0
    if not listing.passes_24(calendar, item.kind, date):
        return 24, ZERO_TABLE, 0, 0
    empty = Table(item, calendar, date, (UNUSED,) * PLACES, 0)
    if not listing_in_cover(empty):
        return 16, ZERO_TABLE, 0, 0
    return (0, *relist(empty))


# 01, Questions: "Roll: 10, 11, 12, 16." "Roll sets the date it is given, a
# later or equal one."
def roll(table: Table, date: int) -> Answer:
    if not is_sound(table):
        return 10, table, 0, 0
    if not trading.in_cover(table.calendar, date):
        return 11, table, 0, 0
    if date < table.date:
        return 12, table, 0, 0
    moved = replace(table, date=date)
    if not listing_in_cover(moved):
        return 16, table, 0, 0
    return (0, *relist(moved))


# 01, Questions: "Close: 10, 11, 13–16." "Close marks one day closed."
def close(table: Table, day: int) -> Answer:
    if not is_sound(table):
        return 10, table, 0, 0
    if not trading.in_cover(table.calendar, day):
        return 11, table, 0, 0
    if day <= table.date:
        return 13, table, 0, 0
    if not trading.is_trading_day(table.calendar, day):
        return 14, table, 0, 0
    if not trading.every_week_trades_without(table.calendar, day):
        return 15, table, 0, 0
    closed = replace(table, calendar=trading.close_day(table.calendar, day))
    if not listing_in_cover(closed):
        return 16, table, 0, 0
    return (0, *relist(closed))


# 02, note 9: "It asks 10, 11, 13, then the new questions", 26 and 27, "and clears the
# day in both maps."
def reopen(table: Table, day: int) -> Answer:
    if not is_sound(table):
        return 10, table, 0, 0
    if not trading.in_cover(table.calendar, day):
        return 11, table, 0, 0
    if day <= table.date:
        return 13, table, 0, 0
    if not trading.is_closed_weekday(table.calendar, day):
        return 26, table, 0, 0
    calendar = trading.reopen_day(table.calendar, day)
    if not listing.front_stays(table.calendar, calendar, table.product.group, table.product.kind, table.date):
        return 27, table, 0, 0
    return (0, *relist(replace(table, calendar=calendar)))


# 02, note 11, a measure, p for q: 10, 19, 21, 28, 29. "A measure changes no month, day or
# number". (number, table, price).
def measure(table: Table, p: int, q: int, price: int) -> tuple[int, Table, int]:
    if not is_sound(table):
        return 10, table, 0
    item = table.product
    number, size, adjusted = product.measured(item.kind, item.size, p, q, price)
    return number, replace(table, product=replace(item, size=size)), adjusted


# ---- Calls that give values ----

# 01, Questions: "Last trading day of a listed month: 10, 18."; 02, note 2: with
# the days stepped back; note 3: "16 and 18 read with Fridays". (number, day, days
# back).
def last_trading_day(table: Table, key: int) -> tuple[int, int, int]:
    if not is_sound(table):
        return 10, 0, 0
    for listed, day, back, _ in maturities(table):
        if listed == key:
            return 0, day, back
    return 18, 0, 0


# 01, Questions: "Due: 10, 11, 14, 17." "Due day: the n-th trading day after a
# given trading day." 02, note 4: "Due days count trading days and these days";
# "question 17 reads with exchange days". 02, note 5: "Due now counts from any day in
# the cover"; "due no longer gives 14". (number, day).
def due(table: Table, day: int) -> tuple[int, int]:
    if not is_sound(table):
        return 10, 0
    if not trading.in_cover(table.calendar, day):
        return 11, 0
    n = product.days_to_settlement(table.product)
    due_day = trading.nth_exchange_day_after(table.calendar, day, n)
    if due_day is None:
        return 17, 0
    return 0, due_day


# 01, Questions: "Tick: 10, 19, 20." The number alone.
def tick(table: Table, price: int) -> int:
    if not is_sound(table):
        return 10
    if not product.price_in_range(price):
        return 19
    if not product.is_multiple_of_tick(table.product, price):
        return 20
    return 0


# 01, Questions: "Cash: 10, 19–22." 02, note 11: (number, negative, amount in 1/10,000 of
# the currency, rest in 1/100,000,000).
def cash(table: Table, contracts: int, agreed: int, final: int) -> tuple[int, bool, int, int]:
    number = tick(table, agreed)
    if number:
        return number, False, 0, 0
    if not product.is_future(table.product.kind):
        return 21, False, 0, 0
    if not product.final_and_contracts_in_range(final, contracts):
        return 22, False, 0, 0
    return 0, *product.cash_parts(table.product, contracts, final, agreed)
