"""What the programs of the proved side must print, worked out by the second
program: python3 -m tests.compare.expected NAME
"""

import sys
from dataclasses import replace

from tests.inputs import cases, histories, mornings, verdicts, writings
from tests.inputs.products import COUNTRIES, item
from tests.second import dates, generated, intake, listing, master, product, trading, writing
from tests.second.trading import Calendar

NO_DAY = 36525


# ---- dates ----

# For each month: its first day, that day's weekday and the month's length.
def month_lines():
    for month in range(dates.MONTHS):
        first = dates.first_day_of_month(month)
        length = dates.month_length(*dates.year_and_month(month))
        yield f'M {month} {first} {dates.weekday(first)} {length}'


# The call from date to day, on dates and on what is no date of 2000-2099.
def date_lines():
    for year in range(1996, 2104):
        for month in range(0, 14):
            for day in (0, 1, 28, 29, 30, 31, 32):
                number, value = dates.date_to_day(year, month, day)
                yield f'D {year} {month} {day} {number} {value}'


# The call from day to date, on day numbers and on numbers past the last one.
def day_lines():
    for day in [*range(0, 65536, 37), *range(36490, 36561)]:
        number, year, month, day_of_month = dates.day_to_date(day)
        yield f'N {day} {number} {year} {month} {day_of_month}'


# The section on dates: months, then dates, then day numbers.
def date_section():
    yield from month_lines()
    yield from date_lines()
    yield from day_lines()


# ---- calendars ----

COVERS = ((2000, 1), (2008, 3), (2015, 1), (2084, 16), (2099, 1))


# The four patterns: whether a day of the cover is closed if it is one of Monday
# to Friday. No closure.
def close_nothing(cover, day):
    return False


# Every eleventh day number.
def close_every_eleventh(cover, day):
    return day % 11 == 3


# Ten consecutive days of every year, a run without a trading day.
def close_a_run(cover, day):
    day_of_year = day - dates.first_day_of_year(dates.date_of(day)[0])
    return 70 <= day_of_year <= 79


# The first four and the last four days of the cover.
def close_the_edges(cover, day):
    return (day < trading.first_day(cover) + 4
            or day > trading.last_day(cover) - 4)


PATTERNS = (close_nothing, close_every_eleventh, close_a_run, close_the_edges)


# The calendars of the test: every cover with every pattern, the pattern in the
# inner loop.
def test_calendars():
    for first_year, years in COVERS:
        cover = Calendar(first_year, years, frozenset())
        days = range(trading.first_day(cover), trading.last_day(cover) + 1)
        for pattern in PATTERNS:
            closed = frozenset(day for day in days
                               if dates.is_weekday(day) and pattern(cover, day))
            yield Calendar(first_year, years, closed)


# One line on a day: in the cover, closed, trading day, the latest trading day at
# or before it (0 where there is none) and the days stepped back to it, the first
# and the third exchange day after it.
def trading_line(calendar, day):
    latest = trading.latest_trading_day(calendar, day) or 0
    first = trading.nth_exchange_day_after(calendar, day, 1)
    third = trading.nth_exchange_day_after(calendar, day, 3)
    return (f'T {day} {trading.in_cover(calendar, day):d}'
            f' {trading.is_closed(calendar, day):d}'
            f' {trading.is_trading_day(calendar, day):d}'
            f' {latest} {day - latest}'
            f' {NO_DAY if first is None else first}'
            f' {NO_DAY if third is None else third}')


# The line of a calendar: its cover, then whether that is valid and what questions
# 5 and 6 answer.
def calendar_line(index, calendar):
    return (f'K {index} {calendar.first_year} {calendar.years}'
            f' {trading.cover_fits(calendar):d} {trading.is_clean(calendar):d}'
            f' {trading.every_week_trades(calendar):d}')


# All lines of one calendar.
def calendar_lines(index, calendar):
    yield calendar_line(index, calendar)
    start = max(0, trading.first_day(calendar) - 10)
    end = trading.last_day(calendar) + 10
    trading_step, closing_step = (45, 63) if calendar.years == 16 else (5, 7)
    for day in range(start, end + 1, trading_step):
        yield trading_line(calendar, day)
    for day in range(start, end + 1, closing_step):
        yield f'X {day} {trading.every_week_trades_without(calendar, day):d}'


# The section on calendars: the lines of every test calendar in turn.
def calendar_section():
    for index, calendar in enumerate(test_calendars()):
        yield from calendar_lines(index, calendar)


# ---- second maps ----

SECOND_COVERS = ((2008, 3), (2084, 16))


# The two patterns of a second map: whether it has a day of the cover. Two of three
# closed days.
def second_of_closed(calendar, day):
    return trading.is_closed(calendar, day) and day % 3 != 1


# Every tenth day number, closed or not: question 5 answers no.
def second_of_any(calendar, day):
    return day % 10 == 4


# The calendars of the section: every cover with every pattern of closures and of
# the second map, the latter in the inner loop.
def second_map_calendars():
    for first_year, years in SECOND_COVERS:
        for pattern in PATTERNS:
            calendar = closed_by(first_year, years, pattern)
            days = range(trading.first_day(calendar), trading.last_day(calendar) + 1)
            for second in (second_of_closed, second_of_any):
                yield replace(calendar, exchange=frozenset(
                    day for day in days if second(calendar, day)))


# One line on a day: in the second map, exchange day, the first and the fourth
# exchange day after it.
def exchange_line(calendar, day):
    first = trading.nth_exchange_day_after(calendar, day, 1)
    fourth = trading.nth_exchange_day_after(calendar, day, 4)
    return (f'E {day} {trading.is_in_second_map(calendar, day):d}'
            f' {trading.is_exchange_day(calendar, day):d}'
            f' {NO_DAY if first is None else first}'
            f' {NO_DAY if fourth is None else fourth}')


# The section on second maps (02, note 4): the line of each calendar, then its days.
def second_map_section():
    for index, calendar in enumerate(second_map_calendars()):
        yield calendar_line(20 + index, calendar)
        start = max(0, trading.first_day(calendar) - 10)
        for day in range(start, trading.last_day(calendar) + 11, 37 if calendar.years == 16 else 5):
            yield exchange_line(calendar, day)


# ---- made-up calendars ----

# Seeds and covers: seeds that meet "unless that would leave a seven-day run without
# a trading day", long covers, and covers that are refused.
MADE_UP = ((26355, 2000, 1), (59783, 2000, 1), (8256, 2000, 14), (1, 2008, 3), (2**32 - 1, 2000, 16),
           (2**31, 2084, 16), (7, 2000, 0), (7, 2000, 17), (7, 1999, 1), (7, 2090, 11), (7, 2100, 1),
           (7, 65535, 65535))


# A seed and a cover; the refusal, the calendar's cover, what questions 5 and 6
# answer, and its closed days. A calendar of zeros has no day, and passes both.
def made_up_line(seed, first_year, years):
    number, calendar = generated.make(seed, first_year, years)
    answers = (1, 1) if number else (int(trading.is_clean(calendar)), int(trading.every_week_trades(calendar)))
    words = [seed, first_year, years, number, calendar.first_year, calendar.years, *answers,
             *sorted(calendar.closed)]
    return 'Z ' + ' '.join(str(word) for word in words)


# The section on made-up calendars (02, note 14): every year with two seeds, which
# lie 20,000,003 apart, then the covers.
def made_up_section():
    for index in range(200):
        seed = 20_000_003 * index
        yield f'V {seed} {generated.next_value(seed)}'
        yield made_up_line(seed, 2000 + index % 100, 1)
    for seed, first_year, years in MADE_UP:
        yield made_up_line(seed, first_year, years)


# ---- products ----

PRICES = (0, 1, 5, 6, 12345, 999999900, 999999999, 1000000000)
TICKS = (0, 1, 5, 10, 100)


# For each group: is it Italian, and the days to settlement of an option.
def group_lines():
    numbers = [b'%02d' % n for n in range(100)] + [b'1:', b' 1']
    for country in COUNTRIES:
        for digits in numbers:
            group = country + digits
            days = product.days_to_settlement(item(b'AXA', group=group))
            codes = ' '.join(str(byte) for byte in group)
            yield f'G {codes} {product.is_italian(group):d} {days}'


# Questions 19 and 20 of a price.
def price_lines():
    for price in PRICES:
        for tick in TICKS:
            multiple = tick > 0 and product.is_multiple_of_tick(item(b'AXA', tick=tick), price)
            yield f'P {price} {tick} {product.price_in_range(price):d} {multiple:d}'


# 02, note 11: cash of sizes in ten-thousandths of a share, below a share, whole and not:
# 1 for a negative sign, the amount and the rest; zeros where 19, 22 or the size's range
# says no.
def cash_lines():
    for contracts in (0, 1, 3, 100000, 100001):
        for size in (0, 1, 9999, 10000, 333333, 1000000, 655350000, 655359999, 655360000):
            for agreed in (0, 1, 123400, 999999999, 1000000000):
                for final in (0, 125000, 999999999, 1000000000):
                    yield f'Q {contracts} {size} {agreed} {final} {cash_words(contracts, size, agreed, final)}'


def cash_words(contracts, size, agreed, final):
    if not (product.price_in_range(agreed) and product.size_is_right(size)
            and product.final_and_contracts_in_range(final, contracts)):
        return '0 0 0'
    negative, amount, rest = product.cash_parts(item(b'AXA', size=size), contracts, final, agreed)
    return f'{negative:d} {amount} {rest}'


# The section on products: groups, prices, cash.
def product_section():
    yield from group_lines()
    yield from price_lines()
    yield from cash_lines()


# ---- listings ----

LISTING_COVERS = ((2000, 2), (2008, 3), (2020, 6), (2098, 2))


# Thursday and Friday of the third week in three months of four, Wednesday too
# in one of five.
def close_near_third_fridays(cover, day):
    month = dates.month_of(day)
    week = dates.date_of(day)[2] - 1
    if not 12 <= week <= 20:
        return False
    if dates.weekday(day) == 2:
        return month % 5 == 0
    return dates.weekday(day) >= 3 and month % 4 != 0


# Christmas and the turn of the year, and a Friday and the Monday after it in
# the third week of March or April.
def close_holidays(cover, day):
    year, month, day_of_month = dates.date_of(day)
    if month == 1:
        return day_of_month == 1
    if month == 12:
        return day_of_month in (24, 25, 26, 31)
    if month == 3 + year % 2:
        return ((dates.weekday(day) == 4 and 15 <= day_of_month <= 21)
                or (dates.weekday(day) == 0 and 18 <= day_of_month <= 24))
    return False


LISTING_PATTERNS = ((3, close_the_edges), (4, close_near_third_fridays), (5, close_holidays))


# A calendar with a pattern of closures.
def closed_by(first_year, years, pattern):
    cover = Calendar(first_year, years, frozenset())
    days = range(trading.first_day(cover), trading.last_day(cover) + 1)
    return Calendar(first_year, years, frozenset(
        day for day in days if dates.is_weekday(day) and pattern(cover, day)))


# The third Friday and the last trading day of each month of the cover, and the
# days stepped back.
def last_day_lines(calendar, group):
    for month in range(trading.first_month(calendar), trading.last_month(calendar) + 1):
        last = listing.last_trading_day(calendar, group, product.FUTURE, month)
        back = listing.days_back(calendar, group, product.FUTURE, month)
        yield f'A {month} {listing.third_friday(month)} {last} {back}'


# The front month or Friday and the listing on every 41st date of the cover: complete
# or not, then key, day, days stepped back and number 0 for each of 15 places.
def listing_lines(calendar, group, kind):
    for date in range(trading.first_day(calendar), trading.last_day(calendar) + 1, 41):
        front = listing.front_key(calendar, group, kind, date)
        fresh = listing.fresh_listing(calendar, group, kind, date)
        complete = listing.listing_in_cover(calendar, group, kind, date)
        places = [f'{key} {day} {back} 0' for key, day, back in fresh] + ['0 0 0 0'] * (15 - len(fresh))
        yield f'L {date} {front} {complete:d} ' + ' '.join(places)


# The section on listings: every cover and pattern, an Italian group and another.
def listing_section():
    for first_year, years in LISTING_COVERS:
        for number, pattern in LISTING_PATTERNS:
            calendar = closed_by(first_year, years, pattern)
            yield f'S {first_year} {years} {number}'
            for group in (b'FR11', b'IT01'):
                yield from last_day_lines(calendar, group)
                for kind in product.KINDS:
                    yield from listing_lines(calendar, group, kind)


# ---- master files ----

# Where the record with an id stands in an accepted file: its block and number.
def place_of(file, code):
    for index, block in enumerate(master.blocks_of(file)):
        if block[0] == master.PRODUCTS:
            for k in range(master.number_of(block)):
                if master.record_at(block, k)[:4] == code:
                    return index, k
    return None


# Question 9 of an id: the refusal, the record's block and number, its fields.
def id_line(file, code):
    number, _, found = master.find(file, code)
    if number:
        return f'I {number} 0 0'
    block, k = place_of(file, code)
    fields = [*found.id, *found.group, *found.market, found.kind, found.size, found.tick,
              *found.currency]
    return f'I 0 {block} {k} ' + ' '.join(str(field) for field in fields)


# The cover of an accepted file, the number of its closed days and the sum of
# their day numbers; the same of its second map where that has days.
def file_calendar_line(file):
    calendar = master.read_calendar(file)
    second = calendar.exchange
    return (f'C {calendar.first_year} {calendar.years}'
            f' {len(calendar.closed)} {sum(calendar.closed)}'
            + (f' {len(second)} {sum(second)}' if second else ''))


# The calls of 02, note 8, on the whole blocks of a file, one by one: the number that is
# announced and its refusal; if it is accepted, for each block the refusals of 511 bytes
# of it, of a final call before it and of the block itself, then that of one block too
# many and the answer of the final call. Each call gets the state that came back.
def calls_line(file):
    whole = [block for block in master.blocks_of(file) if len(block) == master.BLOCK]
    number, state = intake.announce(len(whole), intake.Carried)
    said = [len(whole), number]
    if number == 0:
        for block in whole:
            short, state = state.take(block[:-1])
            said += [short, state.finish()[0]]
            number, state = state.take(block)
            said.append(number)
        number, state = state.take(whole[0])
        said += [number, *state.finish()]
    return 'U ' + ' '.join(map(str, said))


# The file loaded one block at a time: the answer, and the calls one by one.
def block_lines(file):
    number, years, records = intake.load(file, -(-len(file) // master.BLOCK))
    yield f'B {number} {years} {records}'
    yield calls_line(file)


# The lines of one file: refusal and counts; if it is accepted, its calendar and
# the records with the ids of the test; then the file block by block.
def file_lines(index, file):
    number, years, records = master.load(file)
    yield f'F {index} {number} {years} {records}'
    if number == 0:
        yield file_calendar_line(file)
        for code in cases.IDS:
            yield id_line(file, code)
    yield from block_lines(file)


# ---- files that are written ----

# One number for some bytes in their order.
def digest(data):
    total = 0
    for byte in data:
        total = (257 * total + byte + 1) % 4294967291
    return total


# What is written from a draft into the first bytes of the buffer: a letter, the
# index, refusal, length, and the digest of the whole buffer afterwards.
def write_line(letter, index, draft, room):
    before = writings.buffer_before(writings.BUFFER)
    number, length, after = writing.write(draft, before[:room])
    return f'{letter} {index} {number} {length} {digest(after + before[room:])}'


# What load says of a file, and the file written again.
def again_lines(index, file):
    yield 'L {} {} {}'.format(*master.load(file))
    yield write_line('S', index, writing.draft_from(file), writings.BUFFER)


# The lines of one draft; if a file is written, those of the file too.
def draft_lines(index, draft, room):
    yield write_line('W', index, draft, room)
    number, length, after = writing.write(draft, bytes(room))
    if number == 0:
        yield from again_lines(index, after[:length])


# ---- All programs ----

# The program compare_rules: its sections in turn.
def comparisons():
    yield from date_section()
    yield from calendar_section()
    yield from product_section()
    yield from listing_section()
    yield from second_map_section()
    yield from made_up_section()


# The program compare_files: the lines of every case in turn.
def files():
    for index, (_, file) in enumerate(cases.cases()):
        yield from file_lines(index, file)


# The program compare_writing: the lines of every draft and of every accepted file.
def written():
    for index, (_, draft, room) in enumerate(writings.drafts()):
        yield from draft_lines(index, draft, room)
    for index, (_, file) in enumerate(writings.files()):
        yield from again_lines(index, file)


PROGRAMS = {
    'compare_rules': comparisons,
    'compare_files': files,
    'compare_tables': histories.lines,
    'compare_rounds': mornings.lines,
    'compare_writing': written,
    'compare_vendor': verdicts.expected,
}


# Writes the lines of the program named on the command line.
def main(arguments):
    if len(arguments) != 1 or arguments[0] not in PROGRAMS:
        print('usage: expected.py NAME, one of: ' + ', '.join(PROGRAMS), file=sys.stderr)
        return 2
    lines = PROGRAMS[arguments[0]]()
    sys.stdout.buffer.write(''.join(line + '\n' for line in lines).encode('ascii'))
    return 0


if __name__ == '__main__':
    sys.exit(main(sys.argv[1:]))
