"""A script of table calls: its records, the lines that they must print, and the
table and the book that they leave (01, "The table", "Questions"; 02, notes 2, 3, 9
and 11)."""

from dataclasses import replace
from fractions import Fraction
from functools import lru_cache

from tests.second import master, product, table
from tests.second.book import Book
from tests.second.trading import Calendar

RECORD = 16
SUM_MODULUS = 65521

# The calls that a history may hold, by the letters of their records. A call is its letter
# and its arguments: one date or day, or the p, q and price of a measure.
CALLS = {'R': 'roll', 'C': 'close', 'E': 'reopen', 'Z': 'measure'}

# How many numbers a call of a whole history is handed over as, and answered with: its
# kind and three more; the refusal, the counts of months that entered and left, the price.
NUMBERS_TO_A_CALL = 4
NO_ANSWER = (0, 0, 0, 0)

# The letter of a call of a whole history that has a kind number of its own, none of 0 to
# 3: it has that number before its arguments.
NO_KIND = 'K'


# ---- Records of the script ----

# A record: the operation's letter, one byte, one number of two bytes, then
# further bytes.
def record(letter, small=0, number=0, rest=b''):
    return (letter.encode('ascii') + bytes([small]) + number.to_bytes(2, 'big')
            + rest).ljust(RECORD, b'\0')


# Numbers of four bytes, big-endian.
def long_numbers(*values):
    return b''.join(value.to_bytes(4, 'big') for value in values)


# ---- Printed lines ----

# The sum of (i + 1) × byte i of a map, mod 65,521.
def map_sum(data):
    return sum((i + 1) * byte for i, byte in enumerate(data)) % SUM_MODULUS


# The sums of a calendar's two maps.
@lru_cache(maxsize=256)
def calendar_sums(calendar):
    return map_sum(calendar.to_map()), map_sum(calendar.to_second_map())


# The sum of a product's fields but its size: at each one 31 times the sum so far, and
# the field, mod 65,521.
def product_sum(item):
    fields = (*item.id, *item.group, *item.market, item.kind, *item.currency, item.tick)
    total = 0
    for field in fields:
        total = (31 * total + field) % SUM_MODULUS
    return total


# Numbers with a space before each.
def words(*numbers):
    return ''.join(f' {number}' for number in numbers)


# The words on a table: date, given, first year, years, the sums of the closed days
# and of the product, the size, then key, day, days stepped back and number of all 15
# places, and the sum of the second map where it is not 0.
def table_words(item, calendar, date, places, given):
    unused = [(0, 0, 0, 0)] * (table.PLACES - len(places))
    closed, second = calendar_sums(calendar)
    return (words(date, given, calendar.first_year, calendar.years, closed, product_sum(item), item.size)
            + ''.join(words(*place) for place in [*places, *unused])
            + (words(second) if second else ''))


# ---- Damage: one field of a table changed ----

# The fields by number, as the record says them.
(ID, GROUP, MARKET, KIND, SIZE, TICK, CURRENCY, FIRST_YEAR, YEARS, CLOSED, DATE,
 KEY, DAY, BACK, NUMBER, GIVEN, EXCHANGE) = range(17)
CODES = {ID: 'id', GROUP: 'group', MARKET: 'market', CURRENCY: 'currency'}
PLAIN = {KIND: 'kind', SIZE: 'size', TICK: 'tick'}


# The product with one field changed.
def damage_product(item, field, place, value):
    if field in PLAIN:
        return replace(item, **{PLAIN[field]: value})
    code = bytearray(getattr(item, CODES[field]))
    code[place] = value
    return replace(item, **{CODES[field]: bytes(code)})


# The calendar with one field changed; the bytes of its maps stay as they are, or
# one of them is xored with the value.
def damage_calendar(calendar, field, place, value):
    data = {CLOSED: bytearray(calendar.to_map()), EXCHANGE: bytearray(calendar.to_second_map())}
    first_year, years = calendar.first_year, calendar.years
    if field == FIRST_YEAR:
        first_year = value
    elif field == YEARS:
        years = value
    else:
        data[field][place] ^= value
    return Calendar.from_maps(first_year, years, bytes(data[CLOSED]), bytes(data[EXCHANGE]))


# The places with one number of one of them changed.
def damage_places(places, field, place, value):
    changed = list(places[place])
    changed[field - KEY] = value
    return (*places[:place], tuple(changed), *places[place + 1:])


# The table with one field changed.
def damage(old, field, place, value):
    if field in CODES or field in PLAIN:
        return replace(old, product=damage_product(old.product, field, place, value))
    if field in (FIRST_YEAR, YEARS, CLOSED, EXCHANGE):
        return replace(old, calendar=damage_calendar(old.calendar, field, place, value))
    if field in (KEY, DAY, BACK, NUMBER):
        return replace(old, places=damage_places(old.places, field, place, value))
    return replace(old, **{'date' if field == DATE else 'given': value})


# ---- The script ----

# The days from which a product's last trading days step back: third Fridays, the
# days before them, or weekly Fridays.
def anchor_rule(item):
    if product.is_weekly(item.kind):
        return 'weekly'
    return 'Italian' if product.is_italian(item.group) else 'third Friday'


# 02, note 11: what 29 is answered no for.
def out_of_range(size, p, q, price):
    changed = product.new_size(size, p, q)
    if not product.size_is_right(changed):
        return 'size too large' if changed else 'size 0'
    return 'price too large' if product.new_price(price, size, changed) else 'price 0'


# Whether numbers lent and a buffer fit: the numbers are whole calls, each of one of the
# four kinds, and not more than the buffer has places.
def fits(calls, numbers_lent, buffer_lent):
    lent = calls[:numbers_lent // NUMBERS_TO_A_CALL]
    return (numbers_lent % NUMBERS_TO_A_CALL == 0 and numbers_lent <= buffer_lent
            and all(letter in CALLS for letter, *_ in lent))


# A difference between the table and the book.
class Differs(Exception):
    pass


# The records written so far, the lines they must print, the table and the book
# that they leave, and the answers seen.
class Script:

    def __init__(self, files):
        self.files = files
        self.records = []
        self.lines = []
        self.table = table.ZERO_TABLE
        self.saved = table.ZERO_TABLE
        self.book = None
        self.seen = set()

    # The file with a number; an empty one where there is none.
    def file(self, number):
        return self.files[number] if number < len(self.files) else b''

    # One record and its line.
    def write(self, entry, line, refusal=None):
        self.records.append(entry)
        self.lines.append(line)
        if refusal is not None:
            self.seen.add((line[0], refusal))

    # The record of a call that gives the table back, and its line: the refusal, the
    # numbers that come with it, and the table.
    def write_table(self, entry, refusal, numbers, now):
        self.table = now
        self.write(entry, chr(entry[0]) + words(refusal, *numbers) + table_words(
            now.product, now.calendar, now.date, now.places, now.given), refusal)

    # The same of a call that lists maturities.
    def write_outcome(self, entry, outcome):
        refusal, now, entered, left = outcome
        if refusal == 0:
            rule = anchor_rule(now.product)
            self.seen |= {('back', back, rule) for _, _, back, _ in table.maturities(now)}
        self.write_table(entry, refusal, (entered, left), now)
        return refusal

    # 01, The table: the book "is fed the opened product's kind and group, the
    # file's calendar and the opening's date". 02, note 11: and its size.
    def open(self, number, code, date):
        file = self.file(number)
        outcome = table.open_table(file, code, date)
        self.book = None
        if outcome[0] == 0:
            calendar, products = master.contents(file)
            item = products[code]
            self.book = Book(item.kind, item.group, item.size, calendar, date)
        refusal = self.write_outcome(record('O', number, date, code), outcome)
        self.compare_with_book(reply(outcome), (0, self.table.given, 0, 0))
        return refusal

    # 01, The table: "the table's calendar, date, maturities (month, day,
    # number) and count given are the book's; so are every call's acceptance or
    # refusal number and its two counts". Days stepped back are compared too. 02, note
    # 11: "the table's size after the list is the book's".
    def compare_with_book(self, outcome, answer):
        book, now = self.book, self.table
        if book is None:
            return
        held = (now.product.size, now.calendar, now.date, table.maturities(now), now.given)
        if (outcome != answer
                or held != (book.size, book.calendar, book.date, book.maturities, book.given)):
            raise Differs(f'after record {len(self.records)}: {outcome} and {answer}')

    # A roll, close or reopening on the table and on the book: its outcome.
    def call(self, letter, day):
        outcome = getattr(table, CALLS[letter])(self.table, day)
        answer = book_call(self.book, letter, day) if self.book else None
        self.write_outcome(record(letter, number=day), outcome)
        self.compare_with_book(reply(outcome), answer)
        return outcome

    # Something seen with the product's kind, and whether its group is Italian.
    def see(self, what):
        item = self.table.product
        self.seen.add((what, item.kind, product.is_italian(item.group)))

    def roll(self, date):
        return self.call('R', date)[0]

    def close(self, day):
        refusal, _, _, left = self.call('C', day)
        if left:
            self.see('pushed')
        return refusal

    # 02, note 9. Seen: reopenings that 27 refuses, and accepted ones; of these the ones
    # of a day of the second map, and the ones that move a listed day, the front's or
    # another, to a later one.
    def reopen(self, day):
        old = self.table
        refusal, now, _, _ = self.call('E', day)
        if refusal == 27:
            self.see('refused by 27')
        if refusal == 0:
            self.see('reopened')
            if day in old.calendar.exchange:
                self.see('reopened in both maps')
            for place, (before, after) in enumerate(zip(old.places, now.places, strict=True)):
                if after[1] > before[1]:
                    self.see('another later' if place else 'front later')
        return refusal

    # 02, note 11.
    def measure(self, p, q, price):
        old = self.table.product.size
        refusal, now, adjusted = table.measure(self.table, p, q, price)
        answer = book_call(self.book, 'Z', p, q, price) if self.book else None
        self.write_table(record('Z', rest=long_numbers(p, q, price)), refusal, (adjusted,), now)
        self.compare_with_book((refusal, 0, 0, adjusted), answer)
        if refusal == 0:
            self.see_sizes(old, now.product.size, Fraction(p, q))
        if refusal == 29:
            self.seen.add(('29', out_of_range(old, p, q, price)))
        return refusal

    # Seen: accepted measures that make the size larger and smaller, that round it up and
    # down, that leave it below one share.
    def see_sizes(self, old, size, ratio):
        self.see('larger' if size > old else 'smaller' if size < old else 'same size')
        if size != old * ratio:
            self.see('rounded up' if size > old * ratio else 'rounded down')
        if size < product.SHARE:
            self.see('below a share')

    # 01, Questions: "Last trading day of a listed month: 10, 18."; 02, note 3: or of
    # a listed Friday.
    def last_trading_day(self, key):
        refusal, day, back = table.last_trading_day(self.table, key)
        self.write(record('L', number=key), 'L' + words(refusal, day, back), refusal)
        return refusal

    # 01, Questions: "Due: 10, 11, 14, 17."; 02, note 5: without 14.
    def due(self, day):
        refusal, due_day = table.due(self.table, day)
        self.write(record('U', number=day), 'U' + words(refusal, due_day), refusal)
        return refusal

    # 01, Questions: "Tick: 10, 19, 20."
    def tick(self, price):
        refusal = table.tick(self.table, price)
        self.write(record('T', rest=long_numbers(price)), 'T' + words(refusal), refusal)
        return refusal

    # 01, Questions: "Cash: 10, 19–22." 02, note 11: 1 for a negative sign, the amount, the
    # rest.
    def cash(self, contracts, agreed, final):
        refusal, negative, amount, rest = table.cash(self.table, contracts, agreed, final)
        entry = record('Q', rest=long_numbers(contracts, agreed, final))
        self.write(entry, 'Q' + words(refusal, int(negative), amount, rest), refusal)
        if rest:
            self.seen.add(('rest', negative, amount > 0))
        return refusal

    def save(self):
        self.saved = self.table
        self.write(record('S'), 'S')

    def restore(self):
        self.table = self.saved
        self.book = None
        self.write(record('B'), 'B')

    def damage(self, field, place, value):
        self.table = damage(self.table, field, place, value)
        self.book = None
        entry = record('D', field, place, long_numbers(value))
        self.write(entry, 'D' + words(field, place, value))

    # 01, The table: "The list of rolls and closes starts from the table that an
    # accepted open gave back"; 02, note 9: "Histories with reopenings in them are held
    # to the same statement"; note 11: a measure "joins the calls a history may hold". The
    # expected table and answers are the book's. A call is lent as four numbers and
    # answered with four; where the numbers lent are no whole calls, or more than the
    # buffer, or one has none of the four kinds, no call is made. The answer of a call that
    # is not made stays 0.
    def history(self, number, code, date, calls, numbers_lent=None, buffer_lent=None):
        calendar, products = master.contents(self.file(number))
        item = products[code]
        book = Book(item.kind, item.group, item.size, calendar, date)
        all_numbers = NUMBERS_TO_A_CALL * len(calls)
        numbers_lent = all_numbers if numbers_lent is None else numbers_lent
        buffer_lent = all_numbers if buffer_lent is None else buffer_lent
        fitting = fits(calls, numbers_lent, buffer_lent)
        made = calls[:numbers_lent // NUMBERS_TO_A_CALL] if fitting else []
        answers = [book_call(book, *call) for call in made]
        self.write_history(number, code, date, calls, (numbers_lent, buffer_lent))
        self.write_answers((int(fitting), 0), calls, answers, table_words(
            replace(item, size=book.size), book.calendar, book.date, book.maturities, book.given))

    # The same with an id that the file has not: every call that is made is refused by 10.
    def history_without_open(self, number, code, date, calls):
        zero = table.ZERO_TABLE
        lent = (NUMBERS_TO_A_CALL * len(calls),) * 2
        fitting = fits(calls, *lent)
        self.write_history(number, code, date, calls, lent)
        self.write_answers((int(fitting), 9), calls, [(10, 0, 0, 0)] * (fitting * len(calls)), table_words(
            zero.product, zero.calendar, zero.date, zero.places, zero.given))

    # The record of a history and those of its calls: a letter and three numbers; before
    # these a kind number of three bytes where the call has its own. A roll, close or
    # reopening reads the first of the three alone; the others are not 0 where the first is
    # odd.
    def write_history(self, number, code, date, calls, lent):
        lengths = b''.join(map(master.two_bytes, (len(calls), *lent)))
        self.records.append(record('H', number, date, code + lengths))
        for letter, *arguments in calls:
            kind = divmod(arguments.pop(0), 65536) if letter == NO_KIND else (0, 0)
            unread = (2, 3) if arguments[0] % 2 else (0, 0)
            self.records.append(record(letter, *kind, long_numbers(*(*arguments, *unread)[:3])))

    # The line of a history and those of its calls' answers. No table is left.
    def write_answers(self, verdict, calls, answers, held):
        self.lines.append('H' + words(*verdict) + held)
        not_made = [NO_ANSWER] * (len(calls) - len(answers))
        self.lines += ['A' + words(*answer) for answer in (*answers, *not_made)]
        self.seen |= {('history', call[0], answer[0]) for call, answer in zip(calls, answers)}
        self.table = table.ZERO_TABLE
        self.book = None


# What a call that lists maturities answers beside its table: (number, entered, left,
# price); no price comes with it.
def reply(outcome):
    refusal, _, entered, left = outcome
    return refusal, entered, left, 0


# A call of a history, asked of the book: (number, entered, left, price). 02, note 11: "A
# measure changes no month", so none enters or leaves.
def book_call(book, letter, *arguments):
    answer = getattr(book, CALLS[letter])(*arguments)
    if letter == 'Z':
        refusal, price = answer
        return refusal, 0, 0, price
    return (*answer, 0)


# Calls of a history one after the other.
def make(script, calls):
    for letter, *arguments in calls:
        getattr(script, CALLS[letter])(*arguments)
