"""Scripts of calls for the programs calls of bindings/, made from a seed, and what the
second program answers to each line (bindings/README.md has the lines).

python3 -m tests.inputs.calls SEED FOLDER writes one script: script, expected and the files.
"""

import os
import struct
import sys
from types import SimpleNamespace

from tests.inputs.mornings import listed, placed, queue_words
from tests.inputs.products import by_id
from tests.inputs.runs import files, mornings
from tests.inputs.runs.case import Chance, write
from tests.inputs.runs.histories import ITEMS
from tests.inputs.tables import damages, moments
from tests.inputs.tables.files import FRACTIONS, clustered, clustered_weekly
from tests.inputs.tables.script import (BACK, CALLS, CLOSED, CURRENCY, DATE, DAY, EXCHANGE, FIRST_YEAR, GIVEN, GROUP,
                                        ID, KEY, KIND, MARKET, NUMBER, SIZE, TICK, YEARS, calendar_sums, damage,
                                        map_sum)
from tests.inputs.verdicts import numbers_of
from tests.second import (dates, deliver, generated, intake, listing, master, notices, product, reconcile, replay,
                          rounds, rows, table, terms, trading, vendor, words, writing)
from tests.second.trading import Calendar

COVERS = (1, 2, 3, 5, 16)
FILL = b'\xa5'
FIELDS = {ID: 'id', GROUP: 'group', MARKET: 'market', KIND: 'kind', SIZE: 'size', TICK: 'tick', CURRENCY: 'currency',
          FIRST_YEAR: 'first_year', YEARS: 'years', CLOSED: 'closed', EXCHANGE: 'exchange', DATE: 'date',
          GIVEN: 'given', KEY: 'key', DAY: 'last', BACK: 'back', NUMBER: 'number'}
SILENT = ('file', 'set', 'keep', 'restore', 'calendar', 'queue', 'numbers')  # the lines without an answer


def words_of(*words):
    return ' '.join(str(int(word) if isinstance(word, bool) else word) for word in words)


# Whether a map has a bit after those of the cover's last year, which is in no file that is written.
def marked_after_cover(calendar):
    after = trading.BYTES_PER_YEAR * calendar.years
    return any(calendar.to_map()[after:] + calendar.to_second_map()[after:])


# A text by its length and its sum.
def text_words(text):
    return len(text), map_sum(text)


# The product at a place of an accepted file; None where there is none.
def product_at(file, place):
    blocks = master.blocks_of(file)
    if place // master.RECORDS_AT_MOST >= len(blocks):
        return None
    block = blocks[place // master.RECORDS_AT_MOST]
    held = block[0] == master.PRODUCTS and place % master.RECORDS_AT_MOST < master.number_of(block)
    return master.product_of(master.record_at(block, place % master.RECORDS_AT_MOST)) if held else None


# What a file with this calendar and a record that is right would be refused for: 3 to 6.
def calendar_refusal(calendar):
    record = master.record_of(files.all_products()[0])
    draft = writing.Draft(calendar.first_year, calendar.years, calendar.to_map(), calendar.to_second_map(), record)
    return writing.refusal_of(draft, master.FILE_AT_MOST)


# A table as C holds it on x86-64, the bytes that are not used zeros.
def stored(held):
    item, calendar = held.product, held.calendar
    return b''.join((
        struct.pack('<4s4s4sB3sIH2x', item.id, item.group, item.market, item.kind, item.currency, item.size, item.tick),
        struct.pack('<HH', calendar.first_year, calendar.years), calendar.to_map(), calendar.to_second_map(),
        struct.pack('<HH60H', held.date, held.given, *(number for place in held.places for number in place))))


# An amount in the currency, as `query` prints it.
def amount_text(negative, amount, rest):
    sign = '-' if negative and (amount or rest) else ''
    return f'{sign}{amount // words.PARTS}.{amount % words.PARTS:04}{rest:04}'


# The lines written so far, the answers to them, and what they leave.
class Script:

    def __init__(self, seed):
        self.chance = Chance(seed)
        self.lines = []
        self.answers = []
        self.files = {}
        self.seen = set()
        self.file = self.judged = b''
        self.table = self.kept = table.ZERO_TABLE
        self.calendar = table.ZERO_TABLE.calendar
        self.state = None
        self.places, self.count = placed([]), 0
        self.notices = b''

    # A line that is answered with nothing.
    def say(self, *words):
        self.lines.append(words_of(*words))

    # A line and its answer, which begins with a refusal.
    def ask(self, line, refusal, *rest):
        self.say(*line)
        self.answers.append(words_of(refusal, *rest))
        self.seen.add((line[0], refusal))
        return refusal

    # The name of a file with these bytes.
    def name_of(self, data):
        for name, one in self.files.items():
            if one == data:
                return name
        name = f'{len(self.files)}.bin'
        self.files[name] = data
        return name

    # ---- Days ----

    def interface(self):
        self.ask(('interface',), 2)

    def day(self, *date):
        self.ask(('day', *date), *dates.date_to_day(*date))

    def date(self, day):
        self.ask(('date', day), *dates.day_to_date(day))

    # ---- Texts ----

    # A line and its answer, which is a text or words that begin with no refusal.
    def tell(self, line, *answer):
        self.say(*line)
        self.answers.append(words_of(*answer))

    def day_text(self, day):
        self.tell(('day_text', day), terms.day_text(day) if dates.is_day(day) else '0000-00-00')

    def month_text(self, month):
        self.tell(('month_text', month), terms.month_text(month))

    def key_text(self, kind, key):
        self.tell(('key_text', kind, key), terms.key_text(kind, key))

    def decimal(self, number):
        self.tell(('decimal', number), f'{number // words.PARTS}.{number % words.PARTS:04}')

    # A decimal of digits, with a point and one to four digits, or none, that fits 32 bits in ten-thousandths.
    def read_decimal(self, word):
        whole, _, parts = word.partition('.')
        right = whole.isdigit() and (parts.isdigit() or whole == word) and len(parts) <= 4
        number = int(whole + parts.ljust(4, '0')) if right else 2**32
        self.tell(('read_decimal', word), *((1, number) if number < 2**32 else (0, 0)))

    def amount(self, negative, amount, rest):
        self.tell(('amount', negative, amount, rest), amount_text(negative, amount, rest))

    # ---- Files ----

    def products(self):
        refusal = master.file_refusal(self.file)
        records = [] if refusal else [master.record_of(one) for one in master.read_products(self.file)]
        return self.ask(('products',), refusal, len(records), map_sum(b''.join(records)))

    def use(self, file):
        self.file = file
        self.say('file', self.name_of(file))

    def load(self):
        self.ask(('load',), *master.load(self.file))

    # The file is kept, where it is accepted; its calendar is that of the file kept.
    def judge_file(self):
        refusal = master.load(self.file)[0]
        self.judged = self.judged if refusal else self.file
        kept = master.contents(self.judged)[0] if self.judged else table.ZERO_TABLE.calendar
        return self.ask(('judge_file',), refusal, kept.first_year, kept.years, *calendar_sums(kept))

    def announce(self, blocks):
        refusal, state = intake.announce(blocks, intake.Whole)
        self.state = state or self.state
        return self.ask(('announce', blocks), refusal)

    def take(self, start, length):
        refusal, self.state = self.state.take(self.file[start:start + length])
        return self.ask(('take', start, length), refusal)

    def finish(self):
        self.ask(('finish',), *self.state.finish())

    def make(self, seed, first_year, years):
        refusal, made = generated.make(seed, first_year, years)
        self.calendar = self.calendar if refusal else made
        self.ask(('make', seed, first_year, years), refusal, self.calendar.first_year, self.calendar.years,
                 *calendar_sums(self.calendar))

    def write(self, records, room):
        held = self.calendar
        draft = writing.Draft(held.first_year, held.years, held.to_map(), held.to_second_map(), records)
        refusal, length, buffer = writing.write(draft, FILL * room)
        if refusal == 0:
            self.seen.add(('written', marked_after_cover(held)))
        return self.ask(('write', self.name_of(records), room), refusal, length, map_sum(buffer))

    def marked(self):
        self.say('marked')
        self.answers.append(words_of(marked_after_cover(self.calendar)))

    # ---- A calendar by its days ----

    def trades(self, day):
        self.tell(('trades', day), trading.is_trading_day(self.calendar, day))

    # A call on the calendar's days: what a file of it is refused for, 11, then the call's own questions.
    def change_day(self, name, day, questions, changed):
        refusal = calendar_refusal(self.calendar) or (0 if trading.in_cover(self.calendar, day) else 11)
        refusal = refusal or next((number for number, right in questions if not right(self.calendar, day)), 0)
        self.calendar = self.calendar if refusal else changed(self.calendar, day)
        now = self.calendar
        return self.ask((name, day), refusal, now.first_year, now.years, *calendar_sums(now))

    def calendar_close(self, day):
        questions = ((14, trading.is_trading_day), (15, trading.every_week_trades_without))
        return self.change_day('calendar_close', day, questions, trading.close_day)

    def calendar_reopen(self, day):
        return self.change_day('calendar_reopen', day, ((26, trading.is_closed_weekday),), trading.reopen_day)

    # ---- Tables ----

    def open(self, code, date):
        return self.open_from('open', self.file, code, date)

    # The file kept is an accepted one, so it is opened as any.
    def open_in(self, code, date):
        return self.open_from('open_in', self.judged, code, date)

    def open_from(self, call, file, code, date):
        name = code.ljust(4) if len(code) <= 4 else b'    '
        refusal, held, entered, left = table.open_table(file, name, date)
        self.table = self.table if refusal else held
        return self.ask((call, code.decode('ascii'), date), refusal, entered, left)

    def move(self, name, day):
        refusal, self.table, entered, left = getattr(table, name)(self.table, day)
        return self.ask((name, day), refusal, entered, left)

    def measure(self, p, q, price):
        refusal, self.table, after = table.measure(self.table, p, q, price)
        return self.ask(('measure', p, q, price), refusal, after)

    # A call of a history, by its letter.
    def call(self, letter, *numbers):
        return self.measure(*numbers) if letter == 'Z' else self.move(CALLS[letter], *numbers)

    # The whole table, and how many places stand before the first without a number.
    def show(self):
        now = self.table
        item = now.product
        numbers = [place[3] for place in now.places]
        self.say('table')
        self.answers.append(words_of(
            (item.id + item.group + item.market + item.currency).hex(), item.kind, item.size, item.tick,
            now.calendar.first_year, now.calendar.years, *calendar_sums(now.calendar), now.date, now.given,
            *(number for place in now.places for number in place), [*numbers, 0].index(0)))

    def last(self, key):
        return self.ask(('last', key), *table.last_trading_day(self.table, key))

    def due(self, day):
        return self.ask(('due', day), *table.due(self.table, day))

    def tick(self, price):
        return self.ask(('tick', price), table.tick(self.table, price))

    def cash(self, *numbers):
        return self.ask(('cash', *numbers), *table.cash(self.table, *numbers))

    def judge(self, numbers):
        refusal, same, key = vendor.judge(self.table, numbers)
        if refusal == 0:
            self.seen.add(('verdict', same))
        return self.ask(('judge', *numbers), refusal, same, key)

    # A larger size than a record holds has no record in the papers.
    def record(self):
        if self.table.product.size <= product.SIZE_AT_MOST:
            self.say('record')
            self.answers.append(master.record_of(self.table.product).hex())

    def stored(self):
        self.tell(('stored',), map_sum(stored(self.table)))

    def keep(self):
        self.kept = self.table
        self.say('keep')

    def restore(self):
        self.table = self.kept
        self.say('restore')

    def damage(self, field, place, value):
        self.table = damage(self.table, field, place, value)
        self.say('set', FIELDS[field], place, value)

    def take_calendar(self):
        self.calendar = self.table.calendar
        self.say('calendar')

    # ---- A delivery ----

    # Place p is record p % 15 of block p / 15.
    def product(self, place):
        refusal = master.file_refusal(self.file)
        item = None if refusal else product_at(self.file, place)
        codes = (item.id + item.group + item.market + item.currency).hex() if item else bytes(15).hex()
        numbers = (item.kind, item.size, item.tick) if item else (0, 0, 0)
        return self.ask(('product', place), refusal or (0 if item else 9), codes, *numbers)

    def read_notices(self, text):
        bad, said = notices.read(text)
        self.notices = self.notices if bad else text
        opening = (0, 0, 0) if bad else (said[0][1][1], said[0][0], len(said) - 1)
        self.say('notices', self.name_of(text))
        self.answers.append(words_of(bad, *opening))
        self.seen.add(('notices', bad != 0))
        return bad

    # The table of a product of the judged file after the notices.
    def deliver(self, code):
        standing = next((one for one in self.morning().products if one.item.id == code.ljust(4)), None)
        refusal = standing.opening if standing else 9
        refused = standing.refused if standing and not refusal else []
        self.table = self.table if refusal else standing.held
        return self.ask(('deliver', code.decode('ascii')), refusal, len(refused),
                        *(number for one in refused for number in one))

    def morning(self):
        return replay.begin(self.judged, self.notices)[1]

    def rows(self):
        refusal = 0 if table.is_sound(self.table) else 10
        printed = [] if refusal else [deliver.row(self.table.product, one) for one in table.maturities(self.table)]
        return self.ask(('rows',), refusal, *text_words(b''.join(printed)))

    def delivery(self):
        printed, told = deliver.deliver(self.judged, self.notices)
        self.say('delivery')
        self.answers.append(words_of(*text_words(printed), *text_words(told)))

    def differences(self, text):
        printed, _ = reconcile.reconcile(self.judged, self.notices, text)
        read = rows.read(text, reconcile.kinds_of(self.morning()))
        differ = max(0, printed.count(b'\n') - 1)
        self.say('differences', self.name_of(text))
        self.answers.append(words_of(len(read.good), differ, read.too_many, *text_words(printed), *read.bad))
        self.seen.update(('differs', line.split(b',')[2].decode()) for line in printed.splitlines()[1:])
        self.seen.add(('over', read.too_many))

    # ---- The round ----

    # A queue of any count and numbers.
    def numbers(self, count, places):
        self.places, self.count = placed(list(places)), count
        self.say('numbers', count, *places)

    def empty(self):
        self.places, self.count = placed([]), 0
        self.say('queue')

    def keep_queue(self, refusal, queue):
        if refusal == 0:
            self.places, self.count = placed(queue), len(queue)

    def join(self, number):
        self.join_or_leave('join', number)

    def leave(self, number):
        self.join_or_leave('leave', number)

    def handle(self, b):
        refusal, taken, queue = rounds.handle(listed(self.places, self.count), b)
        self.keep_queue(refusal, queue)
        self.ask(('handle', b), refusal, queue_words(placed(taken), len(taken)))

    def join_or_leave(self, name, number):
        refusal, queue = getattr(rounds, name)(listed(self.places, self.count), number)
        self.keep_queue(refusal, queue)
        self.ask((name, number), refusal)

    def show_round(self):
        self.say('round')
        self.answers.append(queue_words(self.places, self.count))


# ---- Parts of a script ----

# The days at the ends, any days, and dates that are none.
def some_days(script):
    chance = script.chance
    for day in (0, 59, 60, dates.DAYS - 1, dates.DAYS, 65535, *(chance.below(40000) for _ in range(6))):
        script.date(day)
    for date in ((2000, 1, 1), (2000, 2, 29), (2099, 12, 31), (2100, 1, 1), (1999, 12, 31), (2008, 13, 1), (0, 0, 0),
                 (65535, 65535, 65535)):
        script.day(*date)
    for _ in range(6):
        script.day(2000 + chance.below(101), chance.below(14), chance.below(33))


# An accepted file, one with one or two faults, or one with some bytes changed.
def some_file(chance):
    layout = files.some_layout(chance, chance.choice((2, 3, 5, 9, 20)))
    faults = chance.choice(((), (), *((number,) for number in files.FAULTS), *((number,) for number in files.FAULTS),
                            (5, 7), (2, 8), (4, 6)))
    file = files.faulty(chance, layout, faults)
    if file and chance.below(6) == 0:
        file = bytearray(file)
        for _ in range(3):
            file[chance.below(len(file))] ^= 1 << chance.below(8)
        file = bytes(file)
    return layout, file


# The blocks of a file handed over, now and then one that is no block or one too many,
# and the answer asked for too early.
def some_blocks(script):
    chance = script.chance
    blocks = len(script.file) // master.BLOCK
    script.announce(chance.choice((0, 1, 129, 65535)))
    if script.announce(blocks):
        return
    for k in range(blocks):
        if chance.below(6) == 0:
            script.take(master.BLOCK * k, chance.choice((0, 1, 511)))
            script.finish()
        script.take(master.BLOCK * k, master.BLOCK)
    script.finish()
    script.take(0, master.BLOCK)
    script.finish()


# Opens of some products of a file's parts, and of ids that are not there.
def some_opens(script, call, layout):
    chance = script.chance
    first, last = trading.first_day(layout.calendar), trading.last_day(layout.calendar)
    codes = [one.id.rstrip() for one in layout.products]
    for code in (chance.choice(codes), chance.choice(codes), chance.choice((b'NONE', b'AX', b'TOOLONG'))):
        call(code, chance.choice((first, first + 7, chance.randint(first, last), last, last + 1)))
        script.show()


# Files of every sort, loaded whole and by blocks, and opens of some of their products, and of those of the accepted file
# that was judged last.
def some_files(script):
    accepted = None
    for _ in range(8):
        layout, file = some_file(script.chance)
        script.use(file)
        script.load()
        some_blocks(script)
        some_opens(script, script.open, layout)
        if script.judge_file() == 0:
            accepted = layout
        if accepted:
            some_opens(script, script.open_in, accepted)


# A file of every kind of product, of which histories are told.
def file_of_histories(chance):
    years = chance.choice(COVERS)
    last = dates.LAST_YEAR + 1 - years
    made = chance.choice((clustered, clustered_weekly))
    calendar = made(chance, chance.choice((2000, 2008, last, chance.randint(2000, last))), years)
    second = chance.sample(sorted(calendar.closed), len(calendar.closed) // 2)
    calendar = Calendar(calendar.first_year, years, calendar.closed, frozenset(second))
    items = by_id(*ITEMS, *FRACTIONS)
    return calendar, items, master.build(calendar, items)


# What tables/moments.py asks of a book.
def book_of(now):
    return SimpleNamespace(kind=now.product.kind, group=now.product.group, size=now.product.size,
                           calendar=now.calendar, date=now.date, maturities=table.maturities(now), given=now.given)


# The calls that only read a table.
def some_values(script):
    chance, book = script.chance, book_of(script.table)
    script.last(moments.some_key(chance, book))
    script.due(moments.some_due_day(chance, book))
    script.tick(chance.choice((chance.choice(moments.PRICES), 100 * chance.below(9_999_999))))
    script.cash(*(chance.choice(kind) for kind in (moments.CONTRACTS, moments.PRICES, moments.FINALS)))
    script.cash(1 + chance.below(100_000), 100 * (1 + chance.below(9_999_999)), chance.below(1_000_000_000))
    script.judge([min(number, 65535) for number in numbers_of(chance, script.table)])


# An open that is accepted, where the file's first days admit one.
def opened(script, calendar, items):
    chance = script.chance
    first, last = trading.first_day(calendar), trading.last_day(calendar)
    for _ in range(40):
        item, date = chance.choice(items), chance.randint(first, chance.choice((first + 60, last)))
        if chance.choice((script.open, script.open_in))(item.id.rstrip(), date) == 0:
            script.show()
            return True
    return False


# A history: rolls, closes, reopenings and measures that fit the moment, values between.
def some_history(script, calendar, items, length):
    if not opened(script, calendar, items):
        return
    script.record()
    for _ in range(length):
        choose = script.chance.choice((moments.some_calls, moments.some_calls_and_reopenings,
                                       moments.some_calls_and_measures))
        for call in choose(script.chance, book_of(script.table)):
            script.call(*call)
            script.show()
        some_values(script)


# The last date on which a product's listing is in the cover; None where there is none.
def last_date(calendar, item):
    def fits(date):
        return listing.listing_in_cover(calendar, item.group, item.kind, date)
    first, last = trading.first_day(calendar) + 7, trading.last_day(calendar)
    if not fits(first):
        return None
    while first < last:
        middle = (first + last + 1) // 2
        first, last = (middle, last) if fits(middle) else (first, middle - 1)
    return first


# The front maturity pushed out at the cover's end, where none can enter (16), and rolls there.
def some_end(script, calendar, items):
    item = script.chance.choice(items)
    end = last_date(calendar, item)
    if end is None or script.open(item.id.rstrip(), max(end - 20, trading.first_day(calendar) + 7)):
        return
    for call in (*moments.push_calls(book_of(script.table)), ('R', end), ('R', end + 1), ('R', end + 400)):
        script.call(*call)
        script.show()


# Fields of a sound table changed, each that fits its C type.
def some_changes(script):
    now = script.table
    changes = [*damages.damages_of(now), *damages.harmless_changes(now), (KIND, 0, 6), (KIND, 0, 255)]
    if now.calendar.exchange and now.calendar.closed - now.calendar.exchange:
        changes += [*damages.second_map_damages(now), *damages.harmless_second_maps(now)]
    fitting = [change for change in changes if change[2] >= 0 and (change[0] == SIZE or change[2] <= 65535)]
    return script.chance.sample(fitting, min(12, len(fitting)))


# Every call, with arguments that the table would accept as it was.
def every_call(script, now):
    script.show()
    for name, day in (('roll', now.date), ('close', now.places[0][1]), ('reopen', damages.day_to_reopen(now))):
        script.move(name, day)
    script.measure(3, 2, 123400)
    script.show()
    script.last(now.places[0][0])
    script.due(now.date)
    script.tick(100)
    script.cash(3, 123400, 125000)
    script.judge([number for place in table.maturities(now) for number in place[:2]])
    script.record()
    script.rows()


# Every call on tables that no call gave back.
def some_damages(script, calendar, items):
    if not opened(script, calendar, items):
        return
    script.keep()
    now = script.table
    for change in some_changes(script):
        script.restore()
        script.damage(*change)
        every_call(script, now)
    script.restore()
    script.show()


def some_histories(script):
    calendar, items, file = file_of_histories(script.chance)
    script.use(file)
    script.judge_file()
    for _ in range(3):
        some_history(script, calendar, items, 8)
        some_end(script, calendar, items)
    for _ in range(2):
        some_damages(script, calendar, items)


# Records of products, in order or not, with a byte changed or cut short.
def some_records(chance):
    items = chance.sample(files.all_products(), chance.choice((0, 1, 14, 15, 16, 40)))
    if chance.below(8):
        items = by_id(*items)
    records = bytearray(b''.join(map(master.record_of, items)))
    if records and chance.below(4) == 0:
        records[chance.below(len(records))] ^= 1 << chance.below(8)
    if records and chance.below(8) == 0:
        records = records[:-1 - chance.below(31)]
    return bytes(records)


# Made-up calendars, and files written from them and from the calendars of tables.
def some_writings(script):
    chance = script.chance
    for _ in range(6):
        years = chance.choice((1, 2, 16, 1, 0, 17))
        first_year = chance.choice((2000, 2008, 2099 - years, 2100 - years, 2101 - years, 1999))
        script.make(chance.below(2**32), first_year, years)
        script.marked()
        records = some_records(chance)
        length = master.BLOCK * (script.calendar.years + -(-len(records) // 480))
        for room in (length, max(0, length - 1), chance.choice((0, length + 7))):
            script.write(records, room)
    script.keep()
    now = script.table
    changes = damages.calendar_damages(now) if now.places[1][3] else []
    always = ((FIRST_YEAR, 0, 2008), (YEARS, 0, 3), (EXCHANGE, trading.MAP_BYTES - 1, 1))
    for change in (*chance.sample(changes, min(6, len(changes))), *always):
        script.restore()
        script.damage(*change)
        script.take_calendar()
        script.marked()
        script.write(some_records(chance), 65536)


# Joinings, leavings and calls of the round, and queues that no call gave back.
def some_rounds(script):
    chance = script.chance
    script.empty()
    for _ in range(60):
        number = chance.choice((chance.below(200), chance.below(6), chance.below(6), 200, 65535))
        chance.choice((script.join, script.join, script.leave, script.handle))(number)
        script.show_round()
    for count, places in ((200, range(200)), (200, [*range(199), 0]), (201, range(200)), (65535, []),
                          (2, (5, 5)), (2, (5, 200)), (3, (1, 2, 3, 3)), (1, (7, 65535))):
        script.numbers(count, places)
        for call in (script.handle, script.join, script.leave):
            call(chance.choice((1, 7, 199)))
            script.show_round()


# Places of a file: the first, the last, and some that hold nothing.
def some_places(script):
    places = master.RECORDS_AT_MOST * (len(script.file) // master.BLOCK)
    chance = script.chance
    for place in {0, 14, places - 16, places - 15, places - 1, places, 2**63, chance.below(places + 1)}:
        script.product(max(0, place))


# As many rows as there may be, and more.
def too_many_rows(script):
    one = mornings.many_rows(script.chance.below(mornings.ENDINGS))(script.chance)
    script.use(one.file)
    script.judge_file()
    script.read_notices(one.notices)
    script.differences(one.rows)


# Mornings: the products of a file by their places, notices, tables after them with their rows, the whole delivery, and
# rows from elsewhere.
def some_deliveries(script):
    chance = script.chance
    makers = (mornings.history, mornings.history, mornings.history_with_others, mornings.slip, mornings.odd_lines,
              mornings.every_byte)
    for make in (*makers, *chance.sample([mornings.stored_file(number) for number in range(9)], 2)):
        one = make(chance)
        script.use(one.file)
        some_places(script)
        if script.judge_file() or script.read_notices(one.notices):
            continue
        items = [item.id.rstrip() for item in master.read_products(one.file)]
        for code in (*chance.sample(items, min(3, len(items))), b'NONE'):
            script.deliver(code)
            script.show()
            script.rows()
        script.delivery()
        for text in (one.rows, deliver.deliver(one.file, one.notices)[0]):
            script.differences(text)
    if chance.below(12) == 0:
        too_many_rows(script)


# Days, months and keys as texts, and decimals: those at the ends, and any.
def some_texts(script):
    chance = script.chance
    for day in (0, 59, dates.DAYS - 1, dates.DAYS, 65535, chance.below(dates.DAYS)):
        script.day_text(day)
    for month in (0, 11, 12, dates.MONTHS - 1, dates.MONTHS, 65535, chance.below(dates.MONTHS)):
        script.month_text(month)
    for kind in range(6):
        script.key_text(kind, chance.below(dates.MONTHS))
    for number in (0, 1, 9_999, 10_000, 123_400, 999_999_999, 2**32 - 1, chance.below(2**32)):
        script.decimal(number)
    some = f'{chance.below(10**5)}.{chance.below(10**4):04}'
    for word in ('0', '7', '007', '12.3', '12.34', '12.3400', '0.0001', '99999.9999', '429496', '429497', '429496.7295',
                 '429496.7296', '42949672960', '9' * 40, '12.34567', '0.00001', 'x', '1x', '-1', '1.2.3', some):
        script.read_decimal(word)
    for amount in (0, 1, 9_999, 10_000, 480_000, 2**53 - 1, chance.below(2**50)):
        script.amount(chance.below(2), amount, chance.choice((0, 1, 9_999, chance.below(10_000))))
    script.amount(True, 0, 0)


# The changes that close a week of a table's calendar.
def a_week_closed(calendar):
    if not trading.cover_fits(calendar):
        return ()
    monday = next(day for day in range(trading.first_day(calendar) + 30, 40000) if dates.weekday(day) == 0)
    places = [trading.position_of(calendar.first_year, day) for day in range(monday, monday + 5) if day not in calendar.closed]
    return [(CLOSED, place // 8, 128 >> place % 8) for place in places]


# Days of a calendar closed and opened again: of a made-up one, one after the other, until a week has one day left; and of
# calendars that no file has.
def some_calendar_days(script):
    chance = script.chance
    years = chance.choice((1, 2, 5, 16))
    script.make(chance.below(2**32), chance.randint(2000, 2100 - years), years)
    first, last = trading.first_day(script.calendar), trading.last_day(script.calendar)
    start = chance.randint(first, last - 14)
    for day in (first, last, first - 1 if first else 65535, last + 1, 65535, *range(start, start + 14)):
        script.trades(day)
        script.calendar_close(day)
    for day in (*range(start, start + 14), *chance.sample(sorted(script.calendar.closed), 3), last + 1):
        script.calendar_reopen(day)
        script.trades(day)
    closed = next(day for day in range(first, last) if trading.is_trading_day(script.calendar, day))
    script.restore()
    script.take_calendar()
    held = script.calendar
    for day in (*sorted(held.exchange)[:3], *sorted(held.closed - held.exchange)[:3], closed):
        script.calendar_reopen(day)
        script.calendar_close(day)
    wrong = ((FIRST_YEAR, 0, 1999), (YEARS, 0, 0), (YEARS, 0, 17), (CLOSED, 0, 255), (EXCHANGE, 1, 16))
    for changes in (*((change,) for change in wrong), a_week_closed(script.kept.calendar)):
        script.restore()
        for change in changes:
            script.damage(*change)
        script.take_calendar()
        for day in (closed, first, 3000):
            script.trades(day)
            script.calendar_close(day)
            script.calendar_reopen(day)


# Tables to bytes and back, and the products of a file.
def some_stores(script):
    calendar, items, file = file_of_histories(script.chance)
    script.use(file)
    script.judge_file()
    script.products()
    if opened(script, calendar, items):
        script.stored()
        script.show()
        script.keep()
        for change in some_changes(script)[:4]:
            script.restore()
            script.damage(*change)
            script.stored()
            script.show()
    for _ in range(4):
        script.use(some_file(script.chance)[1])
        script.products()


PARTS = (some_days, some_files, some_histories, some_writings, some_deliveries, some_rounds, some_texts, some_calendar_days,
         some_stores)

# What the scripts of a set must have: every refusal of every call, both verdicts on a list, files written from calendars
# with and without days after their cover, notices with and without a bad line, and differences.
ANSWERS = {
    'day': (0, 23), 'date': (0, 23), 'load': range(9), 'open': (*range(10), 11, 16, 24),
    'judge_file': range(9), 'open_in': (0, 9, 11, 16, 24), 'roll': (0, 10, 11, 12, 16),
    'close': (0, 10, 11, 13, 14, 15, 16), 'reopen': (0, 10, 11, 13, 26, 27), 'measure': (0, 10, 19, 21, 28, 29),
    'last': (0, 10, 18), 'due': (0, 10, 11, 17), 'tick': (0, 10, 19, 20), 'cash': (0, 10, 19, 20, 21, 22),
    'judge': (0, 10), 'announce': (0, 1), 'take': (0, 1), 'finish': range(9), 'make': (0, 4),
    'write': (0, *range(3, 9), 25), 'handle': (0, 10, 30), 'join': (0, 10, 30, 31), 'leave': (0, 10, 30, 31),
    'product': range(10), 'deliver': (0, 9, 11, 16), 'rows': (0, 10), 'products': range(9),
    'calendar_close': (0, *range(3, 7), 11, 14, 15), 'calendar_reopen': (0, *range(3, 7), 11, 26),
}
WANTED = frozenset((name, number) for name, numbers in ANSWERS.items() for number in numbers) | {
    ('verdict', True), ('verdict', False), ('written', True), ('written', False), ('notices', True), ('notices', False),
    *(('differs', why) for why in ('missing', 'extra', 'twice', 'day', 'number', 'product'))}


# A script of a seed: every part of it.
def script_of(seed):
    script = Script(f'calls {seed}')
    script.interface()
    for part in PARTS:
        part(script)
    return script


# Writes a script's files into a folder.
def put(script, folder):
    for name, data in script.files.items():
        write(os.path.join(folder, name), data)
    for name, lines in (('script', script.lines), ('expected', script.answers)):
        write(os.path.join(folder, name), ''.join(f'{line}\n' for line in lines).encode())


def main(arguments):
    seed, folder = arguments
    os.makedirs(folder)
    put(script_of(seed), folder)
    return 0


if __name__ == '__main__':
    sys.exit(main(sys.argv[1:]))
