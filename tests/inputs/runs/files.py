"""States of master.bin: files of every legal size, whole, with one fault and
with two; files of other lengths; no readable file at all (01, "Master file",
questions 1 to 9; the program `terms`)."""

from dataclasses import dataclass, replace
from functools import lru_cache

from tests.inputs import cases
from tests.inputs.runs.case import FILE, FOLDER, LINK, LOCKED, MISSING, Master, with_file
from tests.inputs.runs.lines import day_word, text_of
from tests.inputs.tables.files import closable
from tests.second import dates, master, product, trading
from tests.second.master import BLOCK, FILE_AT_MOST, RECORD, RECORDS_AT_MOST, two_bytes
from tests.second.trading import BYTES_PER_YEAR, YEARS_AT_MOST, Calendar

# 01, question 1: "from 1,024 to 65,536", in blocks.
SIZES = range(2, FILE_AT_MOST // BLOCK + 1)


# The parts of a file: years of calendar blocks, then product blocks of per_block
# records, in the last one perhaps fewer.
@dataclass(frozen=True)
class Layout:
    calendar: Calendar
    blocks: int
    per_block: int
    products: tuple

    @property
    def years(self):
        return self.calendar.years

    # The block, and the place in it, of the record k of the file.
    def record(self, k):
        return self.years + k // self.per_block, master.HEADER + RECORD * (k % self.per_block)

    # The count of records of a product block.
    def count(self, block):
        before = self.per_block * (block - self.years)
        return min(self.per_block, len(self.products) - before)

    # The file, with damages done to it in order.
    def file(self, *damages):
        return master.build(self.calendar, self.products, self.per_block, damages)


# A calendar with some closures, each week with a trading day, and some of them in
# the second map (02, note 4).
def some_calendar(chance, years):
    last = dates.LAST_YEAR + 1 - years
    first_year = chance.choice((dates.FIRST_YEAR, last, chance.randint(dates.FIRST_YEAR, last)))
    empty = Calendar(first_year, years, frozenset())
    days = range(trading.first_day(empty), trading.last_day(empty) + 1)
    closed = closable(chance.sample(days, chance.randrange(12 * years)))
    second = chance.sample(sorted(closed), chance.randint(0, len(closed)))
    return Calendar(first_year, years, closed, frozenset(second))


# Kinds with the same group digits: a future of 2005 and a weekly option (02, notes 1
# and 3).
OTHER_KINDS = {product.FUTURE: product.FUTURE_2005, product.OPTION_12: product.OPTION_WEEKLY}


# As many products as a file can hold, by rising id. Every third future is one of
# 2005, and every third option of 12 months a weekly one; every second size has
# ten-thousandths of a share (02, note 11).
@lru_cache(maxsize=1)
def all_products():
    products = cases.many_products(RECORDS_AT_MOST * (SIZES[-1] - 1))
    kinds = [OTHER_KINDS.get(one.kind, one.kind) if k % 3 == 0 else one.kind for k, one in enumerate(products)]
    return [replace(one, kind=kind, size=one.size + k % 2 * (9_999 - k))
            for k, (one, kind) in enumerate(zip(products, kinds))]


# A file's parts for a number of blocks.
def some_layout(chance, blocks):
    years = min(chance.choice((1, 2, 3, 5, 7, YEARS_AT_MOST)), blocks - 1)
    per_block = chance.choice((RECORDS_AT_MOST, RECORDS_AT_MOST, chance.randint(1, RECORDS_AT_MOST)))
    count = per_block * (blocks - years - 1) + chance.randint(1, per_block)
    products = all_products()
    places = sorted(chance.sample(range(len(products)), count))
    return Layout(some_calendar(chance, years), blocks, per_block, tuple(products[k] for k in places))


# ---- Faults: each a damage after which its question is answered no ----

# 1: "Is the length a multiple of 512, from 1,024 to 65,536?"
def length_fault(chance, layout):
    size = BLOCK * layout.blocks
    return 'length', chance.choice((0, 1, BLOCK, size - chance.randrange(1, BLOCK),
                                    size + chance.randrange(1, BLOCK), FILE_AT_MOST + 1,
                                    FILE_AT_MOST + BLOCK))


# 2: "Is every check right?" The check, or a byte under it: one that is 0 or 1, or
# a year's, becomes 127.
def check_fault(chance, layout):
    block = chance.randrange(layout.blocks)
    return chance.choice((('check', block, chance.randint(1, 15)),
                          ('bytes only', block, chance.choice((0, 1, 2, 6, 15, 509)), b'\x7f')))


# 3: "Is every header, bytes 0–15, right (year 2000–2099)?"
def header_fault(chance, layout):
    block = chance.randrange(layout.blocks)
    numbers = (0, 1999, 2100, 65535) if block < layout.years else (0, 16, 256, 65535)
    offset, data = chance.choice((
        (0, chance.choice((b'\0', b'\3', b'\xff'))), (1, chance.choice((b'\0', b'\2', b'\xff'))),
        (2, two_bytes(chance.choice(numbers))), (4, two_bytes(block + 1)), (4, two_bytes(block + 256)),
        (chance.randint(6, 15), b'\1')))
    return 'bytes', block, offset, data


# 4: "Do 1 to 16 calendar blocks of consecutive rising years come first, then at
# least one product block and no other kind?"
def order_fault(chance, layout):
    last = layout.blocks - 1
    faults = [('exchange', layout.years - 1, last),
              ('bytes', last, 0, b'\1\1' + two_bytes(dates.LAST_YEAR))]
    if layout.years > 1:
        year = layout.calendar.first_year + 1
        faults += [('bytes', 1, 2, two_bytes(year + (1 if year < dates.LAST_YEAR else -1))),
                   ('exchange', 0, layout.years - 1)]
    if layout.blocks < SIZES[-1]:
        faults.append(('repeat', chance.randrange(layout.years)))
    return chance.choice(faults)


# Damage: further days in a map of a calendar block, whose rows are these.
def marking(rows, block, at, days_of_year):
    row = bytearray(rows[BYTES_PER_YEAR * block:BYTES_PER_YEAR * (block + 1)])
    for n in days_of_year:
        row[n // 8] |= 1 << (7 - n % 8)
    return 'bytes', block, at, bytes(row)


# Damage: further closed days in a calendar block.
def closing(layout, block, days_of_year):
    return marking(layout.calendar.to_map(), block, master.HEADER, days_of_year)


# Damage: a day in the second map of a calendar block that the first has not.
def second_alone(chance, layout, block):
    row = layout.calendar.to_map()[BYTES_PER_YEAR * block:BYTES_PER_YEAR * (block + 1)]
    free = [n for n in range(8 * BYTES_PER_YEAR) if not row[n // 8] & 1 << (7 - n % 8)]
    return marking(layout.calendar.to_second_map(), block, master.MAP_END, (chance.choice(free),))


# The day of the year, from 0, of a Monday of a whole week of a calendar block's
# year.
def some_monday(chance, layout, block):
    first = dates.first_day_of_year(layout.calendar.first_year + block)
    return (7 - dates.weekday(first)) % 7 + 7 * chance.randrange(51)


# 5: "Weekend bits, bits after the year's end and bytes [..]–509 are zero"; 02, note
# 4: a bit of the second map "may be set only where the first map has its bit".
def clean_fault(chance, layout):
    block = chance.randrange(layout.years)
    end = dates.year_length(layout.calendar.first_year + block)
    bit = chance.choice((some_monday(chance, layout, block) + chance.choice((5, 6)),
                         chance.randrange(end, 8 * BYTES_PER_YEAR)))
    return chance.choice((closing(layout, block, (bit,)), second_alone(chance, layout, block),
                          ('bytes', block, chance.randrange(master.SECOND_MAP_END, 510), b'\1')))


# 6: "Does every run of seven days in the cover hold a trading day?"
def week_fault(chance, layout):
    block = chance.randrange(layout.years)
    monday = some_monday(chance, layout, block)
    return closing(layout, block, range(monday, monday + 5))


# Values of fields that are wrong in a record of any kind.
WRONG = [(offset, value) for _, offset, values in cases.OUTSIDE for value in values
         if (offset, value) not in ((4, b'FR01'), (12, b'\0'), (12, b'\4'))] + [(12, b'\6')]


# 7: "Is every record, and all that must be zero in its block, as stated?"
def record_fault(chance, layout):
    block, start = layout.record(chance.randrange(len(layout.products)))
    offset, value = chance.choice(WRONG)
    unused = chance.randrange(master.HEADER + RECORD * layout.count(block), master.CHECK)
    return chance.choice((('bytes', block, start + offset, value), ('bytes', block, start + offset, value),
                          ('bytes', block, unused, b'\1')))


# 8: "Do the ids strictly rise, byte by byte, over the file?" An id that equals
# the one before it or falls below it; a lone record's block stands twice.
def id_fault(chance, layout):
    if len(layout.products) == 1:
        return 'repeat', layout.blocks - 1
    k = chance.randrange(1, len(layout.products))
    block, start = layout.record(k)
    return 'bytes', block, start, chance.choice((layout.products[k - 1].id, b'0   '))


FAULTS = {1: length_fault, 2: check_fault, 3: header_fault, 4: order_fault, 5: clean_fault,
          6: week_fault, 7: record_fault, 8: id_fault}


# ---- Runs on files ----

# The id of a record without its spaces.
def name_of(item):
    return item.id.rstrip()


# Opens of some of a file's products and of ids that are not there, in and out of
# the cover, then rolls and closes.
def opens(chance, layout):
    first, last = trading.first_day(layout.calendar), trading.last_day(layout.calendar)
    days = (first, first + 7, last, chance.randint(first, last), chance.randint(first, (first + last) // 2))
    names = (name_of(layout.products[0]), name_of(layout.products[-1]),
             name_of(chance.choice(layout.products)), b'0', b'AXA', b'ZZZ9')
    lines = [b'O %s %s' % (chance.choice(names), day_word(chance.choice(days))) for _ in range(6)]
    lines += [b'O %s %s' % (name_of(chance.choice(layout.products)), day_word(chance.choice(days[:2]))),
              b'R ' + day_word(chance.choice(days)), b'C ' + day_word(chance.randint(first, last))]
    return text_of(lines)


# The layout with a fault of each of these questions, done in falling order: what
# is damaged later can't mend the check of what was damaged before.
def faulty(chance, layout, questions):
    return layout.file(*(FAULTS[number](chance, layout) for number in sorted(questions, reverse=True)))


# An accepted file of some size, or one with faults of these questions.
def sized_file(chance, blocks, questions=()):
    layout = some_layout(chance, blocks)
    faults = ' and '.join(map(str, sorted(questions))) or 'none'
    return with_file(f'{blocks} blocks, faults: {faults}', faulty(chance, layout, questions),
                     opens(chance, layout))


# All files of cases.py.
@lru_cache(maxsize=1)
def stored_files():
    return list(cases.cases())


# One of them.
def stored_file(chance):
    name, file = chance.choice(stored_files())
    return with_file(f'file {name}', file, STATE_COMMANDS)


# A file in which some bytes are others, under right checks or not.
def hurt_file(chance, blocks):
    layout = some_layout(chance, blocks)
    file = bytearray(layout.file())
    for _ in range(chance.randint(1, 3)):
        file[chance.randrange(len(file))] ^= 1 << chance.randrange(8)
    if chance.random() < 0.7:
        for block in range(blocks):
            master.seal(file, block)
    return with_file(f'{blocks} blocks, some bytes changed', bytes(file), opens(chance, layout))


# ---- Other states of master.bin ----

# 01: "A `master.bin` that can't be read counts as empty, and one of more than
# 65,536 bytes gets 1." An accepted file cut short or followed by other bytes; no
# file; links to nothing, to themselves, to what can't be read, to what is empty
# and to what does not end.
def states():
    small, large = cases.six(), cases.largest()
    files = [small[:length] for length in (0, 1, 511, 512, 513, 1023, 1024, 1025, len(small) - 1)]
    files += [small + b'\0', small + bytes(512), large, large + b'\0', large + bytes(512), large + large,
              bytes(1024), b'\xff' * 1024, bytes(65536), bytes(65537), bytes(3_000_000), b'O AXA 2008-03-20\n']
    links = (b'nowhere', b'master.bin', b'/proc/self/mem', b'/dev/null', b'/dev/zero', b'.')
    return [*(Master(FILE, file) for file in files), *(Master(LINK, target) for target in links),
            Master(MISSING), Master(FOLDER), Master(LOCKED, small), Master(LOCKED, b'')]


# The commands of a run on such a state.
STATE_COMMANDS = text_of((
    b'R 2008-03-20', b'O AXA 2008-03-20', b'O ZZZZ 2084-01-05', b'R 2008-03-21', b'O NONE 2008-03-20',
    b'C 2008-04-18', b'', b'O AXA 2099-12-31', b'O AXA 2100-01-01'))
