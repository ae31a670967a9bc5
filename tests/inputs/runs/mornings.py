"""The runs of deliver, reconcile and query that are compared, from a seed: a master file,
notices, rows and questions each. Each run depends on the seed and its own number alone."""

import os
from dataclasses import dataclass, replace
from functools import lru_cache
from itertools import islice

from tests import ROOT
from tests.inputs import cases as stored_cases
from tests.inputs.products import AXAF_LINE, AXAW_LINE, AXA_LINE, PENY_LINE
from tests.inputs.runs import files, lines, notices, questions, rows
from tests.inputs.runs.case import PIECES, STORED, WHOLE, Chance
from tests.inputs.runs.histories import ITEMS
from tests.inputs.tables.files import clustered, clustered_weekly, with_second_map
from tests.second import lists, master, product, trading
from tests.second.deliver import deliver

# The runs of a whole set: it holds every family.
COUNT = 660

EXAMPLE = os.path.join(ROOT, 'examples', 'morning')
OPEN, ROLL = b'O 2008-03-20', b'R 2008-03-21'


@dataclass(frozen=True)
class Morning:
    name: str
    file: bytes
    notices: bytes
    rows: bytes = b''
    questions: bytes = b''
    feed: str = WHOLE


# The master file of a text.
def file_of(*text):
    return lists.compose(b'\n'.join(text))[0]


# 01's example with a future, a weekly option and a future of 2005 with a tick and a size of 1.
SMALL = file_of(b'Y 2008 3', b'C 2008-03-21', b'X 2008-03-24', AXA_LINE,
                AXAF_LINE, AXAW_LINE, PENY_LINE)
ONE = file_of(b'Y 2008 2', AXA_LINE)


# ---- Runs that are the same in every set ----

def example_file(name):
    with open(os.path.join(EXAMPLE, name), 'rb') as file:
        return file.read()


# examples/morning, with the right delivery and the wrong one, and on its next morning.
def examples():
    file, said, asked = map(example_file, ('master.bin', 'notices.txt', 'questions.txt'))
    for name, later in (('delivery.csv', b''), ('wrong.csv', b''), ('delivery.csv', b'R 2008-04-21\n')):
        yield Morning(f'examples/morning, {name}', file, said + later, example_file(name), asked)


# Every refusal of a call, and every answer to a question.
REFUSALS = (
    (b'O 2008-03-20', b'R 2008-03-19', b'C 2008-03-20', b'C 2008-03-22', b'C 2008-03-21', b'E 2008-03-25',
     b'R 2011-01-03', b'R 2010-12-30', *(b'C 2008-04-%02d' % day for day in (7, 8, 9, 10, 11)), b'M AXA 3 2 1',
     b'M AXAF 0 1 1', b'M AXAF 1 1000 99999', b'M AXAF 1 1 0', b'M ZZ 1 1 1', b'M ZZ 1 1 1', b'M AXAF 1 3 12.3400',
     b'M PENY 1 1000 0.0001', b'M PENY 1 10 0.0001', b'R 2008-03-27', b'C 2008-03-27', b'C 2008-03-28',
     b'E 2008-03-28'),
    (b'O 2008-04-01', b'C 2008-04-03', b'R 2008-04-03', b'C 2008-04-04', b'E 2008-04-04'),
    (b'# the first week', b'', b'O 2008-01-07', b'R 2008-01-08', b'M AXAW 1 1 1'), (b'O 2009-12-28', b'R 2009-12-29'),
    (b'O 2011-01-01',))
ANSWERS = (b'AXA last 2008-04', b'AXA last 2008-07', b'AXAW last 2008-04-04', b'AXAW last 2008-04',
           b'AXA due 2008-03-22', b'AXA due 2007-12-31', b'AXA due 2010-12-30', b'AXA tick 12.3400',
           b'AXA tick 12.3401', b'AXA tick 0', b'AXA cash 1 12 13', b'AXAF cash 0 12 13',
           b'AXAF cash 3 12.3400 12.5000', b'AXAF cash 3 12.5000 12.3400', b'PENY cash 1 0.0002 0.0001',
           b'PENY cash 1 0.0001 0.0001', b'AXAF size', b'PENY size', b'NONE size', b'x')
WRONG = (b'AXA,2008-04,2008-04-17', b'AXA,1,2008-05,2008-05-16,0', b'AXA,4,2008-06,2008-06-20,1',
         b'AXA,2008-09,2008-09-19', b'AXA,2008-09,2008-09-19', b'AXA,2008-12,2008-12-18', b'AXA,6,2008-12,2008-12-19,0',
         b'AXAF,9,2008-04,2008-04-17,9', b'AXAF,9,2008-05,2008-05-16,9', b'AXA,2020-01,2020-01-17',
         b'AXAW,2008-04-04,2008-04-04', b'XXXX,2008-04,2008-04-18', b'YY,2008-04-18,2008-04-18',
         b'XXXX,2008-04-18,2008-04-18', b'x')


def refusals():
    for text in REFUSALS:
        yield Morning(f'refusals after {text[0].decode()}', SMALL, b'\n'.join(text), b'\n'.join(WRONG),
                      b'\n'.join(ANSWERS))


# Files that are refused, with notices that are good, bad and none.
def refused_files():
    for file in (b'', bytes(1024), SMALL[:-1], SMALL + b'\0', SMALL + bytes(65536), bytes(65537), SMALL[:-1] + b'\1'):
        for text in (OPEN, b'', b'x'):
            yield Morning(f'a file of {len(file)} bytes', file, text, WRONG[0], ANSWERS[0])


def short_texts():
    for text in notices.SHORT:
        yield Morning(f'notices {text!r}', ONE, text, WRONG[0], ANSWERS[0])


def other_notices():
    for line in notices.every_other_line():
        yield Morning(f'notices with {line[:60]!r}', ONE, b'\n'.join((OPEN, ROLL, line, ROLL)), WRONG[0], ANSWERS[0])


def longest_texts():
    for text in notices.longest(OPEN, ROLL):
        yield Morning(f'notices of {len(text)} bytes', ONE, text, WRONG[0], ANSWERS[0])


def long_lines():
    for one in rows.long_lines():
        yield Morning('long rows', ONE, OPEN, one)
    for one in questions.long_lines():
        yield Morning('long questions', SMALL, OPEN, questions=one)


# Each heading, before a row, after an empty line, and after a row.
def headings():
    for line in rows.HEADINGS:
        for text in (line + b'\n' + WRONG[0], b' \r\n\n' + line + b'\n' + WRONG[0], WRONG[0] + b'\n' + line):
            yield Morning(f'heading {line[:30]!r}', ONE, OPEN, text)


def fixed():
    return [*examples(), *refusals(), *refused_files(), *short_texts(), *other_notices(), *longest_texts(), *headings(),
            *long_lines()]


# ---- Runs that are others in every set ----

# Products of all kinds, some of them with ten-thousandths of a share.
def some_items(chance):
    items = sorted(chance.sample(ITEMS, chance.randint(1, len(ITEMS))), key=lambda item: item.id)
    sizes = (chance.randint(product.SHARE, product.SIZE_AT_MOST) for _ in items)
    return [replace(item, size=size) if chance.random() < 0.3 else item for item, size in zip(items, sizes)]


# A calendar with closed days near the days that matter.
def some_calendar(chance):
    years = chance.choice((1, 2, 3, 6, 7, 8, 16))
    first = min(chance.choice((2000, 2008, 2008, 2090)), 2100 - years)
    calendar = chance.choice((clustered, clustered_weekly))(chance, first, years)
    return with_second_map(chance, calendar, 2) if chance.random() < 0.5 else calendar


# A day to open on: early in the cover, any, or at its ends and outside.
def some_opening(chance, calendar):
    first, last = trading.first_day(calendar), trading.last_day(calendar)
    early = min(last, first + 7 + chance.randrange(300))
    return chance.choice((early, early, early, chance.randint(first, last), first + chance.randrange(9),
                          last - chance.randrange(40),
                          max(0, first - 1), last + 1))


# A run on a file and lines of notices, with rows and questions that fit its delivery.
def on(chance, name, file, text, items, near):
    delivery = deliver(file, text)[0]
    return Morning(name, file, text, rows.text_of(chance, delivery, items),
                   questions.text_of(chance, delivery, items, near),
                   chance.choice((WHOLE, WHOLE, STORED, PIECES)))


# A history, perhaps with lines that are none.
def some_history(chance, others=0):
    calendar, items = some_calendar(chance), some_items(chance)
    date = some_opening(chance, calendar)
    said = notices.history(chance, calendar, items, date, chance.choice((0, 3, 10, 30, 60)))
    file = master.build(calendar, items, chance.choice((15, 15, 4, 1)))
    return on(chance, 'a history', file, notices.dressed(chance, notices.with_others(chance, said, others)), items,
              date)


def history(chance):
    return some_history(chance)


def history_with_others(chance):
    return some_history(chance, chance.choice((1, 1, 2)))


# One slip in one of the notices of 01's example.
def slip(chance):
    said = [OPEN, ROLL, b'C 2008-04-18', b'E 2008-04-18', b'M AXAF 3 2 12.3400', b'R 2008-04-22']
    place = chance.randrange(len(said))
    said[place] = lines.mutated(chance, said[place])
    return on(chance, 'a slip', SMALL, b'\n'.join(said), master.read_products(SMALL), 3000)


# All lines that are no rows and no questions.
def odd_lines(chance):
    return Morning('odd lines', SMALL, OPEN, rows.odd_lines(chance), questions.odd_lines(chance),
                   chance.choice((WHOLE, STORED)))


# Every byte of a row changed.
def every_byte(chance):
    row = chance.choice((b'AXA,2008-04,2008-04-18', b'"AXA";2;2008-04;2008-04-18;0', b'AXAW\t2008-04-04\t"2008-04-04"'))
    return Morning('every byte of a row', SMALL, OPEN, rows.every_byte(chance, row), questions.odd_lines(chance))


# As many rows as there may be, and more: the texts of rows.many, which end in as many ways.
ENDINGS = 4


def many_rows(place):
    def made(chance):
        return Morning('many rows', ONE, OPEN, rows.many(chance)[place], b'', chance.choice((WHOLE, STORED)))
    return made


# The files of cases.py by their refusal, 0 for none.
@lru_cache(maxsize=1)
def stored_files():
    found = {}
    for name, file in stored_cases.cases():
        found.setdefault(stored_cases.refusal_of(name), []).append((name, file))
    return found


# One of those with a refusal.
def stored_file(refusal):
    def made(chance):
        name, file = chance.choice(stored_files()[refusal])
        return Morning(f'file {name}', file, chance.choice((OPEN, b'O 2084-01-08', b'')), WRONG[0], b'AXA size')
    return made


# Files of many products.
def many_products(chance):
    layout = files.some_layout(chance, chance.choice((20, 60, 128)))
    date = trading.first_day(layout.calendar) + 7 + chance.randrange(60)
    said = notices.history(chance, layout.calendar, layout.products, date, 4)
    return on(chance, 'many products', layout.file(), notices.dressed(chance, said), layout.products, date)


# The example of 788 products, with a few mornings.
def large_example(chance):
    items = master.read_products(stored_cases.example())
    said = [OPEN, ROLL, b'C 2008-04-18', b'M AXAF 3 2 12.3400', b'R 2008-04-%02d' % chance.randint(1, 30)]
    return on(chance, 'the example of 788 products', stored_cases.example(), b'\n'.join(said), items, 3000)


# Each maker with the number of its runs.
MAKERS = ((odd_lines, 3), (every_byte, 4), *((many_rows(place), 1) for place in range(ENDINGS)),
          *((stored_file(number), 3) for number in range(9)), (many_products, 4),
          (large_example, 1), (slip, 40), (history_with_others, 80))


# All runs; there are further histories where more are asked for.
def makers():
    yield from ((lambda chance, one=one: one) for one in fixed())
    for maker, count in MAKERS:
        yield from [maker] * count
    while True:
        yield history


# The runs of a seed, in order.
def cases(seed, count=COUNT):
    for number, maker in enumerate(islice(makers(), count)):
        yield maker(Chance(f'{seed} {number}'))
