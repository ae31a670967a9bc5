"""Streams of commands with their master files, made from a seed: opens, rolls, many
rolls and closes on 3 years with 15 records and on 16 years with 1,000; and the same on
16 years whose closed days are made up (document 02, note 14), by a text that says
their seed. Of the rolls most move the listing, as some weeks lie between two of them;
of the many rolls most leave it as it is, as one from a day to the next does.

  python3 -m bench.streams FOLDER    a folder of FOLDER for each stream, with the
                                     files master.bin and input, and the text
                                     made-up.txt, from which compose makes the
                                     master.bin of the last four
"""
import os
import random
import sys

from tests.inputs import cases
from tests.inputs.products import item
from tests.second import listing, lists, master, trading
from tests.second.terms import day_text

SEED = 1
FIRST_YEAR = 2008
LINES = 600
MANY = 20_000
SIZES = ((3, 15), (16, 1000))  # years, records
MADE_UP_SEED = 14


# So many products by their ids. A13, the first to be taken, is a future, A12 an option
# with 12 months, A24 an option with 24 months.
def products_of(records):
    named = [item(b'A13', group=b'FR01', kind=0), item(b'A12'), item(b'A24', kind=2)]
    others = cases.many_products(1680)
    products = named[:records] + others[len(others) - max(records - len(named), 0):]
    return sorted(products, key=lambda one: one.id)


# A file of some years with the closures of the calendar in tests/inputs/data.
def file_of(years, records=15):
    with open(os.path.join(cases.DATA, 'closures-2000-2099.csv')) as lines:
        calendar = master.calendar_from_csv(lines, FIRST_YEAR, years)
    return master.build(calendar, products_of(records))


# The text of a file like the larger one, with made-up closed days.
def made_up_text():
    years, records = SIZES[1]
    return b'S %d %d %d\n' % (MADE_UP_SEED, FIRST_YEAR, years) + b''.join(map(lists.product_line, products_of(records)))


# The days of a file's cover on which the listing of a product is complete.
def complete_days(calendar, item):
    def complete(day):
        return listing.listing_in_cover(calendar, item.group, item.kind, day)
    first, end = trading.first_day(calendar), trading.last_day(calendar)
    if not complete(first):
        return range(0)
    while first < end:  # the last of them, by halves
        middle = (first + end + 1) // 2
        first, end = (middle, end) if complete(middle) else (first, middle - 1)
    return range(trading.first_day(calendar), first + 1)


def line(letter, day, code=b''):
    word = code.rstrip() + b' ' if code else b''
    return letter + b' ' + word + day_text(day).encode() + b'\n'


# Opens of any product on any day on which its listing is complete.
def opens(file, rng, count):
    calendar, items = master.contents(file)
    kinds = {}
    found = []
    while len(found) < count:
        item = rng.choice(list(items.values()))
        key = (item.kind, item.group)
        if key not in kinds:
            kinds[key] = complete_days(calendar, item)
        if kinds[key]:
            found.append(line(b'O', rng.choice(kinds[key]), item.id))
    return found


# An open of a product on the first day, then rolls to later and later dates.
def rolls(file, rng, count, code):
    calendar, items = master.contents(file)
    days = complete_days(calendar, items[code])
    later = sorted(rng.choice(days) for _ in range(count - 1))
    return [line(b'O', days[0], code)] + [line(b'R', day) for day in later]


# An open of a product on the first day, then closes of any days of the cover, those
# that can't be closed among them.
def closes(file, rng, count, code):
    calendar = master.contents(file)[0]
    days = range(trading.first_day(calendar), trading.last_day(calendar) + 1)
    return [line(b'O', days[0], code)] + [line(b'C', rng.choice(days)) for _ in range(count - 1)]


# The same for each of some products, one after the other.
def each(make, codes):
    def made(file, rng, count):
        return [one for code in codes for one in make(file, rng, count // len(codes), code)]
    return made


# How the lines of each stream are made, and how many.
def makers(years):
    codes = (b'A13 ', b'A12 ', b'A24 ') if years == 3 else (b'A13 ',)
    return (('opens', opens, LINES // 10 if years == 16 else LINES), ('rolls', each(rolls, codes), LINES),
            ('many rolls', each(rolls, codes), MANY), ('closes', each(closes, codes), LINES))


# The streams of a file: name and lines of each.
def streams_of(file, years):
    for name, make, count in makers(years):
        rng = random.Random(f'{SEED} {years} {name}')
        yield name, make(file, rng, count)


# Each stream of a file with the calendar in tests/inputs/data: its name, its file, its lines.
def streams():
    for years, records in SIZES:
        file = file_of(years, records)
        for name, lines in streams_of(file, years):
            yield f'{name}, {years} years, {records:,} records', file, lines


# The same of the file of the text above.
def made_up_streams(file):
    years = SIZES[1][0]
    for name, lines in streams_of(file, years):
        yield f'{name}, {years} made-up years', file, lines


def main():
    for name, file, lines in (*streams(), *made_up_streams(lists.compose(made_up_text())[0])):
        folder = os.path.join(sys.argv[1], name.split(' years')[0].replace(', ', '-').replace(' ', '-'))
        os.makedirs(folder, exist_ok=True)
        for part, data in (('master.bin', file), ('input', b''.join(lines))):
            with open(os.path.join(folder, part), 'wb') as out:
                out.write(data)
    with open(os.path.join(sys.argv[1], 'made-up.txt'), 'wb') as out:
        out.write(made_up_text())


if __name__ == '__main__':
    main()
