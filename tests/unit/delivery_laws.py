"""Tests of what holds of the second program's deliver and reconcile on every input, on
files and notices from a seed: python3 -m tests.unit.delivery_laws"""

import random
import unittest

from tests.inputs.products import FUTURES_2005, PRODUCTS, WEEKLY, by_id
from tests.inputs.tables.files import closable
from tests.second import dates, master, notices, product, replay, terms, trading, vendor, words
from tests.second.book import Book
from tests.second.deliver import deliver
from tests.second.reconcile import HEADING, reconcile
from tests.second.trading import Calendar

# Products of all kinds.
ITEMS = by_id(*PRODUCTS, *FUTURES_2005, *WEEKLY)
CODES = [words.id_word(item.id) for item in ITEMS]


# ---- Files and notices ----

# A calendar of some years from 2008 on with closed days, half of them in the second map.
def some_calendar(chance, years):
    days = range(dates.first_day_of_year(2008), dates.first_day_of_year(2008 + years))
    closed = closable(chance.sample(days, 12 * years))
    return Calendar(2008, years, closed, frozenset(day for day in closed if chance.random() < 0.5))


# An opening on a day and notices after it, with days that are rarely after a last one.
def some_notices(chance, first, last, count):
    lines, day = [day_line('O', first)], first
    for _ in range(count):
        letter = chance.choice('RRRCCEEM')
        if letter == 'R':
            day = min(day + chance.randrange(-1, 12), last)
            lines.append(day_line('R', day))
        elif letter == 'M':
            lines.append(b'M %s %d %d %d\n' % (chance.choice(CODES), *(chance.randrange(most) for most in (4, 4, 20))))
        else:
            lines.append(day_line(letter, min(day + chance.randrange(-2, 40), last)))
    return lines


def day_line(letter, day):
    return f'{letter} {terms.day_text(day)}\n'.encode()


# A file of seven years and notices, all of whose products can be opened.
def some_morning(chance, count):
    calendar = some_calendar(chance, 7)
    first = dates.day_of(2008, 1, 8) + chance.randrange(400)
    lines = some_notices(chance, first, trading.last_day(calendar) - 1900, count)
    return calendar, first, lines


# ---- Outputs ----

# The rows of a product.
def rows_of(printed, code):
    return [row for row in printed.splitlines() if row.startswith(code + b',')]


# The refused calls that deliver tells, by id: pairs of a line's number and a refusal.
def refusals(errors):
    found = {}
    for line in errors.splitlines():
        place, _, number, code = line.removeprefix(b'notices.txt:').split()
        found.setdefault(code, []).append((int(place[:-1]), int(number)))
    return found


class Demand3(unittest.TestCase):

    # Every product's rows and refusals are its book's, with the notices as the list.
    def test_book(self):
        chance = random.Random(3)
        for _ in range(5):
            calendar, first, lines = some_morning(chance, 60)
            printed, errors = deliver(master.build(calendar, ITEMS), b''.join(lines))
            found, calls = refusals(errors), notices.read(b''.join(lines))[1][1:]
            for item, code in zip(ITEMS, CODES):
                book = Book(item.kind, item.group, item.size, calendar, first)
                self.assertEqual(found.get(code, []), self.refused_by(book, item, calls))
                self.assertEqual(rows_of(printed, code), [self.row(item, *maturity) for maturity in book.maturities])

    # The refused calls of a product's book.
    def refused_by(self, book, item, calls):
        refused = []
        for place, (letter, *arguments) in calls:
            if letter != 'M':
                number = {'R': book.roll, 'C': book.close, 'E': book.reopen}[letter](*arguments)[0]
            else:
                number = book.measure(*arguments[1:])[0] if arguments[0] == item.id else 0
            refused += [(place, number)] if number else []
        return refused

    def row(self, item, key, day, back, number):
        return ','.join((words.id_word(item.id).decode(), str(number), terms.key_text(item.kind, key),
                         terms.day_text(day), str(back))).encode()


class Comments(unittest.TestCase):

    # "A notice that is refused for every product may be made a comment: nothing changes by
    # it", the lines that tell it aside.
    def test_refused_for_every_product(self):
        chance, tried = random.Random(5), 0
        for _ in range(6):
            calendar, _, lines = some_morning(chance, 40)
            file = master.build(calendar, ITEMS)
            printed, errors = deliver(file, b''.join(lines))
            for place in self.refused_places(lines, errors):
                others = [line for line in errors.splitlines(keepends=True)
                          if not line.startswith(b'notices.txt:%d:' % place)]
                changed = [*lines[:place - 1], b'# ' + lines[place - 1], *lines[place:]]
                self.assertEqual(deliver(file, b''.join(changed)), (printed, b''.join(others)))
                tried += 1
        self.assertGreater(tried, 20)

    # The numbers of the lines that every product refused which they are calls of.
    def refused_places(self, lines, errors):
        places = [place for refused in refusals(errors).values() for place, _ in refused]
        return [place for place, line in enumerate(lines, 1)
                if places.count(place) == (1 if line[:1] == b'M' else len(ITEMS))]


class Reconciled(unittest.TestCase):

    # What deliver prints, in any order, as five fields, as three and as both: nothing differs.
    # Then with faults, against note 12.
    def test_delivered_rows(self):
        chance = random.Random(7)
        for _ in range(5):
            calendar, _, lines = some_morning(chance, 20)
            file, text = master.build(calendar, ITEMS), b''.join(lines)
            rows = deliver(file, text)[0].splitlines()[1:]
            chance.shuffle(rows)
            short = [b','.join(row.split(b',')[place] for place in (0, 2, 3)) for row in rows]
            for given in (rows, short, rows[::2] + short[1::2]):
                self.assertEqual(reconcile(file, text, b'\n'.join(given))[0], HEADING)
            for faults in (1, 4, 8):
                self.against_note_12(file, text, self.with_faults(chance, rows, faults))

    # Rows left out, doubled, with another day or another number.
    def with_faults(self, chance, rows, count):
        for _ in range(count):
            place = chance.randrange(len(rows))
            fields = rows[place].split(b',')
            at, other = chance.choice(((1, b'1'), (3, b'2009-06-19'), (3, b'2008-03-20'), (4, b'7')))
            changed = b','.join((*fields[:at], other, *fields[at + 1:]))
            rows = chance.choice((rows[:place] + rows[place + 1:], [*rows, changed], [*rows, rows[place]],
                                  rows[:place] + [changed] + rows[place + 1:]))
        return rows

    # "The keys with `missing`, `extra`, `twice` or `day` of a product with a table are ALL keys
    # that differ in the sense of note 12, and there is none exactly where note 12's answer is
    # yes."
    def against_note_12(self, file, text, rows):
        said = [line.split(b',') for line in reconcile(file, text, b'\n'.join(rows))[0].splitlines()]
        for standing in replay.begin(file, text)[1].products:
            code, read = words.id_word(standing.item.id), self.reader(standing.item.kind)
            found = {read(line[1]) for line in said
                     if line[0] == code and line[2] in (b'missing', b'extra', b'twice', b'day')}
            pairs = [(read(row.split(b',')[2]), words.day_of(row.split(b',')[3]))
                     for row in rows if row.startswith(code + b',')]
            self.assertEqual(vendor.judge(standing.held, [number for pair in pairs for number in pair])[:2],
                             (0, not found))
            self.assertEqual(vendor.differing(vendor.fresh_pairs(standing.held), pairs), found)

    # What reads a maturity of a kind.
    def reader(self, kind):
        return words.day_of if product.is_weekly(kind) else words.month_of


class YearsAdded(unittest.TestCase):

    # A calendar with years added at its end, and closed days in them.
    def longer(self, chance, calendar, years):
        last = trading.last_day(calendar)
        days = range(last + 1, dates.first_day_of_year(calendar.first_year + years))
        closed = closable(sorted(calendar.closed) + chance.sample(days, len(days) // 20))
        return Calendar(calendar.first_year, years, calendar.closed | {day for day in closed if day > last},
                        calendar.exchange)

    # Whether a product is one whose rows stay: none of its calls was refused with 11 or 16,
    # which a later year may take away, and none is refused with 15 that was not.
    def stays(self, before, after):
        return not any(number in (11, 16) for _, number in before) and not any(
            number == 15 and (place, 15) not in before for place, number in after)

    def test_rows_stay(self):
        chance, same, other = random.Random(11), 0, 0
        for years in (3, 3, 4, 4, 6, 6, 6, 7, 7, 7):
            calendar = some_calendar(chance, years)
            first = dates.day_of(2008, 1, 8) + chance.randrange(300)
            lines = b''.join(some_notices(chance, first, trading.last_day(calendar) + 20, 40))
            short, told = deliver(master.build(calendar, ITEMS), lines)
            long, told_later = deliver(master.build(self.longer(chance, calendar, years + 3), ITEMS), lines)
            before, after = refusals(told), refusals(told_later)
            for code in CODES:
                differ = rows_of(short, code) != rows_of(long, code) or before.get(code) != after.get(code)
                if self.stays(before.get(code, []), after.get(code, [])):
                    self.assertFalse(differ, code)
                    same += 1
                other += differ
        self.assertGreater(same, 40)
        self.assertGreater(other, 10)


if __name__ == '__main__':
    unittest.main()
