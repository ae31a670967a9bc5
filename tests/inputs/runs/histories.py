"""Histories of tables as commands: the book says what fits the moment (01, "The
table"; 02, note 3): covers of 1, 2, 3, 5, 7 and 16 years, closure clusters, long
histories."""

from tests.inputs.products import FUTURES_2005, PRODUCTS, WEEKLY, by_id, product_from
from tests.inputs.runs.case import with_file
from tests.inputs.runs.lines import OTHER_LINES, day_word, text_of
from tests.inputs.tables.files import clustered, clustered_weekly
from tests.inputs.tables.moments import push_calls, some_calls
from tests.inputs.tables.script import book_call
from tests.second import dates, listing, master, product, trading
from tests.second.book import Book

COVERS = (1, 2, 3, 5, 7, 16)

# 01, Last trading day: "for the groups IT01 and IT11 the day before that". All
# kinds, these groups and others that begin with IT.
ITEMS = by_id(*PRODUCTS, *FUTURES_2005, *WEEKLY, product_from('FIA2 IT02 XMIL 0 500 1 EUR'),
              product_from('ENI2 IT12 XMIL 1 500 1 EUR'), product_from('IT IT10 XMIL 3 500 1 EUR'))


# The lines written so far and the book that they leave.
class Session:

    def __init__(self, chance, years):
        last = dates.LAST_YEAR + 1 - years
        first_year = chance.choice((2000, 2008, last, chance.randint(2000, last)))
        self.chance = chance
        made = chance.choice((clustered, clustered_weekly))
        self.calendar = made(chance, min(first_year, last), years)
        self.file = master.build(self.calendar, ITEMS, chance.choice((15, 15, 4, 1)))
        self.lines = []
        self.book = None

    @property
    def first(self):
        return trading.first_day(self.calendar)

    @property
    def last(self):
        return trading.last_day(self.calendar)

    # The products that can be opened on a date.
    def openable(self, date):
        return [item for item in ITEMS
                if listing.passes_24(self.calendar, item.kind, date)
                and listing.listing_in_cover(self.calendar, item.group, item.kind, date)]

    # One of them, a weekly option more often than one among many.
    def some_item(self, date):
        items = self.openable(date)
        weekly = [item for item in items if product.is_weekly(item.kind)]
        return self.chance.choice(weekly if weekly and self.chance.random() < 0.3 else items)

    # An accepted open of a product.
    def open(self, item, date):
        self.lines.append(b'O %s %s' % (item.id.rstrip(), day_word(date)))
        self.book = Book(item.kind, item.group, item.size, self.calendar, date)

    # An accepted open of one of the products, early in the cover or on any date,
    # or on the first one where no listing fits any more.
    def open_some(self):
        date = self.chance.randint(self.first, self.chance.choice((self.first + 60, self.last)))
        if not self.openable(date):
            date = self.first
        self.open(self.some_item(date), date)

    # An accepted open on the first date, or on the first one for weekly options.
    def open_first(self):
        date = self.first + self.chance.choice((0, 7))
        self.open(self.some_item(date), date)

    # Rolls and closes, by the letter and the day.
    def make(self, calls):
        for letter, day in calls:
            self.lines.append(letter.encode('ascii') + b' ' + day_word(day))
            book_call(self.book, letter, day)

    # A line that leaves the table as it is: another line, an id that is not
    # there, a date outside the cover, a product whose listing does not fit, a weekly
    # option in the cover's first week.
    def disturb(self):
        self.lines.append(self.chance.choice((
            self.chance.choice(OTHER_LINES), b'O NONE ' + day_word(self.book.date),
            b'O AXA ' + day_word(self.first - 1), b'O AXA ' + day_word(self.last + 1),
            b'O DAI ' + day_word(self.last), b'O FIAT ' + day_word(self.last),
            b'O AXAW ' + day_word(self.last), b'O ENIW ' + day_word(self.first + self.chance.below(7)))))

    # The run.
    def case(self, name):
        return with_file(f'{name}, {self.calendar.years} years from {self.calendar.first_year}',
                         self.file, text_of(self.lines))


# Mixed calls, a new open at times, lines among them that change nothing.
def mixed(chance, years, length):
    session = Session(chance, years)
    session.open_some()
    while len(session.lines) < length:
        choice = chance.random()
        if choice < 0.04:
            session.open_some()
        elif choice < 0.1:
            session.disturb()
        else:
            session.make(some_calls(chance, session.book))
    return session.case('mixed calls')


# Dozens of calls.
def short_mixed(chance, years):
    return mixed(chance, years, chance.randint(20, 60))


# Hundreds of calls.
def long_mixed(chance, years):
    return mixed(chance, years, chance.randint(250, 450))


# Dates from one on, some days apart, as long as the listing fits the cover.
def dates_to_the_end(chance, book, step):
    stops = [book.date]
    while listing.listing_in_cover(book.calendar, book.group, book.kind, stops[-1]):
        stops.append(min(stops[-1] + chance.randint(1, step), trading.last_day(book.calendar)))
    return stops


# 01, question 16, by rolls to the last date that it accepts and past it, at the
# end from day to day; then out of the cover.
def to_the_end(chance, years):
    session = Session(chance, years)
    session.open_first()
    session.make(('R', date) for date in dates_to_the_end(chance, session.book, 3 + 9 * years))
    last = session.book.date
    session.make(('R', date) for date in (*range(last, min(last + 45, session.last + 1)), session.last,
                                          session.last + 1, session.first - 1, last))
    return session.case('rolls to the end')


# 01, question 15: weeks of the cover closed day by day, in some order; at the
# cover's ends too.
def closed_weeks(chance, years):
    session = Session(chance, years)
    session.open_first()
    others = chance.sample(range(session.first, session.last - 6), 6)
    for start in (session.first, session.first + 7, session.last - 6, *others):
        session.make(('C', day) for day in chance.sample(range(start, start + 7), 7))
    return session.case('closed weeks')


# 01, Where loaders go astray: "Keeping a front month whose day a closure has just
# moved before the date."
def pushed(chance, years):
    session = Session(chance, years)
    session.open_some()
    for _ in range(chance.randint(3, 8)):
        session.make(push_calls(session.book))
        session.make([('R', session.book.maturities[0][1] + chance.choice((0, 1)))])
    return session.case('front months pushed out')


# 01, question 16 by a close: the same on the last dates that fit the cover.
def pushed_at_the_end(chance, years):
    session = Session(chance, years)
    session.open_first()
    session.make([('R', dates_to_the_end(chance, session.book, 20)[-2])])
    for _ in range(4):
        session.make(push_calls(session.book))
    return session.case('front months pushed out at the end')


# Many opens in one run: every product, on dates of the cover and around it.
def many_opens(chance, years):
    session = Session(chance, years)
    days = [session.first - 1, session.first, session.first + 6, session.first + 7, session.last, session.last + 1,
            *(chance.randint(session.first, session.last) for _ in range(8))]
    session.lines = [b'O %s %s' % (item.id.rstrip(), day_word(day)) for item in ITEMS for day in days]
    return session.case('many opens')


# A closure in every week, in long covers in every few weeks, to the cover's end.
def many_closes(chance, years):
    session = Session(chance, years)
    session.open_first()
    weeks = range(session.first + 3, session.last, 7 * max(1, years // 3))
    session.make(('C', day + chance.randrange(5)) for day in weeks)
    return session.case('many closes')


# Refusals 9, 11 to 16, 24 and the other lines, each on a table that then rolls.
def refusals(chance, years):
    session = Session(chance, years)
    session.open_some()
    date = session.book.date
    saturday = date + 5 - dates.weekday(date)
    calls = [('R', session.first - 1), ('R', session.last + 1), ('R', date - 1), ('R', session.last),
             ('C', date), ('C', date - 1), ('C', session.last + 1), ('C', saturday), ('C', saturday + 1),
             *(('C', saturday + 2 + day) for day in range(5))]
    for call in calls:
        session.make([call])
        session.disturb()
        session.make([('R', date)])
    return session.case('refusals')


# Each maker with the number of its runs for each cover.
MAKERS = ((short_mixed, 9), (long_mixed, 2), (to_the_end, 3), (closed_weeks, 3), (pushed, 3),
          (pushed_at_the_end, 3), (many_opens, 1), (many_closes, 1), (refusals, 2))
