"""What the pictures ask of the second program."""
from tests.second import dates, listing, table, trading

MONTHS = ('Jan', 'Feb', 'Mar', 'Apr', 'May', 'Jun', 'Jul', 'Aug', 'Sep', 'Oct', 'Nov', 'Dec')
LONG = ('January', 'February', 'March', 'April', 'May', 'June', 'July', 'August', 'September', 'October', 'November', 'December')
WEEKDAYS = ('Monday', 'Tuesday', 'Wednesday', 'Thursday', 'Friday', 'Saturday', 'Sunday')


def year_of(month):
    return dates.year_and_month(month)[0]


def short(month):
    """A month number as 'Mar'."""
    return MONTHS[month % 12]


def day_text(day):
    """A day number as '20 March 2008'."""
    year, month, number = dates.date_of(day)
    return f'{number} {LONG[month - 1]} {year}'


def short_day(day):
    """A day number as '28 Mar'."""
    _, month, number = dates.date_of(day)
    return f'{number} {MONTHS[month - 1]}'


def weekday_text(day):
    return WEEKDAYS[dates.weekday(day)]


class Answers:
    """The second program on one master file."""

    def __init__(self, file):
        self.file = file
        refusal, opened, _, _ = table.open_table(file, b'AXA ', dates.day_of(2008, 3, 20))
        assert refusal == 0, refusal
        self.calendar = opened.calendar

    def opened(self, code, day):
        """The table of a product, opened on a day."""
        refusal, opened, _, _ = table.open_table(self.file, code.ljust(4).encode('ascii'), day)
        assert refusal == 0, (code, refusal)
        return opened

    def rolled(self, opened, day):
        refusal, rolled, _, _ = table.roll(opened, day)
        assert refusal == 0, (day_text(day), refusal)
        return rolled

    def listed(self, opened):
        """The maturities of a table: key, last trading day, days back, number."""
        return table.maturities(opened)

    def trades(self, day):
        return trading.is_trading_day(self.calendar, day)

    def closed(self, day):
        return trading.is_closed(self.calendar, day)

    def third_friday(self, month):
        return listing.third_friday(month)

    def usual_day(self, opened, key):
        return listing.anchor(opened.product.group, opened.product.kind, key)
