"""The days and months that a definition writes as numbers, as dates with their weekdays."""
import re
from datetime import date, timedelta

FIRST = date(2000, 1, 1)
WRITTEN = re.compile(r'\b(day_of|day_call) (\d{4}) (\d{1,2}) (\d{1,2})\b|\b(month_number) (\d{4}) (\d{1,2})\b|\b(weekday_of) (\d+)\b')


def grouped(number):
    return f'{number:,}'


def month_text(year, month):
    return date(year, month, 1).strftime('%B %Y')


def day_text(number):
    """The date of a day number with its weekday, as 'Friday 21 March 2008'."""
    day = FIRST + timedelta(days=number)
    return f'{day:%A} {day.day} {day:%B %Y}'


def of_date(year, month, day):
    """A date as its day number and its text; a date that the calendar has not is no day."""
    try:
        number = (date(year, month, day) - FIRST).days
    except ValueError:
        return f'{day} {month_text(year, month)} is no date'
    return f'{grouped(number)} is {day_text(number)}'


def one(found):
    if found[1]:
        return of_date(int(found[2]), int(found[3]), int(found[4]))
    if found[5]:
        year, month = int(found[6]), int(found[7])
        return f'month {grouped(12 * (year - 2000) + month - 1)} is {month_text(year, month)}'
    return f'{grouped(int(found[9]))} is {day_text(int(found[9]))}'


def written_in(lines):
    """What the numbers of days and months in some lines are, each once, in order."""
    return list(dict.fromkeys(one(found) for found in WRITTEN.finditer('\n'.join(lines))))
