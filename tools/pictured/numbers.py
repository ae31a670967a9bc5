"""The listing number of each month through a year of rolls, and what one roll at the end would have given."""
from tests.second import dates

from .answers import day_text, short, year_of
from .svg import Drawing

CODE, FIRST, ROLLS = 'CIS', dates.day_of(2008, 3, 20), 12
LEFT, TOP, WIDE, HIGH = 130, 112, 46, 30


def roll_days():
    """The first day of each of the twelve months after the opening."""
    month = dates.month_of(FIRST)
    return [dates.first_day_of_month(month + place) for place in range(1, ROLLS + 1)]


def tables(answers):
    """The table on the day of the opening and after each roll."""
    made = [answers.opened(CODE, FIRST)]
    for day in roll_days():
        made.append(answers.rolled(made[-1], day))
    return made


def numbers_of(answers, table):
    return {key: number for key, _, _, number in answers.listed(table)}


def picture(answers):
    through = [numbers_of(answers, table) for table in tables(answers)]
    once = numbers_of(answers, answers.rolled(answers.opened(CODE, FIRST), roll_days()[-1]))
    keys = sorted({key for numbers in through for key in numbers})
    days = [FIRST] + roll_days()
    drawing = Drawing(880, TOP + HIGH * len(keys) + 104, 'The listing number of each month through a year of rolls', told(through, once, keys))
    drawing.text(20, 34, f'{CODE}, an option of 12 months, opened on {day_text(FIRST)} and rolled each month', 17, bold=True)
    drawing.text(20, 58, 'A row is a month, a column the table after a roll, a cell the listing number.', 13, 'weak')
    for place, day in enumerate(days):
        heading(drawing, LEFT + place * WIDE + (WIDE - 2) / 2, day, place == 0)
    last = LEFT + len(days) * WIDE + 14
    drawing.text(last + 38, 88, 'one roll', 12, 'mark', 'middle')
    drawing.text(last + 38, 104, 'only', 12, 'mark', 'middle')
    for row, key in enumerate(keys):
        draw_row(drawing, key, TOP + row * HIGH, [numbers.get(key) for numbers in through])
        if key in once:
            differs = once[key] != through[-1][key]
            drawing.rectangle(last + 14, TOP + row * HIGH, 48, HIGH - 3, 'stop' if differs else 'empty')
            drawing.text(last + 38, TOP + row * HIGH + 19, str(once[key]), 13, '', 'middle', differs)
    bottom = TOP + HIGH * len(keys) + 26
    after = drawing.paragraph(20, bottom, 'A month keeps its number while it is listed. A month that enters takes the next number, so a near month '
                              'may have a larger one.')
    drawing.paragraph(20, after, 'Right: the same table opened on the same day and rolled once, to the last date. It lists the same months and days; '
                      'the red numbers are others, since the months that came and went between have taken none.')
    return drawing.svg()


def heading(drawing, x, day, is_open):
    number = dates.date_of(day)[2]
    drawing.text(x, 88, 'open' if is_open else 'roll', 11, 'weak', 'middle')
    drawing.text(x, 104, f'{number} {short(dates.month_of(day))}', 11.5, '', 'middle')


def draw_row(drawing, key, y, numbers):
    """The month's name, and its number in each table that lists it."""
    drawing.text(LEFT - 12, y + 19, f'{short(key)} {year_of(key)}', 13, '', 'end')
    for place, number in enumerate(numbers):
        x = LEFT + place * WIDE
        drawing.rectangle(x, y, WIDE - 2, HIGH - 3, 'empty' if number is None else 'one', 2)
        if number is not None:
            drawing.text(x + (WIDE - 2) / 2, y + 19, str(number), 13, 'in', 'middle', True)


def told(through, once, keys):
    """The picture in words: each month's number, and where one roll gives another."""
    each = ', '.join(f'{short(key)} {year_of(key)} has {next(numbers[key] for numbers in through if key in numbers)}' for key in keys)
    others = ', '.join(f'{short(key)} {year_of(key)} {once[key]} instead of {through[-1][key]}' for key in once if once[key] != through[-1][key])
    return f'{CODE} lists six months at a time. In order of the months: {each}. Rolled once only, to the last date: {others}.'
