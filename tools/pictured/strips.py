"""The strip of each kind: which months, or Fridays, are listed on one day."""
from tests.second import dates, listing

from .answers import day_text, short, short_day, year_of
from .svg import Drawing

DAY = dates.day_of(2008, 3, 20)
WIDTH, LEFT, TOP, HIGH = 960, 20, 78, 34
LETTER, BOLD = 24, 34
COLOURS = ('one', 'two', 'three', 'four')
SETS = ('next {} months', '{} of Mar, Jun, Sep, Dec', '{} of Jun, Dec', '{} Decembers')

# The product of examples/morning of each kind, and the kind in words.
KINDS = {0: ('ALVF', 'future'), 1: ('CIS', 'option of 12 months'), 2: ('BMW', 'option of 24 months'),
         3: ('AXA', 'option of 60 months'), 4: ('TOT5', 'future of the text of 2005'), 5: ('AXAW', 'weekly option')}


def steps(kind):
    """How many maturities each step of a kind takes, with its colour and its words."""
    if kind == 4:
        return [(7, 'one', 'the next seven of Mar, Apr, May, Jun, Jul, Sep, Dec')]
    if kind == 5:
        return [(4, 'one', 'the next four Fridays that are not the third of their month')]
    return [(count, colour, words.format(count)) for count, colour, words in zip(listing.COUNTS[kind], COLOURS, SETS) if count]


def colours(kind):
    """The colour of each maturity, in their order."""
    return [colour for count, colour, _ in steps(kind) for _ in range(count)]


def picture(answers, kind):
    code, name = KINDS[kind]
    opened = answers.opened(code, DAY)
    assert opened.product.kind == kind
    keys = [key for key, _, _, _ in answers.listed(opened)]
    weekly = kind == 5
    shown = ', '.join(short_day(key) if weekly else f'{short(key)} {year_of(key)}' for key in keys)
    drawing = Drawing(WIDTH, TOP + HIGH + 62, f'Kind {kind}, {name}: what is listed on {day_text(DAY)}',
                      f'{code} lists {len(keys)} {"Fridays" if weekly else "months"}: {shown}.')
    drawing.text(LEFT, 34, f'Kind {kind}, {name}: {len(keys)} {"Fridays" if weekly else "months"} listed on {day_text(DAY)}', 17, bold=True)
    if weekly:
        fridays(drawing, answers, keys)
    else:
        months(drawing, keys, colours(kind))
    legend(drawing, kind)
    return drawing.svg()


def months(drawing, keys, filled):
    """A cell for each month of the run, listed ones filled; the years stand over their first month."""
    first, last = keys[0], keys[-1]
    wide = min((WIDTH - 2 * LEFT) / (last - first + 1), 64)
    of_key = dict(zip(keys, filled))
    for month in range(first, last + 1):
        x = LEFT + (month - first) * wide
        drawing.rectangle(x, TOP, wide - 2, HIGH, of_key.get(month, 'empty'), 2)
        if month == first or month % 12 == 0:
            drawing.text(x, TOP - 10, str(year_of(month)), 13, 'weak')
        if month in of_key or wide > LETTER:
            label(drawing, x + (wide - 2) / 2, month, wide, month in of_key)


def label(drawing, x, month, wide, listed):
    """The month in its cell: its first letter where cells are small, and bold where they are large."""
    words = short(month) if wide > LETTER else short(month)[0]
    size = 12 if wide > BOLD else 10.5
    drawing.text(x, TOP + 22, words, size, 'in' if listed else 'weak', 'middle', listed and (wide > BOLD or wide <= LETTER))


def fridays(drawing, answers, keys):
    """A cell for each Friday from the day on; third Fridays are not listed."""
    first = DAY + (dates.FRIDAY - dates.weekday(DAY)) % 7
    wide = 150
    for place, friday in enumerate(range(first, keys[-1] + 1, 7)):
        x, listed = LEFT + place * wide, friday in keys
        third = friday == answers.third_friday(dates.month_of(friday))
        drawing.rectangle(x, TOP, wide - 4, HIGH, 'one' if listed else 'empty', 2)
        drawing.text(x + (wide - 4) / 2, TOP + 22, short_day(friday) + (', third' if third else ''), 12.5, 'in' if listed else 'weak', 'middle', listed)
    drawing.text(LEFT, TOP - 10, 'Fridays of 2008', 13, 'weak')


def legend(drawing, kind):
    """A line under the strip: the steps in their order, each with its colour."""
    x, y = LEFT, TOP + HIGH + 24
    for place, (_, colour, words) in enumerate(steps(kind)):
        words = ('then ' if place else '') + words
        drawing.rectangle(x, y, 14, 14, colour)
        drawing.text(x + 20, y + 12, words, 13)
        x += 44 + 8.6 * len(words)
    if kind != 5:
        drawing.rectangle(x, y, 14, 14, 'empty')
        drawing.text(x + 20, y + 12, 'not listed', 13, 'weak')
