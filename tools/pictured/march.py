"""March 2008: its third Friday is closed, and the last trading day steps back."""
from tests.second import dates

from .answers import WEEKDAYS, day_text, weekday_text
from .svg import Drawing

MONTH = dates.month_number(2008, 3)
LEFT, TOP, WIDE, HIGH, GAP, BETWEEN = 24, 84, 92, 60, 4, 14


def cell(day):
    """The corner of a day's cell: weeks are rows, Monday first."""
    first = dates.first_day_of_month(MONTH)
    week = (day - first + dates.weekday(first)) // 7
    return LEFT + dates.weekday(day) * (WIDE + GAP), TOP + week * (HIGH + BETWEEN)


def words_of(answers, day, last):
    """What stands in a day's cell under its number, in up to two lines."""
    if day == last:
        return ['last trading', 'day']
    third = ['third Friday'] if day == answers.third_friday(MONTH) else []
    return third + (['closed'] if answers.closed(day) else [])


def draw_day(drawing, answers, day, last):
    """A day: trading days are plain, closed ones red, weekends weak, the last trading day filled."""
    x, y = cell(day)
    kind = 'one' if day == last else 'stop' if answers.closed(day) else 'empty'
    drawing.rectangle(x, y, WIDE, HIGH, kind)
    weekend = not dates.is_weekday(day)
    drawing.text(x + 8, y + 20, str(dates.date_of(day)[2]), 15, 'in' if day == last else 'weak' if weekend else '', bold=day == last)
    for place, words in enumerate(words_of(answers, day, last)):
        drawing.text(x + 8, y + 37 + 15 * place, words, 12, 'in' if day == last else '')


def picture(answers):
    option = answers.opened('AXA', dates.day_of(2008, 3, 17))
    italian = answers.opened('ENL5', dates.day_of(2008, 3, 17))
    key, last, back, _ = answers.listed(option)[0]
    _, last_italian, back_italian, _ = answers.listed(italian)[0]
    friday = answers.third_friday(MONTH)
    assert key == MONTH and answers.closed(friday) and answers.usual_day(option, key) == friday
    first = dates.first_day_of_month(MONTH)
    days = range(first, dates.first_day_of_month(MONTH + 1))
    usual_italian = answers.usual_day(italian, key)
    told = [f'AXA: the usual day is the third Friday, {day_text(friday)}. It is closed, so the month ends on {weekday_text(last)}, '
            f'{day_text(last)}, the latest trading day before it: {back} day back.',
            f'ENL5, an Italian option: the usual day is the {weekday_text(usual_italian)} before, {day_text(usual_italian)}, a trading day: '
            f'{back_italian} days back.']
    assert last_italian == last
    bottom = max(cell(day)[1] for day in days) + HIGH
    drawing = Drawing(720, bottom + 112, 'March 2008: the third Friday is closed, and the last trading day steps back', ' '.join(told))
    drawing.text(LEFT, 36, 'The last trading day of March 2008', 19, bold=True)
    for place, name in enumerate(WEEKDAYS):
        drawing.text(LEFT + place * (WIDE + GAP) + 8, TOP - 10, name, 12, 'weak')
    for day in days:
        draw_day(drawing, answers, day, last)
    step_back(drawing, friday, last)
    after = drawing.paragraph(LEFT, bottom + 30, told[0])
    drawing.paragraph(LEFT, after, told[1])
    return drawing.svg()


def step_back(drawing, friday, last):
    """An arrow over the two days, from the closed Friday to the day before."""
    (x, y), (to, _) = cell(friday), cell(last)
    drawing.rectangle(x, y, WIDE, HIGH, 'ring')
    drawing.line((x + WIDE / 2, y), (x + WIDE / 2, y - 10), (to + WIDE / 2, y - 10), (to + WIDE / 2, y - 6), kind='arrow')
    drawing.tip(to + WIDE / 2, y)
