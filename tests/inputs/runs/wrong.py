"""Wrong programs of the morning: the second program with one function or value replaced
each, for the tests of the comparison."""

import re
from dataclasses import dataclass

from tests.inputs.runs import mornings
from tests.second import deliver, lists, notices, product, query, reconcile, replay, rows, table, terms, words


# A part of the second program, and what makes another of it.
@dataclass(frozen=True)
class Wrong:
    module: object
    name: str
    other: object


# Another function in the place of one; it gets that one first.
def around(change):
    return lambda right: lambda *arguments: change(right, *arguments)


# Another value, or a function that does without the right one.
def value(other):
    return lambda right: other


# Lines without taking the mark off, and with both of two taken off.
def lines_with_mark(text):
    return [line.rstrip(words.BLANKS) for line in terms.lines_of(text)]


def lines_without_marks(text):
    return [line.rstrip(words.BLANKS) for line in terms.lines_of(text.lstrip(words.MARK))]


# Every call made on a product, by whatever id.
def make_all(right, standing, place, call):
    return right(standing, place, (*call[:1], standing.item.id, *call[2:]) if call[0] == 'M' else call)


# A refused call that ends the table's history.
def make_until_refused(right, standing, place, call):
    if not standing.refused:
        right(standing, place, call)


# The measures of products without a table told as unknown.
def unknown_without_table(right, file, calls):
    morning = right(file, calls)
    closed = {standing.item.id for standing in morning.products if standing.held is None}
    morning.unknown += [(place, call[1]) for place, call in calls if call[0] == 'M' and call[1] in closed]
    return morning


# Each unknown id once.
def unknown_once(right, file, calls):
    morning = right(file, calls)
    morning.unknown = list({code: (place, code) for place, code in reversed(morning.unknown)}.values())
    return morning


# The opening's line taken for the first.
def opening_on_line_1(right, file, calls):
    morning = right(file, calls)
    morning.opening_line = 1
    return morning


# Refused calls by line alone.
def errors_by_line(right, file, text):
    printed, errors = right(file, text)
    told = errors.splitlines(keepends=True)
    return printed, b''.join(sorted(told, key=lambda line: int(line.split(b':')[1])) if printed else told)


def no_heading_without_rows(right, file, text):
    printed, errors = right(file, text)
    return (b'' if printed == deliver.HEADING else printed), errors


# Notices whose mark is not counted, and a second opening taken for a roll.
def mark_not_counted(right, text):
    return right(text.removeprefix(words.MARK) if len(text) < 65540 else text)


def later_opening(right, line):
    return right(b'R' + line[1:] if line[:1] == b'O' and line != mornings.OPEN else line)


# A price whose point is passed over.
def price_without_point(word):
    return int(word.replace(b'.', b'')[-4000:])


# Rows of a delivery with a field that is wrong.
def row_without_days_back(right, item, maturity):
    return right(item, (*maturity[:2], 0, maturity[3]))


def row_of_months(right, item, maturity):
    line = right(item, maturity)
    return line.replace(b'-', b'', 2).replace(b'-', b'', 1) if product.is_weekly(item.kind) else line


# Readers of rows: other headings, comments, lengths and maturities.
def last_field(right, line):
    return rows.SEPARATORS.split(line)[-1] in rows.TITLES or right(line)


def comments_passed(right, text):
    return [(place, line) for place, line in right(text) if line[:1] != b'#']


def headings_anywhere(right, text):
    return [(place, line) for place, line in right(text) if not rows.is_heading(line)]


def heading_on_line_1(right, text):
    lines = words.lines_of(text)
    found = [(place, line) for place, line in enumerate(lines, 1) if line]
    return found[1:] if lines and rows.is_heading(lines[0]) else found


def length_first(right, text):
    found = [(place, line) for place, line in enumerate(words.lines_of(text), 1) if line]
    return found[1:] if found and len(found[0][1]) <= 255 and rows.is_heading(found[0][1]) else found


def month_by_days(right, kind, word):
    return right(kind, word if product.is_weekly(kind) else word[:7])


# Differences: another order of reasons, the last row's day, another order of lines.
def day_before_twice(right, listed, given):
    if listed and len(given) > 1 and given[0].day != listed[1]:
        return b'day', reconcile.day_word(given[0].day), reconcile.day_word(listed[1])
    return right(listed, given)


def last_row(right, listed, given):
    return right(listed, given[::-1])


def number_before_day(right, listed, given):
    if listed and len(given) == 1 and given[0].number not in (None, listed[3]):
        return b'number', b'%d' % given[0].number, b'%d' % listed[3]
    return right(listed, given)


def back_before_number(right, row, number, back):
    if row.number is not None and row.back != back:
        return b'days_back', b'%d' % row.back, b'%d' % back
    return right(row, number, back)


def without(why):
    def change(right, *arguments):
        said = right(*arguments)
        return None if said and said[0] == why else said
    return around(change)


def unknown_by_id(right, morning, good):
    said = right(morning, good)
    known = [line for line in said if b',product,' not in line]
    return known + sorted(set(said) - set(known))


def by_text(right, morning, good):
    return sorted(right(morning, good))


def numbers_as_written(right, word):
    return None if word[:1] == b'0' and word != b'0' else right(word)


# Answers: the amount with four digits, a signed zero, the refusal before the form.
def amount_in_four(right, *arguments):
    said = right(*arguments)
    return said if said[:1] == b'N' else said[:-4]


def minus_zero(right, *arguments):
    said = right(*arguments)
    return b'-' + said if said == b'0.00000000' else said


def no_before_bad(right, products, line):
    standing = products.get(line.split(b' ')[0].ljust(4))
    if standing and standing.held is None and line.split(b' ')[1:2] == [b'last']:
        return b'NO %d' % standing.opening
    return right(products, line)


def either_form(right, standing, word):
    key = right(standing, word)
    return right(None, word) if key is None else key


def later_date(right, held, day):
    return (12, held, 0, 0) if day == held.date else right(held, day)


def answer_with_two_spaces(right, products, place, line):
    return right(products, place, line).replace(b' NO ', b'  NO ', 1)


def bad_by_question(right, products, place, line):
    said = right(products, place, line)
    return b'BAD\n' if said.startswith(b'BAD') else said


PARTS = {
    'a tab is no blank': Wrong(words, 'BLANKS', value(b' \r')),
    'a form feed is a blank': Wrong(words, 'BLANKS', value(b' \t\r\x0c\0')),
    'the mark stays': Wrong(words, 'lines_of', value(lines_with_mark)),
    'two marks are taken off': Wrong(words, 'lines_of', value(lines_without_marks)),
    'a comment after a blank': Wrong(words, 'says_nothing', around(lambda right, line: right(line.lstrip()))),
    'no comments': Wrong(words, 'says_nothing', value(lambda line: not line)),
    'numbers cut to 32 bits': Wrong(words, 'number_of', value(lambda word: int(word[-4000:]) % 2**32)),
    'numbers cut to 64 bits': Wrong(words, 'number_of', value(lambda word: int(word[-4000:]) % 2**64)),
    'a whole price in ten-thousandths': Wrong(words, 'price_of', value(price_without_point)),
    '65,535 bytes of notices': Wrong(notices, 'TEXT_AT_MOST', value(65535)),
    '65,537 bytes of notices': Wrong(notices, 'TEXT_AT_MOST', value(65537)),
    'the mark is not counted': Wrong(notices, 'read', around(mark_not_counted)),
    'a later opening': Wrong(notices, 'call_of', around(later_opening)),
    '31 April': Wrong(notices, 'day_call', around(lambda right, line: right(line.replace(b'-31', b'-30')))),
    'a measure on all products': Wrong(replay, 'make', around(make_all)),
    'nothing after a refusal': Wrong(replay, 'make', around(make_until_refused)),
    'a measure without a table told': Wrong(replay, 'replayed', around(unknown_without_table)),
    'an unknown id told once': Wrong(replay, 'replayed', around(unknown_once)),
    'the opening told by line 1': Wrong(replay, 'replayed', around(opening_on_line_1)),
    'a price of 0': Wrong(product, 'price_in_range', value(lambda price: price <= product.PRICE_AT_MOST)),
    'refusals by line': Wrong(deliver, 'deliver', around(errors_by_line)),
    'no heading without rows': Wrong(deliver, 'deliver', around(no_heading_without_rows)),
    'days back left out': Wrong(deliver, 'row', around(row_without_days_back)),
    'Fridays as months': Wrong(deliver, 'row', around(row_of_months)),
    'no semicolons': Wrong(rows, 'SEPARATORS', value(re.compile(rb'[,\t]'))),
    'no quotes': Wrong(rows, 'field_of', value(lambda part: None if b'"' in part else part)),
    'quotes inside': Wrong(rows, 'field_of', value(lambda part: part.strip(b'"'))),
    'blanks beside fields': Wrong(rows, 'field_of', around(lambda right, part: right(part.strip(b' ')))),
    'any field a heading': Wrong(rows, 'is_heading', around(last_field)),
    'a heading on any line': Wrong(rows, 'lines_to_judge', around(headings_anywhere)),
    'a heading on line 1 alone': Wrong(rows, 'lines_to_judge', around(heading_on_line_1)),
    'a long heading is bad': Wrong(rows, 'lines_to_judge', around(length_first)),
    'comments among rows': Wrong(rows, 'lines_to_judge', around(comments_passed)),
    'rows of 256 bytes': Wrong(rows, 'LINE_AT_MOST', value(256)),
    'rows of 254 bytes': Wrong(rows, 'LINE_AT_MOST', value(254)),
    'one row less': Wrong(rows, 'ROWS_AT_MOST', value(65535)),
    'one row more': Wrong(rows, 'ROWS_AT_MOST', value(65537)),
    'numbers to 65,536': Wrong(rows, 'NUMBER_AT_MOST', value(65536)),
    'numbers to 255': Wrong(rows, 'NUMBER_AT_MOST', value(255)),
    'no zeros in front': Wrong(rows, 'number_of', around(numbers_as_written)),
    'months alone of other ids': Wrong(rows, 'is_maturity', value(lambda word: words.month_of(word) is not None)),
    'a month by its days': Wrong(rows, 'key_of', around(month_by_days)),
    'day before twice': Wrong(reconcile, 'difference', around(day_before_twice)),
    'number before day': Wrong(reconcile, 'difference', around(number_before_day)),
    'the last row with a key': Wrong(reconcile, 'difference', around(last_row)),
    'days back before number': Wrong(reconcile, 'number_difference', around(back_before_number)),
    'no days back': Wrong(reconcile, 'number_difference', without(b'days_back')),
    'no number': Wrong(reconcile, 'number_difference', without(b'number')),
    'no missing': Wrong(reconcile, 'difference', without(b'missing')),
    'no extra': Wrong(reconcile, 'difference', without(b'extra')),
    'no twice': Wrong(reconcile, 'difference', without(b'twice')),
    'no day': Wrong(reconcile, 'difference', without(b'day')),
    'other ids by id': Wrong(reconcile, 'lines', around(unknown_by_id)),
    'all by text': Wrong(reconcile, 'lines', around(by_text)),
    'questions of 256 bytes': Wrong(query, 'LINE_AT_MOST', value(256)),
    'questions of 254 bytes': Wrong(query, 'LINE_AT_MOST', value(254)),
    'four digits': Wrong(query, 'cash', around(amount_in_four)),
    'a zero with a sign': Wrong(query, 'cash', around(minus_zero)),
    'a size in whole shares': Wrong(lists, 'size_word', around(lambda right, size: right(size).split(b'.')[0])),
    'NO before BAD': Wrong(query, 'answer', around(no_before_bad)),
    'a space more': Wrong(query, 'answer_line', around(answer_with_two_spaces)),
    'BAD without its line': Wrong(query, 'answer_line', around(bad_by_question)),
    'a maturity of either form': Wrong(query, 'maturity', around(either_form)),
    'every product a future': Wrong(product, 'is_future', value(lambda kind: True)),
    'a roll to the same date refused': Wrong(table, 'roll', around(later_date)),
}
