"""Texts of master files for the program compose: some with a fault each, with the
answer written by hand, and some that are made from a seed."""

import os

from tests import ROOT
from tests.inputs import cases
from tests.inputs.products import AXA_LINE
from tests.inputs.runs.case import Chance
from tests.second import dates, lists

COUNT = 300
COVER = b'Y 2008 3'
AXA = AXA_LINE
WEEK = [b'C 2008-03-%d' % day for day in range(17, 22)]
MADE_UP = b'S 0 2008 1'
MARK = b'\xef\xbb\xbf'
# 02, note 14: the days of 2008 that seed 0 closes, by hand.
CLOSED = [b'C 2008-' + day for day in
          (b'01-21', b'02-04', b'02-13', b'05-30', b'09-04', b'10-03', b'11-18', b'12-09', b'12-23')]


# Lines as a text.
def text(*lines):
    return b''.join(line + b'\n' for line in lines)


# A product line with another word at a place.
def changed(place, word):
    words = AXA.split(b' ')
    words[place] = word
    return b' '.join(words)


# So many product lines with rising ids.
def many(count):
    return [b'P %s FR11 XPAR 1 %d 100 EUR' % (cases.base_36(800 * k), 1 + k) for k in range(count)]


# ---- One fault each: name, text, what is said on standard error ----

def cover_faults():
    yield 'no line', b'', b'NO 4\n'
    yield 'no product', text(COVER), b'NO 4\n'
    for line, said in ((b'Y 1999 3', b'NO 3'), (b'Y 2090 11', b'NO 3'), (b'Y 2090 17', b'NO 3'),
                       (b'Y 2000 17', b'NO 4'), (b'Y 2008 0', b'NO 4'), (b'Y 1999 0', b'NO 4'),
                       (b'Y 2100 1', b'NO 3'), (b'Y 65535 65535', b'NO 3'), (b'Y 0 1', b'NO 3')):
        yield line.decode(), text(line, AXA), said + b'\n'
    for line in (b'Y 65536 1', b'Y 2008 65536', b'Y 2008', b'Y 2008 3 1', b'Y  2008 3', b'Y 2008  3', b' Y 2008 3',
                 b'Y 2008 3 #', b'Y 2008\t3', b'\tY 2008 3', b'y 2008 3', b'YY 2008 3', b'Y2008 3', b'Y 2008 x', b'Y -1 3',
                 b'Y 2008 3.0', b'Y 99999999999999999999999999 3', b'Y', b'Z 2008 3', 2 * MARK + b'Y 2008 3', MARK[:2] + b'Y 2008 3',
                 b' #', b'Y 2008 3\0'):
        yield repr(line), text(line, AXA), b'BAD 1\n'
    yield 'no cover', text(AXA), b'BAD 1\n'
    yield 'a day first', text(WEEK[0], COVER, AXA), b'BAD 1\n'
    yield 'two covers', text(COVER, COVER, AXA), b'BAD 2\n'
    yield 'a cover at the end', text(COVER, AXA, b'Y 2009 1'), b'BAD 3\n'


def seed_faults():
    yield 'a seed and no product', text(MADE_UP), b'NO 4\n'
    for line in (b'S 7 1999 1', b'S 7 1999 3', b'S 7 2090 11', b'S 7 2090 17', b'S 7 2000 17', b'S 7 2008 0',
                 b'S 7 1999 0', b'S 7 2100 1', b'S 4294967295 65535 65535', b'S 0 0 0', b'S 7 0 1'):
        yield line.decode(), text(line, AXA), b'NO 4\n'
    for line in (b'S 4294967296 2008 3', b'S 4294967303 2008 3', b'S 18446744073709551623 2008 3', b'S 7 65536 1',
                 b'S 7 2008 65536', b'S 2008 3', b'S 7 2008', b'S 7 2008 3 1', b'S  7 2008 3', b'S 7  2008 3',
                 b'S 7 2008  3', b'S  2008 3', b' S 7 2008 3', b'S 7 2008 3 #', b'S 7 2008 3\r1', b's 7 2008 3',
                 b'SS 7 2008 3', b'S7 2008 3', b'S x 2008 3', b'S 7 x 3', b'S 7 2008 x', b'S -1 2008 3', b'S 7.0 2008 3',
                 b'S 0x7 2008 3', b'S', b'Y 7 2008 3', b'T 7 2008 3', b'S %s 2008 3' % b'7'.rjust(55, b'0')):
        yield repr(line), text(line, AXA), b'BAD 1\n'
    yield 'a seed after a cover', text(COVER, MADE_UP, AXA), b'BAD 2\n'
    yield 'a cover after a seed', text(MADE_UP, COVER, AXA), b'BAD 2\n'
    yield 'two seeds', text(MADE_UP, MADE_UP, AXA), b'BAD 2\n'
    yield 'a seed at the end', text(COVER, AXA, MADE_UP), b'BAD 3\n'
    for line in (b'C 2008-03-21', b'X 2008-03-21', CLOSED[0], b'X' + CLOSED[0][1:], b'C 2008-03-22', b'C 2009-01-01'):
        yield f'a seed, then {line!r}', text(MADE_UP, line, AXA), b'BAD 2\n'
        yield f'a seed, a product, then {line!r}', text(MADE_UP, AXA, line), b'BAD 3\n'
    yield 'a closed day after a seed whose cover is not right', text(b'S 7 1999 1', AXA, b'C 2008-03-21'), b'BAD 3\n'
    yield 'a seed, 4 before 7', text(b'S 7 2000 17', changed(7, b'JPY')), b'NO 4\n'
    yield 'a seed and 7', text(MADE_UP, changed(7, b'JPY')), b'NO 7 line 2 AXA\n'
    yield 'a seed and 8', text(MADE_UP, AXA, AXA), b'NO 8 line 3 AXA\n'
    yield 'a seed and 25', text(MADE_UP, *many(1906)), b'NO 25\n'


def day_faults():
    for line in (b'C 2008-02-30', b'C 2008-3-21', b'C 2007-12-31', b'X 2011-01-01', b'X 1999-12-31', b'C 2100-01-01',
                 b'C 2008-03-21 .', b'C  2008-03-21', b'C 2008/03/21', b'C', b'C 2008-03-21 2008-03-24', b'c 2008-03-21',
                 b'R 2008-03-21', b'X 20080321', b'D 2008-03-21', b'\xff 2008-03-21', MARK, MARK + b'C 2008-03-21', b' C 2008-03-21'):
        yield repr(line), text(COVER, AXA, line), b'BAD 3\n'
    for line in (b'C 2008-03-22', b'X 2008-03-23'):
        yield line.decode(), text(COVER, line, AXA), b'NO 5 line 2\n'
    yield 'a week', text(COVER, *WEEK, AXA), b'NO 6 from 2008-03-15\n'
    yield 'a week with X', text(COVER, *WEEK[:4], b'X 2008-03-21', AXA), b'NO 6 from 2008-03-15\n'


def product_faults():
    for place, words in ((1, (b'axa', b'A-A', b'A\tA', b'\xc3\x84')), (2, (b'FR01', b'fr11', b'1R11', b'FRX1')),
                         (3, (b'XP1R', b'xpar')), (4, (b'6', b'255', b'0')),
                         (5, (b'0', b'00000', b'0.0000', b'0.5000', b'0.9999', b'000.0001')),
                         (6, (b'2', b'0', b'65535')), (7, (b'JPY', b'eur'))):
        for word in words:
            yield f'{place} {word!r}', text(COVER, changed(place, word)), b'NO 7 line 2 %s\n' % (word if place == 1 else b'AXA')
    for place, words in ((0, (b'p', b'PP', b'')), (1, (b'', b'AXAXA')), (2, (b'FR1', b'FR111', b'')),
                         (3, (b'XPA', b'XPARI', b'')), (4, (b'256', b'', b'x', b'-1', b'1.5', b'+1')),
                         (5, (b'65536', b'', b'1e3', b'4294967396', b'18446744073709551716')),
                         (5, (b'1.', b'1.5', b'1.500', b'1.50000', b'.5000', b'.', b'1..500', b'1.5.00', b'1.0000.',
                              b'1.0000.0000', b'1,5000', b'1.50x0', b'1.-500', b'1.+500', b'-1.5000', b'x.5000',
                              b'65536.0000', b'65536.5000', b'4294967297.5000', b'1.5000\0', b'1:5000')),
                         (6, (b'65536', b'', b'1,0', b'1.0000')), (7, (b'EU', b'EURO', b'', b'EUR .', b'EU\t', b'EU\r'))):
        for word in words:
            yield f'{place} {word!r}', text(COVER, AXA, changed(place, word)), b'BAD 3\n'
    yield 'a word less', text(COVER, AXA[:-4]), b'BAD 2\n'
    yield 'a word more', text(COVER, AXA + b' EUR'), b'BAD 2\n'
    yield '64 characters', text(COVER, changed(4, b'1'.rjust(36, b'0'))), b'BAD 2\n'
    yield 'a long line', text(COVER, changed(4, b'1'.rjust(100_000, b'0'))), b'BAD 2\n'
    yield 'an id twice', text(COVER, AXA, AXA), b'NO 8 line 3 AXA\n'
    yield 'ids fall', text(COVER, AXA, changed(1, b'AXB'), changed(1, b'AX')), b'NO 8 line 4 AX\n'


def order_faults():
    yield '3 before 7', text(b'Y 1999 1', changed(7, b'JPY')), b'NO 3\n'
    yield '4 before 7', text(b'Y 2000 17', changed(7, b'JPY')), b'NO 4\n'
    yield '5 before 6', text(COVER, *WEEK, b'C 2008-04-05', AXA), b'NO 5 line 7\n'
    yield '6 before 7', text(COVER, *WEEK, changed(7, b'JPY')), b'NO 6 from 2008-03-15\n'
    yield '7 before 8', text(COVER, AXA, AXA, changed(7, b'JPY')), b'NO 7 line 4 AXA\n'
    yield '8 before 25', text(b'Y 2008 1', *many(1906), AXA), b'NO 8 line 1908 AXA\n'
    yield 'a bad line before all', text(b'Y 1999 1', AXA, AXA, b'BAD'), b'BAD 4\n'
    yield 'the first of two bad lines', text(COVER, b'?', AXA, b'?'), b'BAD 2\n'
    yield '1,906 products', text(b'Y 2008 1', *many(1906)), b'NO 25\n'
    yield '16 years and 1,681 products', text(b'Y 2000 16', *many(1681)), b'NO 25\n'
    yield 'product 2,048 of 2,049', text(b'Y 2008 1', *many(2047), changed(1, b'?'), AXA), b'NO 7 line 2049 ?\n'
    yield 'product 2,049', text(b'Y 2008 1', *many(2048), changed(1, b'?')), b'NO 25\n'
    yield 'a bad line after 2,049 products', text(b'Y 2008 1', *many(2049), b'?'), b'BAD 2051\n'


# The first line at fault, by its number in the text, comments and empty lines counted.
def place_faults():
    wrong = changed(7, b'JPY')
    yield 'the first of two weekend days', text(COVER, WEEK[0], b'X 2008-03-23', AXA, b'C 2008-03-22'), b'NO 5 line 3\n'
    yield 'a weekend day after the products', text(COVER, AXA, b'# Sunday', b'', b'C 2010-12-26 \r'), b'NO 5 line 5\n'
    yield 'a day twice on a weekend', text(COVER, b'C 2008-03-22', b'C 2008-03-22', AXA), b'NO 5 line 2\n'
    yield 'the first of two products', text(COVER, b'', wrong, changed(2, b'FR01')), b'NO 7 line 3 AXA\n'
    yield '7 with its id in full', text(b'# list', COVER, AXA, b'P AXAX FR11 XPAR 9 100 100 EUR'), b'NO 7 line 4 AXAX\n'
    yield '8 after a comment', text(COVER, changed(1, b'AXB'), b'# ', AXA, changed(1, b'AX')), b'NO 8 line 4 AXA\n'
    yield '8 after a rise', text(COVER, changed(1, b'B'), changed(1, b'C'), changed(1, b'A'), changed(1, b'B')), b'NO 8 line 4 A\n'
    yield '8 before a wrong one is 7', text(COVER, AXA, AXA, wrong), b'NO 7 line 4 AXA\n'
    yield '7 and 8 in one line', text(COVER, AXA, wrong), b'NO 7 line 3 AXA\n'
    yield 'line 555', text(COVER, *many(553), changed(4, b'9')), b'NO 7 line 555 AXA\n'
    yield 'a bad line after a comment', text(b'#', COVER, b'', b'?', AXA), b'BAD 4\n'
    yield 'a bad line after a mark', MARK + text(b'', b'?', COVER), b'BAD 2\n'
    yield 'a second mark on a line', text(COVER, MARK + AXA), b'BAD 2\n'
    yield 'no line but comments', text(b'# a', b'', b' \t\r'), b'NO 4\n'
    yield 'a mark alone', MARK, b'NO 4\n'
    yield 'blanks alone', b' \t\r ', b'NO 4\n'
    yield 'a comment after blanks', text(COVER, b' # no comment', AXA), b'BAD 2\n'
    yield '64 characters and blanks', text(COVER, changed(4, b'1'.rjust(36, b'0')) + b'  '), b'BAD 2\n'
    yield 'a byte after 100,000 blanks', text(COVER, AXA + 100_000 * b' ' + b'x'), b'BAD 2\n'


# 6: the first day of the first run, by hand: 2008-01-01 is a Tuesday, 2008-12-31 a Wednesday.
def idle_faults():
    def days(*names):
        return [b'C 2008-' + name for name in names]

    yield 'from the first day', text(b'Y 2008 1', *days(*(b'01-%02d' % day for day in (1, 2, 3, 4, 7))), AXA), b'NO 6 from 2008-01-01\n'
    yield 'to the last day', text(b'Y 2008 1', *days(*(b'12-%d' % day for day in (25, 26, 29, 30, 31))), AXA), b'NO 6 from 2008-12-25\n'
    yield 'across the year', text(b'Y 2008 2', *days(b'12-29', b'12-30', b'12-31'), b'C 2009-01-01', b'C 2009-01-02', AXA), b'NO 6 from 2008-12-27\n'
    yield 'two runs', text(b'Y 2008 1', *days(*(b'07-%02d' % day for day in range(14, 19))), *WEEK, AXA), b'NO 6 from 2008-03-15\n'
    yield 'eight days', text(b'Y 2008 1', *WEEK, b'C 2008-03-14', AXA), b'NO 6 from 2008-03-14\n'


def faults():
    yield from place_faults()
    yield from idle_faults()
    yield from cover_faults()
    yield from seed_faults()
    yield from day_faults()
    yield from product_faults()
    yield from order_faults()


# ---- Accepted texts, most of them not as decompose prints them: name, text, the text printed ----

# 02, note 11: the size as it is written, and as it is printed.
SIZES = ((b'100.0000', b'100'), (b'0100.0000', b'100'), (b'33.3333', b'33.3333'), (b'00033.0500', b'33.0500'),
         (b'1.0000', b'1'), (b'1.0001', b'1.0001'), (b'65535.9999', b'65535.9999'), (b'65535', b'65535'),
         (b'256.0256', b'256.0256'), (b'10.9990', b'10.9990'))


def other_forms():
    plain = text(COVER, WEEK[4], AXA)
    for size, printed in SIZES:
        yield f'size {size.decode()}', text(COVER, WEEK[4], changed(5, size)), text(COVER, WEEK[4], changed(5, printed))
    yield 'no line feed at the end', plain[:-1], plain
    yield 'zeros before numbers', text(b'Y 02008 0003', WEEK[4], changed(5, b'0000100')), plain
    yield '63 characters', text(COVER, WEEK[4], changed(4, b'1'.rjust(35, b'0'))), plain
    yield 'a day twice', text(COVER, WEEK[4], AXA, WEEK[4]), plain
    yield 'carriage returns', plain.replace(b'\n', b'\r\n'), plain
    yield 'a mark', MARK + plain, plain
    yield 'a mark before a comment', MARK + b'# list\r\n' + plain, plain
    yield 'a mark before an empty line', MARK + b'\n' + plain, plain
    yield 'comments and empty lines', b'# list\n\n' + plain.replace(b'\n', b'\n#\n \t\n') + b'# end', plain
    yield 'blanks at the ends of lines', plain.replace(b'\n', b' \t \r\n'), plain
    yield '100,000 blanks', plain.replace(b'\n', 100_000 * b' ' + b'\n'), plain
    yield '63 characters, a mark and blanks', MARK + text(b'Y %s 3' % b'2008'.rjust(59, b'0') + 300 * b'\t', WEEK[4], AXA), plain
    yield 'a comment of 100,000 bytes', text(COVER, b'#' + 100_000 * b'x', WEEK[4], AXA), plain
    yield 'a comment of blanks and bytes', text(COVER, b'# ' + 400 * b' ' + b'x', WEEK[4], AXA), plain
    both = text(COVER, b'X 2008-03-21', AXA)
    yield 'C and then X', text(COVER, WEEK[4], b'X 2008-03-21', AXA), both
    yield 'X and then C', text(COVER, b'X 2008-03-21', WEEK[4], AXA), both
    yield 'days in any order', text(COVER, AXA, WEEK[4], b'X 2010-12-31', WEEK[0], changed(1, b'AXB')), text(
        COVER, WEEK[0], WEEK[4], b'X 2010-12-31', AXA, changed(1, b'AXB'))
    year = text(b'Y 2008 1', *CLOSED, AXA)
    yield 'a seed', text(MADE_UP, AXA), year
    yield 'a seed without a line feed at the end', text(MADE_UP, AXA)[:-1], year
    yield 'a seed with its cover in 63 characters', text(b'S %s 2008 1' % (54 * b'0'), AXA), year
    yield 'zeros before a cover', text(b'S 00 02008 001', AXA), year


# ---- Texts from a seed ----

# A cover of a few years and some closed days.
def random_days(chance):
    first, years = chance.randint(2000, 2095), chance.randint(1, 5)
    start, end = dates.day_of(first, 1, 1), dates.day_of(first + years - 1, 12, 31)
    days = [chance.randint(start, end) for _ in range(chance.below(12))]
    closed = [lists.day_line(chance.one_of((b'C', b'X')), day)[:-1] for day in days
              if dates.is_weekday(day) or not chance.below(40)]
    return [b'Y %d %d' % (first, years), *closed]


# A seed and a cover; one cover in a few is not right.
def random_seed(chance):
    seed = chance.one_of((0, 1, 26355, 59783, 2**31, 2**32 - 1, chance.below(2**32), chance.below(2**32)))
    years = chance.randint(0, 17) if not chance.below(6) else chance.randint(1, 16)
    first = chance.randint(1999, 2100) if not chance.below(6) else chance.randint(2000, 2100 - years)
    return [b'S %d %d %d' % (seed, first, years)]


# A text of a cover, with closed days or a seed, and products, with no fault but by
# chance.
def random_text(chance):
    first = random_seed(chance) if not chance.below(3) else random_days(chance)
    products = [with_part(chance, line) for line in chance.sample(many(300), chance.randint(1, 40))]
    return [*first, *(products if not chance.below(20) else sorted(products))]


# A product line, one of three with ten-thousandths of a share.
def with_part(chance, line):
    words = line.split(b' ')
    if not chance.below(3):
        words[5] += b'.%04d' % chance.one_of((0, 1, 50, 3333, 9999, chance.below(10000)))
    return b' '.join(words)


# A line with one byte taken away, put in or replaced.
def with_slip(chance, line):
    at, byte = chance.below(len(line) + 1), bytes([chance.one_of(b' 0129AXYSPC-.\n\r\0\xff')])
    return chance.one_of((line[:at] + line[at + 1:], line[:at] + byte + line[at:], line[:at] + byte + line[at + 1:]))


# Lines with one change: a slip, a line left out, twice, moved or put in.
def with_change(chance, lines):
    lines, at = list(lines), chance.below(len(lines))
    change = chance.below(5)
    if change == 0:
        lines[at] = with_slip(chance, lines[at])
    elif change == 1:
        del lines[at]
    elif change == 2:
        lines.insert(chance.below(len(lines) + 1), lines[at])
    elif change == 3:
        lines.insert(chance.below(len(lines)), lines.pop(at))
    else:
        lines.insert(at, chance.one_of((b'', b'#', b'# \xff', b'\t', MARK, b'C 2010-06-01', b'C 2010-06-05', b'X 2010-06-01', COVER, MADE_UP, AXA)))
    return lines or [COVER]


# The texts of a seed.
def made(seed, count):
    for number in range(count):
        chance = Chance(f'{seed} {number}')
        lines = random_text(chance)
        for _ in range(chance.one_of((0, 0, 0, 1, 1, 2))):
            lines = with_change(chance, lines)
        if not chance.below(4):
            lines = [line + chance.one_of((b'', b'\r', b' ', b'\t\r')) for line in lines]
        mark = b'' if chance.below(8) else MARK
        yield mark + text(*lines)[:None if chance.below(4) else -1]


# The text of the example, as it is stored.
def example():
    path = os.path.join(ROOT, 'examples', 'master.txt')
    with open(path, 'rb') as file:
        return file.read()
