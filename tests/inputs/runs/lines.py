"""Shapes of standard input (01: "Single spaces part the words of a line, which
ends with a line feed or with the input")."""

import datetime

from tests.inputs.products import WEEKLY, by_id, products_of
from tests.second import dates, master
from tests.second.trading import Calendar

OPEN = b'O AXA 2008-03-20'
ROLL = b'R 2008-03-21'
CLOSE = b'C 2008-04-18'

# 01: "With 2008–2010, only 21 March 2008 closed, and AXA": the example's file, one
# with two products more, and one with weekly options (02, note 3).
CALENDAR = Calendar(2008, 3, frozenset((dates.day_of(2008, 3, 21),)))
EXAMPLE_FILE = master.build(CALENDAR, products_of('AXA'))
FILE = master.build(CALENDAR, products_of('AXA', 'AXAF', 'ENI'))
WEEKLY_FILE = master.build(CALENDAR, by_id(*products_of('AXA', 'ENI'), *WEEKLY))

# 01: "An id is 1 to 4 characters as in a record". Words that are no id.
OTHER_IDS = (
    b'', b'AXAAA', b'AXA AX', b'axa', b'AXa', b'aXA', b'A-A', b'A.', b'AX\0', b'\0AXA', b'AX\xc4',
    b'\xff', b'A/', b'A:', b'A@', b'A[', b'A`', b'A{', b'AX\t', b'AX\r', b'*', b"'AX'", b'ENI1234567890',
    '\uff21\uff38\uff21'.encode(), 'Ä'.encode(),
)

# 01: "a date is year, month, day in 4, 2 and 2 digits joined by hyphens, and one
# that 23 refuses makes another line". Words that are no date.
OTHER_DATES = (
    b'', b'-', b'--', b'2008', b'2008-03', b'2008-02-30', b'2009-02-29', b'2100-02-29', b'2008-00-10',
    b'2008-13-10', b'2008-04-31', b'2008-04-00', b'2008-03-32', b'2008-99-99', b'2100-01-01', b'1999-12-31',
    b'0000-00-00', b'9999-12-31', b'2008-3-20', b'2008-03-2', b'2008-03-200', b'2008-003-20', b'02008-03-20',
    b'008-03-20', b'08-03-20', b'2008/03/20', b'2008.03.20', b'2008_03_20', b'20080320', b'2008-0320',
    b'20-03-2008', b'2008-03-20-', b'-2008-03-20', b'+008-03-20', b'-008-03-20', b'2008-+3-20', b'2008--3-20',
    b'2008-03- 2', b'2_08-03-20', b'2008-03-20.', b'2008-03-20Z', b'0x08-03-20', b'2O08-03-20', b'2008-O3-20',
    b'200:-03-20', b'200/-03-20', b'2008-03-2\0', b'2008-03-2\xb2', b'2008\xe2\x80\x9003-20', b'20 08-03-20',
    '\u0662\u0660\u0660\u0668-03-20'.encode(), '2008-03-\uff12\uff10'.encode(),
)

# 01: "`O id date`, `R date`, `C date`". Lines with other spaces, other words,
# other letters and other bytes.
OTHER_LINES = (
    b'', b' ', b'  ', b'\t', b'\r', b'\0', b'\xff', b'\x80', b'\x1a', b'\x04', b'-', b'#', b'NO 1', b'BAD',
    b'O', b'O ', b'O  ', b'R', b'R ', b'C', b'C ', b'OAXA 2008-03-20', b'R2008-03-21', b'C2008-04-18',
    b' O AXA 2008-03-20', b'O  AXA 2008-03-20', b'O AXA  2008-03-20', b'O AXA 2008-03-20 ',
    b'O AXA 2008-03-20  ', b'O\tAXA 2008-03-20', b'O AXA\t2008-03-20', b'O AXA\xc2\xa02008-03-20', b'O AXA\x0b2008-03-20',
    b' R 2008-03-21', b'R  2008-03-21', b'R 2008-03-21 ', b'R\t2008-03-21', b'C  2008-04-18', b'C 2008-04-18 ',
    b'O AXA 2008-03-20\r', b'R 2008-03-21\r', b'C 2008-04-18\r', b'\rR 2008-03-21',
    b'R 2008-03-21\rC 2008-04-18',
    b'O AXA 2008-03-20\0', b'\0O AXA 2008-03-20', b'O\0AXA 2008-03-20', b'R 2008-03-21\0', b'\0', b'\0\0\0',
    b'\xef\xbb\xbfO AXA 2008-03-20', b'\xffR 2008-03-21', b'R 2008-03-21\xff', b'\xcf AXA 2008-03-20',
    b'\xd2 2008-03-21', b'O AXA', b'O 2008-03-20', b'O 2008-03-20 AXA', b'O AXA 2008-03-20 2008-03-20',
    b'O AXA AXA 2008-03-20', b'O AXA 2008-03-20 R 2008-03-21', b'R AXA 2008-03-21', b'C AXA 2008-04-18',
    b'R 2008-03-21 2008-03-22', b'o AXA 2008-03-20', b'r 2008-03-21', b'c 2008-04-18', b'0 AXA 2008-03-20',
    b'X 2008-03-21', b'P 2008-03-21', b'Q 2008-03-21', b'S 2008-03-21', b'OO AXA 2008-03-20', b'RR 2008-03-21',
    b'OR 2008-03-21', b'N AXA 2008-03-20', b'D 2008-04-18', b'B 2008-04-18', b'O,AXA,2008-03-20',
    b'"R 2008-03-21"',
)


# The lines of 01 with other words in their places.
def other_lines():
    return (*OTHER_LINES, *(b'O %s 2008-03-20' % code for code in OTHER_IDS),
            *(b'O AXA %s' % date for date in OTHER_DATES), *(b'R %s' % date for date in OTHER_DATES),
            *(b'C %s' % date for date in OTHER_DATES))


# ---- Whole inputs ----

# A day number as a command has it, also one before 2000 or after 2099.
def day_word(day):
    return (datetime.date(2000, 1, 1) + datetime.timedelta(day)).isoformat().encode('ascii')


# Lines, each ended by a line feed.
def text_of(lines):
    return b''.join(line + b'\n' for line in lines)


# All other lines in some order, some accepted commands among them, so that each
# comes before an accepted open or with a table that must stay.
def odd_lines(chance):
    lines = list(other_lines())
    chance.shuffle(lines)
    for command in (OPEN, ROLL, CLOSE, OPEN, ROLL):
        lines.insert(chance.randrange(len(lines)), command)
    return text_of(lines)


# The same with no final line feed, or with carriage returns at every line's end.
def odd_lines_unended(chance):
    return odd_lines(chance)[:-1]


def odd_lines_with_returns(chance):
    return odd_lines(chance).replace(b'\n', b'\r\n')


# A command with one byte of it changed, for every byte and every other value.
def every_byte(command):
    changed = (command[:place] + bytes([value]) + command[place + 1:]
               for place in range(len(command)) for value in range(256))
    return text_of((OPEN, *changed, ROLL))


# 01: "one that 23 refuses makes another line": every month 00 to 13 and day 00
# to 32 of some years, with an id that is not there.
def every_date(chance):
    years = (1999, 2000, 2001, 2099, 2100, *(chance.randint(2000, 2099) for _ in range(3)))
    return text_of(b'O X %04d-%02d-%02d' % (year, month, day)
                   for year in years for month in range(14) for day in range(33))


# A line with one change: a byte replaced, put in, taken out or doubled, or two
# bytes exchanged.
def mutated(chance, line):
    place = chance.randrange(len(line))
    byte = bytes([chance.choice((*b' -\r\0\t\xff09AZO', chance.randrange(256)))])
    head, one, tail = line[:place], line[place:place + 1], line[place + 1:]
    return chance.choice((head + byte + tail, head + byte + one + tail, head + tail,
                          head + one + one + tail, head + tail[:1] + one + tail[1:]))


# Commands, and some with one or two changes.
def mutated_lines(chance):
    commands = (OPEN, b'O ENI 2008-02-29', b'O AXAF 2008-12-31', ROLL, b'R 2009-01-01', CLOSE, b'C 2008-12-19')
    lines = [OPEN]
    for _ in range(60):
        line = chance.choice(commands)
        for _ in range(chance.choice((0, 1, 1, 1, 2))):
            line = mutated(chance, line)
        lines.append(line)
    return text_of(lines)


# Bytes of any value, some of them line feeds.
def noise(chance):
    some = bytes(chance.choice((10, 10, 32, 13, 0, chance.randrange(256))) for _ in range(3000))
    return some + b'\n' + OPEN + b'\n' + some + b'\n' + ROLL


# Bytes that hold no command: one line, or lines of some lengths.
def filler(chance, length):
    byte = chance.choice((b'x', b' ', b'\0', b'\xff', b'O', b'9'))
    data = bytearray(byte * length)
    if chance.random() < 0.5:
        for place in range(chance.randint(1, 40), length, chance.randint(2, 90)):
            data[place] = 10
    return bytes(data)


# Commands that lie across places of the input where a buffer may end.
def across_places(chance):
    text = b''
    for place in (32, 64, 128, 256, 512, 1024, 2048, 4096, 8192, 16384, 32768, 65536, 131072):
        start = place - chance.randrange(len(OPEN) + 2)
        text += filler(chance, max(0, start - len(text) - 1)) + b'\n' + chance.choice((OPEN, ROLL)) + b'\n'
    return text


# A command with other bytes before or after it on its line, of lengths around
# those at which a buffer or a counter may end.
def long_lines(chance):
    lengths = (1, 4, 16, 32, 48, 240, 255, 256, 257, 496, 512, 1008, 4080, 4096, 8192, 65520, 65535, 65536,
               65537, 65552, 131056)
    lines = [OPEN]
    for length in lengths:
        byte = chance.choice((b'x', b' ', b'\0', b'\xff', b'0', b'O'))
        command = chance.choice((OPEN, ROLL, CLOSE))
        lines += [command + byte * length, byte * length + command]
    return text_of((*lines, ROLL))


# One line of megabytes, then commands.
def longest_line(chance):
    return b'R' * chance.randint(2_000_000, 3_000_000) + text_of((b'', OPEN, ROLL))


# Many short lines.
def many_lines(chance):
    lines = chance.choices((b'', b'x', b'BAD', b'R', ROLL[:-1], b' ' + ROLL, b'\r'), k=50_000)
    return text_of((OPEN, *lines, ROLL))


# 01: "R or C before an accepted O", also after a refused one.
def early_calls(chance):
    calls = [ROLL, CLOSE, b'O X 2008-03-20', b'O AXA 2007-12-31', b'O AXA 2010-12-31',
             b'O AXAF 2009-12-31', b'']
    chance.shuffle(calls)
    return text_of((*calls, ROLL, CLOSE, OPEN, *calls, ROLL))


# Inputs that are short, or end in the middle of a command.
ENDS = (
    b'', b'\n', b'\n\n', b'\n\n\n', b' ', b'\r\n', b'\0', b'\xff', b'O', OPEN, OPEN + b'\n', OPEN + b'\n\n',
    OPEN + b'\n' + ROLL, OPEN + b'\n' + ROLL[:-1], OPEN + b'\nR', OPEN + b'\r', OPEN + b'\r\n', OPEN + b'\n\r',
    OPEN[:-1], OPEN + b'\0', OPEN + b' ', b'\n' + OPEN, OPEN + b'\n' + ROLL + b'\n' + CLOSE,
)

RANDOM = (odd_lines, odd_lines_unended, odd_lines_with_returns, every_date, across_places, across_places,
          across_places, across_places, long_lines, long_lines, mutated_lines, mutated_lines, mutated_lines,
          mutated_lines, noise, noise, longest_line, many_lines, early_calls)
