"""The text `notices.txt`: what the exchange and the calendar brought since the day of the
opening, oldest first, one line each.

    O 2008-03-20              every product of the file is opened on this date
    R 2008-03-21              every table rolls
    C 2008-04-18              a day is closed in every table
    E 2008-04-18              a day is reopened in every table
    M AXA 3 2 12.3400         a measure on one product: 3 for 2 at the settlement price 12.3400
    # notice 12 of 14 March   says nothing, as an empty line does

Words are parted by single spaces; the rest of the form is that of words.py. The first
line that says something is the only `O`. A text has at most 65,536 bytes, the mark
included; beyond that the line that holds byte 65,537 is bad. The first bad line is told
by its number from 1; where no line says anything, by the number after the last line.
"""

import re
from typing import Any

from tests.second import words

# A letter and a day; or M, an id, p, q and a price.
Call = tuple[Any, ...]

TEXT_AT_MOST = 65536

DAY_LINE = re.compile(rb'([ORCE]) ' + words.DATE)
MEASURE_LINE = re.compile(b' '.join((b'M', words.ID, words.NUMBER, words.NUMBER, words.PRICE)))


# The call of a line that says something: its letter and its day; or M, the id, p, q and
# the price. None for another line.
def call_of(line: bytes) -> Call | None:
    return day_call(line) or measure_call(line)


def day_call(line: bytes) -> Call | None:
    match = DAY_LINE.fullmatch(line)
    day = words.day_of(match.group(2)) if match else None
    return None if match is None or day is None else (match.group(1).decode(), day)


def measure_call(line: bytes) -> Call | None:
    match = MEASURE_LINE.fullmatch(line)
    if not match:
        return None
    code, p, q, price = match.groups()
    return 'M', words.id_of(code), words.number_of(p), words.number_of(q), words.price_of(price)


# The lines that may be good: of a text that is too long those before the line that holds
# byte 65,537, its line feed among the bytes that a line holds.
def lines_within(text: bytes) -> list[bytes]:
    lines = words.lines_of(text)
    return lines if len(text) <= TEXT_AT_MOST else lines[:text[:TEXT_AT_MOST].count(b'\n')]


# What a text says: the number of its first bad line, 0 where none is; and the calls, each
# with the number of its line, the opening first.
def read(text: bytes) -> tuple[int, list[tuple[int, Call]]]:
    lines = lines_within(text)
    calls: list[tuple[int, Call]] = []
    for place, line in enumerate(lines, 1):
        if words.says_nothing(line):
            continue
        call = call_of(line)
        if call is None or (call[0] == 'O') == bool(calls):
            return place, []
        calls.append((place, call))
    if not calls or len(text) > TEXT_AT_MOST:
        return len(lines) + 1, []
    return 0, calls
