"""The program `confirm` (02, note 12; docs/CLERK.md, "Checking a vendor").

python3 -m tests.second.confirm reads master.bin in the current folder and, from
standard input, `O id date`, any `R date` and `C date`, then a vendor's listing,
and prints one line: YES, DIFFERS and a month or Friday, REFUSED and a number, or
BAD and the number of a line.
"""

import re
import sys

from tests.second import dates, product, terms, vendor
from tests.second.table import Table

INPUT_AT_MOST = 65536
MONTH_LINE = re.compile(rb'([0-9]{4})-([0-9]{2}) ' + terms.DATE)
FRIDAY_LINE = re.compile(terms.DATE + rb' ' + terms.DATE)


# The month number of a year and a month, None where they are none of 2000-2099.
def month_of(year: int, month: int) -> int | None:
    number, day = dates.date_to_day(year, month, 1)
    return None if number else dates.month_of(day)


# The day number of a date, None where it is none.
def day_of(year: int, month: int, day: int) -> int | None:
    number, value = dates.date_to_day(year, month, day)
    return None if number else value


# The month or Friday and the last trading day of a vendor's line: "2008-03
# 2008-03-20", of a weekly option "2008-03-07 2008-03-07"; None for another line.
def entry(kind: int, line: bytes) -> tuple[int, int] | None:
    weekly = product.is_weekly(kind)
    match = (FRIDAY_LINE if weekly else MONTH_LINE).fullmatch(line)
    if not match:
        return None
    words = [int(word) for word in match.groups()]
    key = day_of(*words[:3]) if weekly else month_of(*words[:2])
    day = day_of(*words[-3:])
    return None if key is None or day is None else (key, day)


# The lines that stand in the first 65,536 bytes with their line feeds, and whether
# there is more.
def whole_lines(text: bytes) -> tuple[list[bytes], bool]:
    if len(text) <= INPUT_AT_MOST:
        return terms.lines_of(text), False
    return text[:INPUT_AT_MOST].split(b'\n')[:-1], True


# What the program prints.
def answer(file: bytes, text: bytes) -> bytes:
    lines, more = whole_lines(text)
    held: Table | None = None
    numbers: list[int] = []
    for place, line in enumerate(lines, 1):
        command = terms.parse(line)
        if held is None:
            moves = command is not None and command[0] == 'O'
        else:
            moves = command is not None and command[0] != 'O' and not numbers
        if moves and command is not None:
            number, held, _, _ = terms.call(file, held, *command)
            if number:
                return b'REFUSED %d\n' % number
            continue
        pair = None if held is None else entry(held.product.kind, line)
        if pair is None:
            return b'BAD %d\n' % place
        numbers += pair
    if more or held is None:
        return b'BAD %d\n' % (len(lines) + 1)
    return said(held, numbers)


# What is said of the list.
def said(held: Table, numbers: list[int]) -> bytes:
    number, same, key = vendor.judge(held, numbers)
    if number:
        return b'REFUSED %d\n' % number
    if same:
        return b'YES\n'
    return b'DIFFERS %s\n' % terms.key_text(held.product.kind, key).encode('ascii')


# Reads, judges and writes.
def main() -> int:
    printed = answer(terms.read_master('master.bin'), terms.read_commands())
    try:
        with open(1, 'wb', closefd=False) as out:
            out.write(printed)
    except OSError:
        return 1
    return 0


if __name__ == '__main__':
    sys.exit(main())
