"""The program `terms` (01, "March 2008 and its neighbours"; 02, notes 2 and 3).

python3 -m tests.second.terms reads master.bin in the current folder and
commands from standard input, and prints the answers. It ends with status 0, or
with 1 where standard output can't be written.
"""

import os
import re
import sys

from tests.second import dates, master, product, table
from tests.second.table import Table

# The letter, the id (empty for R and C) and the day number of a command.
Command = tuple[str, bytes, int]

# 01: "`O id date`, `R date`, `C date`. An id is 1 to 4 characters as in a
# record; a date is year, month, day in 4, 2 and 2 digits joined by hyphens".
DATE = rb'([0-9]{4})-([0-9]{2})-([0-9]{2})'
OPEN = re.compile(rb'O ([A-Z0-9]{1,4}) ' + DATE)
MOVE = re.compile(rb'([RC]) ' + DATE)


# 01: "A `master.bin` that can't be read counts as empty, and one of more than
# 65,536 bytes gets 1."
def read_master(path: str) -> bytes:
    try:
        with open(path, 'rb') as file:
            return file.read(master.FILE_AT_MOST + 1)
    except OSError:
        return b''


# All bytes of standard input. Where it can't be read, as when it is closed, the
# input ends there.
def read_commands() -> bytes:
    parts = []
    try:
        while part := os.read(0, 1 << 20):
            parts.append(part)
    except OSError:
        pass
    return b''.join(parts)


# 01: "a line [..] ends with a line feed or with the input". A final line feed
# starts no further line.
def lines_of(commands: bytes) -> list[bytes]:
    lines = commands.split(b'\n')
    if lines[-1] == b'':
        lines.pop()
    return lines


# The command of a line; None for another line, such as one with a date "that 23
# refuses".
def parse(line: bytes) -> Command | None:
    match = OPEN.fullmatch(line)
    if match:
        letter, code, date = 'O', match.group(1), match.groups()[1:]
    else:
        match = MOVE.fullmatch(line)
        if not match:
            return None
        letter, code, date = match.group(1).decode('ascii'), b'', match.groups()[1:]
    number, day = dates.date_to_day(*map(int, date))
    return None if number else (letter, code, day)


# A command's call: (number, table, entered, left).
def call(file: bytes, held: Table | None, letter: str, code: bytes, day: int) -> table.Answer:
    if letter == 'O':
        return table.open_table(file, code.ljust(4), day)
    assert held is not None
    if letter == 'R':
        return table.roll(held, day)
    return table.close(held, day)


# A day as year, month and day in 4, 2 and 2 digits joined by hyphens.
def day_text(day: int) -> str:
    return '%04d-%02d-%02d' % dates.date_of(day)


# A month as year and month in 4 and 2 digits joined by a hyphen.
def month_text(month: int) -> str:
    return '%04d-%02d' % dates.year_and_month(month)


# The month of a maturity. 02, note 3: "its Friday, by whose date it is named and
# printed".
def key_text(kind: int, key: int) -> str:
    return day_text(key) if product.is_weekly(kind) else month_text(key)


# 01: "It prints the call's letter, the table's date after the call, entered,
# left, given; then number, month, last trading day for each maturity". 02, note
# 2: it "prints [the days stepped back] as a fourth number on each maturity line".
def report(letter: str, held: Table, entered: int, left: int) -> list[str]:
    lines = ['%s %s %d %d %d' % (letter, day_text(held.date), entered, left, held.given)]
    for key, day, back, number in table.maturities(held):
        lines.append('%d %s %s %d' % (number, key_text(held.product.kind, key), day_text(day), back))
    return lines


# 01: "or `NO` and the number, keeping the table of the last accepted call; or
# `BAD` for another line, or R or C before an accepted O".
def answers(file: bytes, commands: bytes) -> bytes:
    printed = []
    held: Table | None = None
    for line in lines_of(commands):
        command = parse(line)
        if command is None or (command[0] != 'O' and held is None):
            printed.append('BAD')
            continue
        number, after, entered, left = call(file, held, *command)
        if number:
            printed.append('NO %d' % number)
        else:
            held = after
            printed += report(command[0], held, entered, left)
    return ''.join(line + '\n' for line in printed).encode('ascii')


# Reads, answers and writes.
def main() -> int:
    printed = answers(read_master('master.bin'), read_commands())
    try:
        with open(1, 'wb', closefd=False) as out:
            out.write(printed)
    except OSError:
        return 1
    return 0


if __name__ == '__main__':
    sys.exit(main())
