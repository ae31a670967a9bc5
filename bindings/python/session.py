#!/usr/bin/env python3
"""The program `terms` in Python over libscullpouch: master.bin and commands in, answers out."""

import re

import scullpouch

DATE = rb'([0-9]{4})-([0-9]{2})-([0-9]{2})'
COMMAND = re.compile(rb'(?:(O) ([A-Z0-9]{1,4})|([RC])) ' + DATE)


# All bytes of a file, or so many; none where it can't be read.
def read(path, most=-1):
    try:
        with open(path, 'rb') as file:
            return file.read(most)
    except OSError:
        return b''


def day_text(day):
    return '%04d-%02d-%02d' % scullpouch.date(day)


# The month of a maturity, or its Friday.
def key_text(kind, key):
    return day_text(key) if kind == scullpouch.WEEKLY else '%04d-%02d' % (2000 + key // 12, key % 12 + 1)


def report(letter, table):
    kind = table.product.kind
    yield f'{letter} {day_text(table.date)} {table.moved.entered} {table.moved.left} {table.given}'
    for one in table.maturities:
        yield f'{one.number} {key_text(kind, one.key)} {day_text(one.day)} {one.back}'


# The letter, the id and the day of a command; None for another line.
def parse(line):
    match = COMMAND.fullmatch(line)
    try:
        return match and ((match[1] or match[3]).decode(), (match[2] or b'').decode(),
                          scullpouch.day(*map(int, match.groups()[3:])))
    except scullpouch.Refused:
        return None


# The table after a command; it stays where the call is refused.
def call(file, table, letter, code, day):
    if letter == 'O':
        return scullpouch.open(file, code, day)
    table.roll(day) if letter == 'R' else table.close(day)
    return table


def answers(file, lines):
    table = None
    for line in lines:
        command = parse(line)
        if not command or (command[0] != 'O' and table is None):
            yield 'BAD'
            continue
        try:
            table = call(file, table, *command)
        except scullpouch.Refused as refused:
            yield f'NO {refused.number}'
        else:
            yield from report(command[0], table)


def main():
    lines = read(0).split(b'\n')
    for answer in answers(read('master.bin', scullpouch.FILE_AT_MOST + 1), lines if lines[-1] else lines[:-1]):
        print(answer)


if __name__ == '__main__':
    main()
