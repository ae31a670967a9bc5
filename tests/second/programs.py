"""What `deliver`, `reconcile` and `query` read and write, and what they say where that
fails: `deliver: notices.txt: No such file or directory`. The file is judged before the
notices are read, and both before standard input is. The status is 0."""

import os
import sys
from collections.abc import Callable

from tests.second import master, notices

PART = 1 << 16

# From master.bin, notices.txt and standard input: both outputs; whether the reading ends.
Answers = Callable[[bytes, bytes, bytes], tuple[bytes, bytes]]
Ends = Callable[[bytes, bytes, bytes], bool]


# A read or a write that failed, with what was read before it.
class Failure(Exception):

    def __init__(self, name: str, error: OSError, before: bytes = b'') -> None:
        super().__init__(f'{name}: {os.strerror(error.errno)}')
        self.before = before


# The bytes of an open file, at most so many where there is a limit.
def read_bytes(name: str, source: int, limit: int | None = None) -> bytes:
    parts, left = [], limit
    try:
        while left != 0 and (part := os.read(source, PART if left is None else min(PART, left))):
            parts.append(part)
            left = None if left is None else left - len(part)
    except OSError as error:
        raise Failure(name, error, b''.join(parts)) from None
    return b''.join(parts)


# The bytes of a file in the current folder, one more than it may have where it has more.
def read_file(name: str, most: int) -> bytes:
    try:
        source = os.open(name, os.O_RDONLY)
    except OSError as error:
        raise Failure(name, error) from None
    try:
        return read_bytes(name, source, most + 1)
    finally:
        os.close(source)


# Writes to standard output.
def write(data: bytes) -> None:
    try:
        while data:
            data = data[os.write(1, data):]
    except OSError as error:
        raise Failure('standard output', error) from None


# All of standard input. A failure is none where the whole lines before it end the reading.
def read_input(ends: Callable[[bytes], bool]) -> bytes:
    try:
        return read_bytes('standard input', 0)
    except Failure as failure:
        lines = failure.before[:failure.before.rfind(b'\n') + 1]
        if not ends(lines):
            raise
        return lines


# Reads, answers and writes.
def answer(answers: Answers, takes_input: bool, ends: Ends) -> None:
    file = read_file('master.bin', master.FILE_AT_MOST)
    accepted = not master.file_refusal(file)
    text = read_file('notices.txt', notices.TEXT_AT_MOST) if accepted else b''
    asked = takes_input and accepted and not notices.read(text)[0]
    printed, errors = answers(file, text, read_input(lambda lines: ends(file, text, lines)) if asked else b'')
    write(printed)
    sys.stderr.buffer.write(errors)


# A run of a program; `ends` says whether some lines of standard input end the reading.
def run(name: str, answers: Answers, takes_input: bool = True, ends: Ends = lambda file, text, lines: False) -> None:
    try:
        answer(answers, takes_input, ends)
    except Failure as failure:
        sys.stderr.write(f'{name}: {failure}\n')
