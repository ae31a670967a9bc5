"""The tables of all products of a master file after a text of notices.

The table of a product: opened on the date, then each call in its order; a measure is a
call of the product that it names only. A refused call leaves the table as it was. A
product whose opening is refused has no table, and no call is made on it. A refused call
is told as `notices.txt:K: NO n ID`; of a measure whose id is not in the file n is 9, for
each such line. A `master.bin` that is refused is told as `master.bin: NO n`, and judged
before the notices are read; a bad line of the notices as `notices.txt:K: BAD`.
"""

from collections.abc import Callable
from dataclasses import dataclass
from functools import lru_cache

from tests.second import master, notices, table, words
from tests.second.product import Product
from tests.second.table import Table

MOVES: dict[str, Callable[[Table, int], table.Answer]] = {'R': table.roll, 'C': table.close, 'E': table.reopen}


# A product after the notices: its fields in the file; its table, None where the opening
# was refused; the opening's refusal, 0 for none; and the refused calls after it, each the
# number of its line and that of the refusal.
@dataclass
class Standing:
    item: Product
    held: Table | None
    opening: int
    refused: list[tuple[int, int]]


# All products after the notices, in the file's order; the number of the opening's line;
# and the measures whose ids are not in the file, each its line and the id.
@dataclass
class Morning:
    products: list[Standing]
    opening_line: int
    unknown: list[tuple[int, bytes]]


# A product that is opened.
def opened(file: bytes, item: Product, date: int) -> Standing:
    number, held, _, _ = table.open_table(file, item.id, date)
    return Standing(item, None if number else held, number, [])


# A call on a table: its refusal, 0 for none, and the table after it.
def called(held: Table, call: notices.Call) -> tuple[int, Table]:
    if call[0] == 'M':
        return table.measure(held, *call[2:])[:2]
    return MOVES[call[0]](held, call[1])[:2]


# Makes a call on a product, where it is one of that product's.
def make(standing: Standing, place: int, call: notices.Call) -> None:
    if standing.held is None or (call[0] == 'M' and call[1] != standing.item.id):
        return
    number, standing.held = called(standing.held, call)
    if number:
        standing.refused.append((place, number))


# The products of an accepted file after the calls of a text without a bad line. A call
# is made on one product after the other, since they have their listings in common.
def replayed(file: bytes, calls: list[tuple[int, notices.Call]]) -> Morning:
    (opening_line, (_, date)), *others = calls
    items = master.read_products(file)
    products = [opened(file, item, date) for item in items]
    for place, call in others:
        for standing in products:
            make(standing, place, call)
    known = {item.id for item in items}
    unknown = [(place, call[1]) for place, call in others if call[0] == 'M' and call[1] not in known]
    return Morning(products, opening_line, unknown)


# What is told of the file or of the notices, and nothing else is; or the products. The last
# ones are kept, as several programs are asked of the same.
@lru_cache(maxsize=4)
def begin(file: bytes, text: bytes) -> tuple[bytes, Morning | None]:
    number = master.file_refusal(file)
    if number:
        return b'master.bin: NO %d\n' % number, None
    bad, calls = notices.read(text)
    if bad:
        return b'notices.txt:%d: BAD\n' % bad, None
    return b'', replayed(file, calls)


def refusal_line(place: int, number: int, code: bytes) -> bytes:
    return b'notices.txt:%d: NO %d %s\n' % (place, number, words.id_word(code))


# The refused opening of a product, by the line of the `O`; nothing where it has a table.
def opening_refusal(morning: Morning, standing: Standing) -> bytes:
    if standing.held is not None:
        return b''
    return refusal_line(morning.opening_line, standing.opening, standing.item.id)
