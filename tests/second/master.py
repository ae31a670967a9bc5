"""The master file: building it, with damage for tests, judging it (questions 1
to 9) and reading it (01, "Master file"; 02, notes 4 and 11)."""

import csv
from collections.abc import Callable, Iterable, Sequence
from functools import lru_cache
from operator import mul
from typing import Any

from tests.second import dates, product, trading
from tests.second.product import Product
from tests.second.trading import Calendar

BLOCK = 512
FILE_AT_LEAST = 1024
FILE_AT_MOST = 65536
CALENDAR = 1
PRODUCTS = 2
VERSION = 1
HEADER = 16
RECORD = 32
RECORDS_AT_MOST = 15
RECORDS_END = 496
CHECK = 510
CHECK_MODULUS = 65521
MAP_END = HEADER + trading.BYTES_PER_YEAR
SECOND_MAP_END = MAP_END + trading.BYTES_PER_YEAR


# ---- Building a file ----

# 01, Master file: "the check, the sum of (i + 1) × byte i over i = 0..509, mod
# 65,521".
def check_of(block: bytes | bytearray) -> int:
    return int(sum(map(mul, range(1, CHECK + 1), block)) % CHECK_MODULUS)


# Two bytes, big-endian.
def two_bytes(number: int) -> bytes:
    return number.to_bytes(2, 'big')


# 01, Master file: a block of a kind, with the header's number (year or count of
# records), its index and the bytes from 16 on; the check is written last.
def block_of(kind: int, number: int, index: int, content: bytes) -> bytes:
    block = bytearray(BLOCK)
    block[0] = kind
    block[1] = VERSION
    block[2:4] = two_bytes(number)
    block[4:6] = two_bytes(index)
    block[HEADER:HEADER + len(content)] = content
    block[CHECK:] = two_bytes(check_of(block))
    return bytes(block)


# 01, Master file: the 32 bytes of a record. 02, note 11: the size's shares stay in bytes
# 13–14; "bytes 20–21 hold" its ten-thousandths.
def record_of(item: Product) -> bytes:
    shares, part = divmod(item.size, product.SHARE)
    fields = (item.id + item.group + item.market + bytes([item.kind])
              + two_bytes(shares) + two_bytes(item.tick) + item.currency + two_bytes(part))
    return fields + bytes(RECORD - len(fields))


# 02, note 4: "Calendar blocks hold a second map in bytes 62–107". The two maps of
# year k of a calendar.
def maps_of_year(calendar: Calendar, k: int) -> bytes:
    year = slice(trading.BYTES_PER_YEAR * k, trading.BYTES_PER_YEAR * (k + 1))
    return calendar.to_map()[year] + calendar.to_second_map()[year]


# A whole file from a calendar and a list of products, per_block records in each
# product block but perhaps the last; then the damages are done to it in order,
# each a tuple of a name in DAMAGES and its arguments.
def build(calendar: Calendar, products: Sequence[Product], per_block: int = RECORDS_AT_MOST,
          damages: Iterable[tuple[Any, ...]] = ()) -> bytes:
    file = bytearray()
    for k in range(calendar.years):
        file += block_of(CALENDAR, calendar.first_year + k, k, maps_of_year(calendar, k))
    for start in range(0, len(products), per_block):
        part = products[start:start + per_block]
        content = b''.join(record_of(item) for item in part)
        file += block_of(PRODUCTS, len(part), len(file) // BLOCK, content)
    for name, *arguments in damages:
        DAMAGES[name](file, *arguments)
    return bytes(file)


# Writes the right check into a block of a file.
def seal(file: bytearray, index: int) -> None:
    start = BLOCK * index
    block = file[start:start + BLOCK]
    file[start + CHECK:start + BLOCK] = two_bytes(check_of(block))


# Writes the right index and check into every block of a file.
def renumber(file: bytearray) -> None:
    for index in range(len(file) // BLOCK):
        file[BLOCK * index + 4:BLOCK * index + 6] = two_bytes(index)
        seal(file, index)


# Damage: other bytes from a place in a block on, the check made right again.
def damage_bytes(file: bytearray, index: int, offset: int, data: bytes) -> None:
    damage_bytes_only(file, index, offset, data)
    seal(file, index)


# Damage: other bytes from a place in a block on, the check left as it is.
def damage_bytes_only(file: bytearray, index: int, offset: int, data: bytes) -> None:
    start = BLOCK * index + offset
    file[start:start + len(data)] = data


# Damage: a number is added to the stored check; the sum fits in two bytes.
def damage_check(file: bytearray, index: int, added: int) -> None:
    start = BLOCK * index + CHECK
    stored = int.from_bytes(file[start:start + 2], 'big')
    file[start:start + 2] = two_bytes(stored + added)


# Damage: the file is cut to a length, or filled up to it with zeros.
def damage_length(file: bytearray, length: int) -> None:
    file[length:] = bytes(max(0, length - len(file)))


# Damage: two blocks change places; indices and checks are made right again.
def damage_exchange(file: bytearray, one: int, other: int) -> None:
    first = bytes(file[BLOCK * one:BLOCK * (one + 1)])
    file[BLOCK * one:BLOCK * (one + 1)] = file[BLOCK * other:BLOCK * (other + 1)]
    file[BLOCK * other:BLOCK * (other + 1)] = first
    renumber(file)


# Damage: a block is left out; indices and checks are made right again.
def damage_drop(file: bytearray, index: int) -> None:
    del file[BLOCK * index:BLOCK * (index + 1)]
    renumber(file)


# Damage: a block stands twice; indices and checks are made right again.
def damage_repeat(file: bytearray, index: int) -> None:
    end = BLOCK * (index + 1)
    file[end:end] = file[BLOCK * index:end]
    renumber(file)


DAMAGES: dict[str, Callable[..., None]] = {
    'bytes': damage_bytes,
    'bytes only': damage_bytes_only,
    'check': damage_check,
    'length': damage_length,
    'exchange': damage_exchange,
    'drop': damage_drop,
    'repeat': damage_repeat,
}


# The calendar of a cover from a list of closed days in CSV (one column, date);
# days outside the cover are left out.
def calendar_from_csv(lines: Iterable[str], first_year: int, years: int) -> Calendar:
    empty = Calendar(first_year, years, frozenset())
    days = [dates.day_of(*map(int, row['date'].split('-')))
            for row in csv.DictReader(lines)]
    return Calendar(first_year, years,
                    frozenset(day for day in days if trading.in_cover(empty, day)))


# The products of a list in CSV (id, group, market, kind, size in whole shares, tick,
# currency).
def products_from_csv(lines: Iterable[str]) -> list[Product]:
    return [Product(row['id'].encode('ascii').ljust(4), row['group'].encode('ascii'),
                    row['market'].encode('ascii'), int(row['kind']), product.SHARE * int(row['size']),
                    int(row['tick']), row['currency'].encode('ascii'))
            for row in csv.DictReader(lines)]


# ---- Reading a file ----

# 01, Master file: "Blocks of 512 bytes".
def blocks_of(file: bytes) -> list[bytes]:
    return [file[start:start + BLOCK] for start in range(0, len(file), BLOCK)]


# 01, Master file: "Bytes 2–3: the year, or the count of records".
def number_of(block: bytes) -> int:
    return int.from_bytes(block[2:4], 'big')


# The blocks of a kind, in the file's order.
def blocks_of_kind(file: bytes, kind: int) -> list[bytes]:
    return [block for block in blocks_of(file) if block[0] == kind]


# 01, Master file: a record's place, "record k (from 0) at 16 + 32 × k".
def record_at(block: bytes, k: int) -> bytes:
    return block[HEADER + RECORD * k:HEADER + RECORD * (k + 1)]


# 02, note 11: a record's size, the shares of bytes 13–14 and the ten-thousandths of
# bytes 20–21.
def size_parts(record: bytes) -> tuple[int, int]:
    return int.from_bytes(record[13:15], 'big'), int.from_bytes(record[20:22], 'big')


# The fields of a record.
def product_of(record: bytes) -> Product:
    shares, part = size_parts(record)
    return Product(record[0:4], record[4:8], record[8:12], record[12], product.SHARE * shares + part,
                   int.from_bytes(record[15:17], 'big'), record[17:20])


# The calendar of a file that questions 1 to 4 accept.
def read_calendar(file: bytes) -> Calendar:
    blocks = blocks_of_kind(file, CALENDAR)
    rows = b''.join(block[HEADER:MAP_END] for block in blocks)
    second_rows = b''.join(block[MAP_END:SECOND_MAP_END] for block in blocks)
    return Calendar.from_maps(number_of(blocks[0]), len(blocks), rows, second_rows)


# The used records of a file that questions 1 to 4 accept, in the file's order.
def read_records(file: bytes) -> list[bytes]:
    return [record_at(block, k) for block in blocks_of_kind(file, PRODUCTS)
            for k in range(number_of(block))]


# The products of a file that questions 1 to 4 accept, in the file's order.
def read_products(file: bytes) -> list[Product]:
    return [product_of(record) for record in read_records(file)]


# ---- Judging a file ----

# 01, question 1: "Is the length a multiple of 512, from 1,024 to 65,536?"
def length_is_right(file: bytes) -> bool:
    return len(file) % BLOCK == 0 and FILE_AT_LEAST <= len(file) <= FILE_AT_MOST


# 01, question 2: "Is every check right?"
def checks_are_right(file: bytes) -> bool:
    return all(int.from_bytes(block[CHECK:], 'big') == check_of(block)
               for block in blocks_of(file))


# 01, Master file, bytes 0 to 15 of one block.
def header_is_right(block: bytes, index: int) -> bool:
    if block[0] == CALENDAR:
        number_is_right = dates.FIRST_YEAR <= number_of(block) <= dates.LAST_YEAR
    else:
        number_is_right = 1 <= number_of(block) <= RECORDS_AT_MOST
    return (block[0] in (CALENDAR, PRODUCTS) and block[1] == VERSION
            and number_is_right
            and int.from_bytes(block[4:6], 'big') == index
            and not any(block[6:HEADER]))


# 01, question 3: "Is every header, bytes 0–15, right (year 2000–2099)?"
def headers_are_right(file: bytes) -> bool:
    return all(header_is_right(block, index)
               for index, block in enumerate(blocks_of(file)))


# 01, question 4: "Do 1 to 16 calendar blocks of consecutive rising years come
# first, then at least one product block and no other kind?"
def order_is_right(file: bytes) -> bool:
    kinds = [block[0] for block in blocks_of(file)]
    years = [number_of(block) for block in blocks_of_kind(file, CALENDAR)]
    products = len(kinds) - len(years)
    return (1 <= len(years) <= trading.YEARS_AT_MOST
            and products >= 1
            and kinds == [CALENDAR] * len(years) + [PRODUCTS] * products
            and years == list(range(years[0], years[0] + len(years))))


# 01, question 5: "Is every calendar block clean as stated?": "Weekend bits,
# bits after the year's end and bytes 62–509 are zero", 62 to 107 being the second
# map now (02, note 4: "Question 5 reads the second map as said").
def calendar_block_is_clean(block: bytes) -> bool:
    first, second = block[HEADER:MAP_END], block[MAP_END:SECOND_MAP_END]
    return (trading.map_is_clean(number_of(block), 1, first)
            and trading.second_map_is_clean(first, second)
            and not any(block[SECOND_MAP_END:CHECK]))


def calendar_blocks_are_clean(file: bytes) -> bool:
    return all(map(calendar_block_is_clean, blocks_of_kind(file, CALENDAR)))


# 01, question 6: "Does every run of seven days in the cover hold a trading
# day?"
def weeks_are_right(file: bytes) -> bool:
    return trading.every_week_trades(read_calendar(file))


# 02, note 11: "bytes 20–21 hold 0 to 9,999 [..] a table's size may fall as low as one
# ten-thousandth, a file's not below one share".
def file_size_is_right(record: bytes) -> bool:
    shares, part = size_parts(record)
    return shares >= 1 and part < product.SHARE


# 01, question 7, for one used record: its fields, and bytes "20–31 zero", 22 to 31 now.
def record_is_right(record: bytes) -> bool:
    return (product.fields_are_right(product_of(record)) and file_size_is_right(record)
            and not any(record[22:]))


# 01, question 7: "Is every record, and all that must be zero in its block, as
# stated?": "Unused records and bytes 496–509 are zero."
def product_blocks_are_right(file: bytes) -> bool:
    return (all(record_is_right(record) for record in read_records(file))
            and not any(any(block[HEADER + RECORD * number_of(block):CHECK])
                        for block in blocks_of_kind(file, PRODUCTS)))


# 01, question 8: "Do the ids strictly rise, byte by byte, over the file?"
def ids_rise(file: bytes) -> bool:
    ids = [item.id for item in read_products(file)]
    return all(one < next_one for one, next_one in zip(ids, ids[1:]))


FILE_QUESTIONS = (
    (1, length_is_right),
    (2, checks_are_right),
    (3, headers_are_right),
    (4, order_is_right),
    (5, calendar_blocks_are_clean),
    (6, weeks_are_right),
    (7, product_blocks_are_right),
    (8, ids_rise),
)


# 01, Questions: "Load [..] asks 1–8, each over the whole file"; "the number of
# the first answered no", or 0.
@lru_cache(maxsize=64)
def file_refusal(file: bytes) -> int:
    for number, question in FILE_QUESTIONS:
        if not question(file):
            return number
    return 0


# 01, Questions: "Load (returns the counts of years and of records)": (number,
# years, records).
def load(file: bytes) -> tuple[int, int, int]:
    number = file_refusal(file)
    if number:
        return number, 0, 0
    return 0, len(blocks_of_kind(file, CALENDAR)), len(read_records(file))


# The calendar and the products of an accepted file, the products by id.
@lru_cache(maxsize=64)
def contents(file: bytes) -> tuple[Calendar, dict[bytes, Product]]:
    return read_calendar(file), {item.id: item for item in read_products(file)}


# 01, Questions 1 to 9 of open: (number, calendar, product); "Open finds its
# record by id, given as a record's four bytes".
def find(file: bytes, code: bytes) -> tuple[int, Calendar | None, Product | None]:
    number = file_refusal(file)
    if number:
        return number, None, None
    calendar, products = contents(file)
    if code not in products:
        return 9, None, None
    return 0, calendar, products[code]
