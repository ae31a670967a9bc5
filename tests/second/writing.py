"""Writing a master file from a calendar and a list of records (02, note 7)."""

from collections.abc import Iterable
from dataclasses import dataclass

from tests.second import dates, master, trading
from tests.second.product import Product
from tests.second.trading import Calendar


# What is handed in: the calendar as its first year, its count of years and its
# two maps of 16 years, and the list of records as bytes, 32 to a record.
@dataclass(frozen=True)
class Draft:
    first_year: int
    years: int
    closed: bytes
    exchange: bytes
    records: bytes


# The draft of a calendar and a list of products.
def draft_of(calendar: Calendar, products: Iterable[Product]) -> Draft:
    return Draft(calendar.first_year, calendar.years, calendar.to_map(), calendar.to_second_map(),
                 b''.join(map(master.record_of, products)))


# "Writing out what an accepted file holds": the draft of that.
def draft_from(file: bytes) -> Draft:
    return draft_of(master.read_calendar(file), master.read_products(file))


# The records of the list; the last may be cut short.
def records_of(draft: Draft) -> list[bytes]:
    return [draft.records[start:start + master.RECORD]
            for start in range(0, len(draft.records), master.RECORD)]


# The maps of the years of the cover, first and second.
def maps_of(draft: Draft) -> tuple[bytes, bytes]:
    end = trading.BYTES_PER_YEAR * draft.years
    return draft.closed[:end], draft.exchange[:end]


# The length of the file: a block for each year, "full product blocks, the last
# one perhaps short".
def length_of(draft: Draft) -> int:
    product_blocks = -(-len(records_of(draft)) // master.RECORDS_AT_MOST)
    return master.BLOCK * (draft.years + product_blocks)


# The file of a draft that questions 3 to 8 and 25 accept.
def file_of(draft: Draft) -> bytes:
    closed, exchange = maps_of(draft)
    blocks = []
    for k in range(draft.years):
        year = slice(trading.BYTES_PER_YEAR * k, trading.BYTES_PER_YEAR * (k + 1))
        blocks.append((master.CALENDAR, draft.first_year + k, closed[year] + exchange[year]))
    records = records_of(draft)
    for start in range(0, len(records), master.RECORDS_AT_MOST):
        part = records[start:start + master.RECORDS_AT_MOST]
        blocks.append((master.PRODUCTS, len(part), b''.join(part)))
    return b''.join(master.block_of(kind, number, index, content)
                    for index, (kind, number, content) in enumerate(blocks))


# 3: every header of the file is right where its years are from 2000 to 2099.
def years_are_right(draft: Draft) -> bool:
    return all(dates.FIRST_YEAR <= draft.first_year + k <= dates.LAST_YEAR
               for k in range(draft.years))


# 4: "no record at all gets 4 unless 3 comes first".
def order_is_right(draft: Draft) -> bool:
    return 1 <= draft.years <= trading.YEARS_AT_MOST and len(draft.records) > 0


# 5, of the maps that the file has.
def maps_are_clean(draft: Draft) -> bool:
    closed, exchange = maps_of(draft)
    return (trading.map_is_clean(draft.first_year, draft.years, closed)
            and trading.second_map_is_clean(closed, exchange))


# 6
def weeks_are_right(draft: Draft) -> bool:
    closed, exchange = maps_of(draft)
    return trading.every_week_trades(
        Calendar.from_maps(draft.first_year, draft.years, closed, exchange))


# 7: a list that ends within a record has one that is not as stated.
def records_are_right(draft: Draft) -> bool:
    return (len(draft.records) % master.RECORD == 0
            and all(map(master.record_is_right, records_of(draft))))


# 8
def ids_rise(draft: Draft) -> bool:
    ids = [record[:4] for record in records_of(draft)]
    return all(one < other for one, other in zip(ids, ids[1:]))


QUESTIONS = (
    (3, years_are_right),
    (4, order_is_right),
    (5, maps_are_clean),
    (6, weeks_are_right),
    (7, records_are_right),
    (8, ids_rise),
)


# "Input whose file questions 3 to 8 would refuse [..] gets that number"; "25,
# after those: is the buffer long enough for the file, and the file at most
# 65,536 bytes?"
def refusal_of(draft: Draft, room: int) -> int:
    for number, question in QUESTIONS:
        if not question(draft):
            return number
    if length_of(draft) > min(room, master.FILE_AT_MOST):
        return 25
    return 0


# "Write a file into a lent buffer [..] and return its length": (number, length,
# the buffer afterwards). "Bytes after the file's end in the buffer remain"; "No
# refusal writes anything".
def write(draft: Draft, buffer: bytes) -> tuple[int, int, bytes]:
    number = refusal_of(draft, len(buffer))
    if number:
        return number, 0, bytes(buffer)
    file = file_of(draft)
    return 0, len(file), file + buffer[len(file):]
