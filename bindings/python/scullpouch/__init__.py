"""Contract terms of stock futures and stock options: the proved calls, for Python 3.

    table = scullpouch.open(file, 'AXA', scullpouch.day(2008, 3, 20))
    table.roll(scullpouch.day(2008, 3, 21))

A day is a number from 0, 1 January 2000; where one is taken, a datetime.date is taken too,
and as_date gives it back. A month is a number from 0, January 2000. The key of a maturity
is its month, or the day of a weekly option's Friday. A price is a number of 1/10,000 of the
currency; where one is taken, a decimal.Decimal of the currency is taken too, and as_decimal
gives it back. A call gives its value or raises Refused; a refused call leaves the table,
queue or load as it was. A number, a map or a stored table that does not fit its C type is a
ValueError, a value of another type a TypeError; each names the argument. Files, records,
blocks, maps and stored tables are the bytes of anything that has the buffer protocol,
however it measures itself.

The shared object is libscullpouch.so.2 beside this file, or else the one that the loader
finds; or the file that the variable SCULLPOUCH names.
"""

from __future__ import annotations

import ctypes
import datetime
import os
from collections.abc import Callable, Iterable
from ctypes import c_bool, c_size_t, c_uint8, c_uint16, c_uint32, c_uint64
from decimal import Decimal
from itertools import takewhile
from operator import index
from typing import TYPE_CHECKING, Any, NamedTuple, SupportsIndex, Union

if TYPE_CHECKING:
    from _typeshed import ReadableBuffer, WriteableBuffer

Day = Union[SupportsIndex, datetime.date]
Price = Union[SupportsIndex, Decimal]

__version__ = '2.2.0'
INTERFACE = 2
FILE_AT_MOST = 65536
PLACES = 15
MAP = 736
YEAR_MAP = 46
TABLES = 200
WEEKLY = 5  # the kind whose keys are days
BLOCK = 512
NOTICES = 6554  # the most notices of a text
CALLS = 5 * NOTICES
NOTICE_IDS = 4 * NOTICES
ROWS = 65536  # the most rows that are read
ROW_IDS = 4 * ROWS
TABLE_TEXT = 1024  # room for the rows of any table
KEYS = 65536  # after the last key

QUESTIONS = {
    1: 'Is the length a multiple of 512, from 1,024 to 65,536?',
    2: 'Is every check right?',
    3: 'Is every header right?',
    4: 'Do 1 to 16 calendar blocks of consecutive rising years come first, then at least one product block and no '
       'other kind?',
    5: 'Is every calendar block clean?',
    6: 'Does every run of seven days in the cover hold a trading day?',
    7: 'Is every record as stated, and all that must be zero zero?',
    8: 'Do the ids strictly rise over the file?',
    9: 'Is the id there?',
    10: 'Is the table sound?',
    11: 'Is the day in the cover?',
    12: "Is it not before the table's date?",
    13: "Is it after the table's date?",
    14: 'Is it a trading day?',
    15: 'With it closed, does every seven-day run still hold a trading day?',
    16: 'Are all months of the fresh listing in the cover?',
    17: 'Is the due day in the cover?',
    18: 'Is the month listed?',
    19: 'Is the order or agreed price 1 to 999,999,999?',
    20: 'Is it a multiple of the tick?',
    21: 'Is it a future?',
    22: 'Is the final price 0 to 999,999,999 and are the contracts 1 to 100,000?',
    23: 'Is it a date, or day number, of 2000–2099?',
    24: "Is the date at least seven days after the cover's first day?",
    25: 'Is the buffer long enough for the file, and the file at most 65,536 bytes?',
    26: 'Is the day a closed Monday to Friday?',
    27: 'Does the front maturity stay the same month or Friday, whatever its day?',
    28: 'Are p and q in range?',
    29: 'Are the new size, 1 ten-thousandth to 65,535.9999 shares, and the new price, 1 to 999,999,999, in range?',
    30: 'Is b from 1 to 200 and the table number 0 to 199?',
    31: 'For joining, is it not yet queued, and for leaving, is it queued?',
}


class Refused(Exception):
    """The first question that was answered no: its number, and the question in words."""

    def __init__(self, number: int) -> None:
        super().__init__(number)
        self.number = number
        self.question = QUESTIONS.get(number, '')

    def __str__(self) -> str:
        return f'refusal {self.number}: {self.question}'


class BadLine(Exception):
    """The number, from 1, of the first line of a text of notices that is none."""

    def __init__(self, number: int) -> None:
        super().__init__(number)
        self.number = number

    def __str__(self) -> str:
        return f'notices.txt:{self.number}: BAD'


# ---- The structs, as bindings/include/scullpouch.h has them ----

class _Id(ctypes.Structure):
    _fields_ = [('bytes', c_uint8 * 4)]


class _RecordBytes(ctypes.Structure):
    _fields_ = [('bytes', c_uint8 * 32)]


class _Product(ctypes.Structure):
    _fields_ = [('id', c_uint8 * 4), ('group', c_uint8 * 4), ('market', c_uint8 * 4), ('kind', c_uint8),
                ('currency', c_uint8 * 3), ('size', c_uint32), ('tick', c_uint16)]


class _Cover(ctypes.Structure):
    _fields_ = [('first_year', c_uint16), ('years', c_uint16)]


class _Calendar(ctypes.Structure):
    _fields_ = [('cover', _Cover), ('closed', c_uint8 * MAP), ('exchange', c_uint8 * MAP)]


class _Maturity(ctypes.Structure):
    _fields_ = [('key', c_uint16), ('day', c_uint16), ('back', c_uint16), ('number', c_uint16)]


class _Table(ctypes.Structure):
    _fields_ = [('product', _Product), ('calendar', _Calendar), ('date', c_uint16), ('given', c_uint16),
                ('maturities', _Maturity * PLACES)]


class _Outcome(ctypes.Structure):
    _fields_ = [('refusal', c_uint8), ('entered', c_uint16), ('left', c_uint16), ('table', _Table)]


class _Measured(ctypes.Structure):
    _fields_ = [('refusal', c_uint8), ('price', c_uint32), ('table', _Table)]


class _DayReply(ctypes.Structure):
    _fields_ = [('refusal', c_uint8), ('day', c_uint16)]


class _DateReply(ctypes.Structure):
    _fields_ = [('refusal', c_uint8), ('year', c_uint16), ('month', c_uint16), ('day', c_uint16)]


class _LastDayReply(ctypes.Structure):
    _fields_ = [('refusal', c_uint8), ('day', c_uint16), ('back', c_uint16)]


class _Amount(ctypes.Structure):
    _fields_ = [('negative', c_bool), ('amount', c_uint64), ('rest', c_uint16)]


class _CashReply(ctypes.Structure):
    _fields_ = [('refusal', c_uint8), ('cash', _Amount)]


class _Counts(ctypes.Structure):
    _fields_ = [('years', c_uint16), ('records', c_uint16)]


class _Loaded(ctypes.Structure):
    _fields_ = [('refusal', c_uint8), ('counts', _Counts)]


class _FileCalendar(ctypes.Structure):
    _fields_ = [('refusal', c_uint8), ('calendar', _Calendar)]


class _Written(ctypes.Structure):
    _fields_ = [('refusal', c_uint8), ('length', c_size_t)]


class _Intake(ctypes.Structure):
    _fields_ = [('announced', c_uint16), ('taken', c_uint16), ('lowest', c_uint16), ('first_year', c_uint16),
                ('years', c_uint16), ('idle', c_uint16), ('records', c_uint16), ('last_id', c_uint8 * 4)]


class _Taken(ctypes.Structure):
    _fields_ = [('refusal', c_uint8), ('state', _Intake)]


class _Finished(ctypes.Structure):
    _fields_ = [('refusal', c_uint8), ('counts', _Counts), ('state', _Intake)]


class _Verdict(ctypes.Structure):
    _fields_ = [('refusal', c_uint8), ('same', c_bool), ('key', c_uint16)]


class _Round(ctypes.Structure):
    _fields_ = [('tables', c_uint16 * TABLES), ('count', c_uint16)]


class _Handled(ctypes.Structure):
    _fields_ = [('refusal', c_uint8), ('taken', _Round), ('queue', _Round)]


class _Changed(ctypes.Structure):
    _fields_ = [('refusal', c_uint8), ('queue', _Round)]


class _Made(ctypes.Structure):
    _fields_ = [('refusal', c_uint8), ('calendar', _Calendar)]


class _ProductReply(ctypes.Structure):
    _fields_ = [('refusal', c_uint8), ('product', _Product)]


class _Notices(ctypes.Structure):
    _fields_ = [('fits', c_bool), ('date', c_uint16), ('opened', c_uint32), ('count', c_uint32), ('bad', c_uint32)]


class _Delivered(ctypes.Structure):
    _fields_ = [('fits', c_bool), ('refusal', c_uint8), ('table', _Table)]


class _Text(ctypes.Structure):
    _fields_ = [('refusal', c_uint8), ('fits', c_bool), ('length', c_size_t)]


class _Line(ctypes.Structure):
    _fields_ = [('bytes', c_uint8 * 64), ('length', c_size_t)]


class _Receipt(ctypes.Structure):
    _fields_ = [('next', c_size_t), ('rows', c_uint32), ('lines', c_uint32), ('bad', c_uint32), ('begun', c_bool),
                ('over', c_bool)]


class _Found(ctypes.Structure):
    _fields_ = [('refusal', c_uint8), ('fits', c_bool), ('next', c_uint32), ('lines', c_uint32), ('length', c_size_t)]


# The layout, which every language must share: the size, and where each field stands.
_LAYOUT = {
    _Id: (4, dict(bytes=0)),
    _RecordBytes: (32, dict(bytes=0)),
    _Product: (24, dict(id=0, group=4, market=8, kind=12, currency=13, size=16, tick=20)),
    _Cover: (4, dict(first_year=0, years=2)),
    _Calendar: (1476, dict(cover=0, closed=4, exchange=740)),
    _Maturity: (8, dict(key=0, day=2, back=4, number=6)),
    _Table: (1624, dict(product=0, calendar=24, date=1500, given=1502, maturities=1504)),
    _Outcome: (1632, dict(refusal=0, entered=2, left=4, table=8)),
    _Measured: (1632, dict(refusal=0, price=4, table=8)),
    _DayReply: (4, dict(refusal=0, day=2)),
    _DateReply: (8, dict(refusal=0, year=2, month=4, day=6)),
    _LastDayReply: (6, dict(refusal=0, day=2, back=4)),
    _Amount: (24, dict(negative=0, amount=8, rest=16)),
    _CashReply: (32, dict(refusal=0, cash=8)),
    _Counts: (4, dict(years=0, records=2)),
    _Loaded: (6, dict(refusal=0, counts=2)),
    _FileCalendar: (1478, dict(refusal=0, calendar=2)),
    _Written: (16, dict(refusal=0, length=8)),
    _Intake: (18, dict(announced=0, taken=2, lowest=4, first_year=6, years=8, idle=10, records=12, last_id=14)),
    _Taken: (20, dict(refusal=0, state=2)),
    _Finished: (24, dict(refusal=0, counts=2, state=6)),
    _Verdict: (4, dict(refusal=0, same=1, key=2)),
    _Round: (402, dict(tables=0, count=400)),
    _Handled: (806, dict(refusal=0, taken=2, queue=404)),
    _Changed: (404, dict(refusal=0, queue=2)),
    _Made: (1478, dict(refusal=0, calendar=2)),
    _ProductReply: (28, dict(refusal=0, product=4)),
    _Notices: (16, dict(fits=0, date=2, opened=4, count=8, bad=12)),
    _Delivered: (1628, dict(fits=0, refusal=1, table=4)),
    _Text: (16, dict(refusal=0, fits=1, length=8)),
    _Line: (72, dict(bytes=0, length=64)),
    _Receipt: (24, dict(next=0, rows=8, lines=12, bad=16, begun=20, over=21)),
    _Found: (24, dict(refusal=0, fits=1, next=4, lines=8, length=16)),
}

_BYTES = (ctypes.c_char_p, c_size_t)
_BYTE_LIST = (ctypes.POINTER(c_uint8), c_size_t)
_SHORT_LIST = (ctypes.POINTER(c_uint16), c_size_t)
_CALL_LIST = (ctypes.POINTER(c_uint32), c_size_t)
_ROW_LISTS = (*_BYTE_LIST, *_SHORT_LIST, *_SHORT_LIST, *_BYTE_LIST, *_SHORT_LIST, *_SHORT_LIST)
_SIGNATURES = {
    'interface': (c_uint32,),
    'day': (_DayReply, c_uint16, c_uint16, c_uint16),
    'date': (_DateReply, c_uint16),
    'load': (_Loaded, *_BYTES),
    'open': (_Outcome, *_BYTES, _Id, c_uint16),
    'judge_file': (_FileCalendar, *_BYTES),
    'open_in': (_Outcome, _FileCalendar, *_BYTES, _Id, c_uint16),
    'roll': (_Outcome, _Table, c_uint16),
    'close': (_Outcome, _Table, c_uint16),
    'reopen': (_Outcome, _Table, c_uint16),
    'measure': (_Measured, _Table, c_uint16, c_uint16, c_uint32),
    'last_trading_day': (_LastDayReply, _Table, c_uint16),
    'due': (_DayReply, _Table, c_uint16),
    'tick': (c_uint8, _Table, c_uint32),
    'cash': (_CashReply, _Table, c_uint32, c_uint32, c_uint32),
    'judge': (_Verdict, _Table, ctypes.POINTER(c_uint16), c_size_t),
    'write': (_Written, _Calendar, *_BYTES, ctypes.POINTER(c_uint8), c_size_t),
    'record': (_RecordBytes, _Product),
    'announce': (_Taken, c_uint16),
    'take': (_Taken, _Intake, *_BYTES),
    'finish': (_Finished, _Intake),
    'queue': (_Round,),
    'handle': (_Handled, _Round, c_uint16),
    'join': (_Changed, _Round, c_uint16),
    'leave': (_Changed, _Round, c_uint16),
    'make': (_Made, c_uint32, _Cover),
    'product_at': (_ProductReply, *_BYTES, c_size_t),
    'read_notices': (_Notices, *_BYTES, *_CALL_LIST, *_BYTE_LIST),
    'deliver': (_Delivered, _FileCalendar, *_BYTES, _Notices, *_CALL_LIST, *_BYTE_LIST, _Id, *_BYTE_LIST),
    'rows': (_Text, _Table, *_BYTE_LIST),
    'rows_heading': (_Line,),
    'refused_call': (_Line, _Id, _Notices, c_uint8, *_CALL_LIST, *_BYTE_LIST, c_uint32),
    'unknown_measure': (_Line, *_BYTES, *_CALL_LIST, *_BYTE_LIST, c_uint32),
    'receive': (_Receipt, _Receipt, *_BYTES, *_BYTES, *_ROW_LISTS),
    'differences': (_Found, _Product, _Delivered, c_uint32, *_ROW_LISTS, *_SHORT_LIST, c_uint32, *_BYTE_LIST),
    'differences_heading': (_Line,),
    'unknown_product': (_Line, *_BYTES, *_BYTE_LIST, c_uint32),
}


def _layout_of(struct: Any) -> tuple[int, dict[str, int]]:
    return ctypes.sizeof(struct), {name: getattr(struct, name).offset for name, *_ in struct._fields_}


def _calls_of(path: str) -> dict[str, Callable[..., Any]]:
    library = ctypes.CDLL(path)
    calls = {}
    for name, (result, *arguments) in _SIGNATURES.items():
        call = getattr(library, 'scullpouch_' + name, None)
        if call is None:
            raise ImportError(f'{path} has no scullpouch_{name}')
        call.restype, call.argtypes = result, arguments
        calls[name] = call
    if calls['interface']() != INTERFACE:
        raise ImportError(f'{path} has another interface than {INTERFACE}')
    return calls


for _struct, _layout in _LAYOUT.items():
    if _layout_of(_struct) != _layout:
        raise ImportError(f'scullpouch: the layout of {_struct.__name__}')


# The shared object beside this file, where there is one.
def _found() -> str:
    name = 'libscullpouch.so.2'
    beside = os.path.join(os.path.dirname(os.path.abspath(__file__)), name)
    return beside if os.path.exists(beside) else name


_call = _calls_of(os.environ.get('SCULLPOUCH') or _found())


# ---- Arguments and answers ----

# ctypes would cut a number that does not fit its C type, so each is held to its range. name: the argument's.
def _fit(number: SupportsIndex, name: str, bits: int = 16) -> int:
    try:
        number = int(index(number))
    except TypeError:
        raise TypeError(f'{name}: a whole number is expected, not {type(number).__name__}') from None
    if not 0 <= number < 1 << bits:
        raise ValueError(f'{name}: {number} does not fit {bits} bits')
    return number


# The day of a number or of a date. A datetime has a time too, and in another zone another day.
def _day(value: Day, name: str) -> int:
    if isinstance(value, datetime.datetime):
        raise TypeError(f'{name}: a day is expected, not a time of a day; hand in its date()')
    if isinstance(value, datetime.date):
        return _judged(_call['day'](*(_fit(part, name) for part in (value.year, value.month, value.day)))).day
    return _fit(value, name)


# The ten-thousandths of a number of them, or of a decimal, which has no more than four digits after the point.
def _price(value: Price, name: str) -> int:
    if not isinstance(value, Decimal):
        return _fit(value, name, 32)
    _, digits, exponent = value.as_tuple()
    if not isinstance(exponent, int) or (value and (value.is_signed() or value.adjusted() > 5)):
        raise ValueError(f'{name}: {value} is not 0 to 429496.7295')
    if not value:
        return 0
    text = ''.join(map(str, digits)).rstrip('0')
    exponent += len(digits) - len(text)
    if exponent < -4:
        raise ValueError(f'{name}: {value} has more than four digits after the point')
    return _fit(int(text) * 10 ** (exponent + 4), name, 32)


# The bytes that an object lends. They are copied where they could change meanwhile, or where the object could measure
# itself otherwise than its bytes are.
def _bytes(data: ReadableBuffer, name: str) -> bytes:
    try:
        return data if type(data) is bytes else memoryview(data).tobytes()
    except TypeError:
        raise TypeError(f'{name}: bytes are expected, not {type(data).__name__}') from None


# Bytes and their length.
def _lent(data: ReadableBuffer, name: str) -> tuple[bytes, int]:
    data = _bytes(data, name)
    return data, len(data)


# Bytes that have the size of a C type, which would cut longer ones.
def _sized(kind: Any, data: ReadableBuffer, name: str) -> Any:
    data = _bytes(data, name)
    if len(data) != ctypes.sizeof(kind):
        raise ValueError(f'{name}: {ctypes.sizeof(kind)} bytes are expected, not {len(data)}')
    return kind.from_buffer_copy(data)


def _map(data: ReadableBuffer, name: str) -> Any:
    return _sized(c_uint8 * MAP, data, name)


def _judged(reply: Any) -> Any:
    if reply.refusal:
        raise Refused(reply.refusal)
    return reply


# A value that has to be of a type.
def _of(kind: Any, value: Any, name: str) -> Any:
    if not isinstance(value, kind):
        raise TypeError(f'{name}: a {kind.__name__} is expected, not {type(value).__name__}')
    return value


# The bytes of a code, such as an id, filled up with spaces.
def _code(text: str, name: str, length: int = 4) -> Any:
    try:
        code = str.encode(_of(str, text, name), 'latin-1')
    except UnicodeEncodeError:
        raise ValueError(f'{name}: {text!r} has a character that is no byte') from None
    if len(code) > length:
        raise ValueError(f'{name}: {text!r} has more than {length} characters')
    return (c_uint8 * length)(*code.ljust(length))


# The id of a text. A character that is not ASCII becomes '?', a text of more than 4 characters four spaces: no record
# has either, so open refuses them as any id that is not there.
def _id(text: str) -> _Id:
    _of(str, text, 'id')
    code = str.encode(text, 'ascii', 'replace')
    return _Id((c_uint8 * 4)(*(code if len(code) <= 4 else b'').ljust(4)))


def _text(code: Any) -> str:
    return bytes(code).decode('latin-1').rstrip(' ')


class Maturity(NamedTuple):
    """A listed maturity: its month or Friday, its last trading day, the days that it was moved back, its number."""

    key: int
    day: int
    back: int
    number: int

    @property
    def date(self) -> datetime.date:
        """The last trading day, as a date."""
        return as_date(self.day)


class Counts(NamedTuple):
    """The counts of years and of records of a file."""

    years: int
    records: int


class Moved(NamedTuple):
    """How many maturities entered and left in a call."""

    entered: int
    left: int


class Cash(NamedTuple):
    """Whether the buyer pays the seller, the amount in 1/10,000 of the currency, the rest in 1/100,000,000."""

    negative: bool
    amount: int
    rest: int

    @property
    def decimal(self) -> Decimal:
        """The amount in the currency, with its sign and eight digits after the point."""
        digits = map(int, str(10_000 * self.amount + self.rest))
        return Decimal((int(self.negative and self.amount + self.rest > 0), tuple(digits), -8))


class Verdict(NamedTuple):
    """What is said of a list: whether it is the table's listing, and the smallest key that differs, None where it is.
    It is true where same is."""

    same: bool
    key: int | None

    def __bool__(self) -> bool:
        return self.same


class Product(NamedTuple):
    """A product. kind: 0 a future, 1, 2, 3 an option of 12, 24, 60 months, 4 a future of 2005, 5 a weekly option;
    size in 1/10,000 of a share, tick in 1/10,000 of the currency."""

    id: str
    group: str
    market: str
    kind: int
    currency: str
    size: int
    tick: int

    def _held(self) -> _Product:
        return _Product(_code(self.id, 'id'), _code(self.group, 'group'), _code(self.market, 'market'),
                        _fit(self.kind, 'kind', 8), _code(self.currency, 'currency', 3), _fit(self.size, 'size', 32),
                        _fit(self.tick, 'tick'))

    def record(self) -> bytes:
        """Its 32 bytes in a master file, whatever its fields are; write judges them."""
        return bytes(_call['record'](self._held()).bytes)

    def key_text(self, key: SupportsIndex) -> str:
        """The key of a maturity: its month as 2008-04, of a weekly option its Friday as 2008-04-25."""
        return day_text(key) if self.kind == WEEKLY else month_text(key)


class Calendar(NamedTuple):
    """A cover and two maps of 736 bytes: the closed days, and those of them on which payments and deliveries run.
    Year k of the cover has the 46 bytes from 46 * k on; its first day is the highest bit of the first of them."""

    first_year: int
    years: int
    closed: ReadableBuffer
    exchange: ReadableBuffer

    def _held(self) -> _Calendar:
        return _Calendar(_Cover(_fit(self.first_year, 'first_year'), _fit(self.years, 'years')),
                         _map(self.closed, 'closed'), _map(self.exchange, 'exchange'))

    def marked_after_cover(self) -> bool:
        """Whether a map has days marked after the cover's last year, which are in no file that write makes."""
        held = self._held()
        after = YEAR_MAP * held.cover.years
        return any(bytes(held.closed)[after:] + bytes(held.exchange)[after:])

    def trades(self, day: Day) -> bool:
        """Whether a day is a trading day: a Monday to Friday in the cover that is not closed."""
        held, number = self._held(), _day(day, 'day')
        place = _place(held, number)
        return place is not None and _is_weekday(number) and not _is_closed(held, place)

    def with_closed(self, day: Day) -> Calendar:
        """This calendar with a trading day closed. It asks what write asks of a calendar (3 to 6), then 11, 14, 15."""
        held, number = self._held(), _day(day, 'day')
        place = _asked_place(held, number)
        if not _is_weekday(number) or _is_closed(held, place):
            raise Refused(14)
        held.closed[place // 8] |= 128 >> place % 8
        if _calendar_refusal(held):
            raise Refused(15)
        return _calendar_of(held)

    def with_reopened(self, day: Day) -> Calendar:
        """This calendar with a closed day open again, in both maps. It asks what write asks of a calendar (3 to 6),
        then 11, 26."""
        held, number = self._held(), _day(day, 'day')
        place = _asked_place(held, number)
        if not _is_weekday(number) or not _is_closed(held, place):
            raise Refused(26)
        for one in (held.closed, held.exchange):
            one[place // 8] &= ~(128 >> place % 8)
        return _calendar_of(held)

    def __repr__(self) -> str:
        try:
            closed, exchange = (_marks(getattr(self, name), name) for name in ('closed', 'exchange'))
        except TypeError:
            return f'Calendar{tuple.__repr__(self)}'
        days = f'{closed} days closed, payments and deliveries on {exchange} of them'
        return f'<Calendar of {self.years} years from {self.first_year}: {days}>'


# Day 0 is a Saturday.
def _is_weekday(day: int) -> bool:
    return (day + 5) % 7 < 5


# The place of a day's bit in both maps; None where the day is not in the cover.
def _place(held: Any, day: int) -> int | None:
    date = _call['date'](day)
    year = date.year - held.cover.first_year
    if date.refusal or not 0 <= year < held.cover.years:
        return None
    return 8 * YEAR_MAP * year + day - _call['day'](date.year, 1, 1).day


# Whether the day of a place is closed; none is after the maps' end.
def _is_closed(held: Any, place: int) -> bool:
    return place // 8 < MAP and bool(held.closed[place // 8] & 128 >> place % 8)


# What write would refuse of a calendar, 3 to 6: it is handed one record that is right, and no room for the file, so
# that 25 says that all else is right.
def _calendar_refusal(held: Any) -> int:
    record = Product('A', 'AA00', 'AAAA', 0, 'EUR', 10_000, 1).record()
    refusal = _call['write'](held, record, len(record), (c_uint8 * 1)(), 0).refusal
    return 0 if refusal == 25 else refusal


# The place of a day in the cover of a calendar that write would take.
def _asked_place(held: Any, day: int) -> int:
    refusal = _calendar_refusal(held)
    place = _place(held, day)
    if refusal or place is None:
        raise Refused(refusal or 11)
    return place


# How many days a map has.
def _marks(data: ReadableBuffer, name: str) -> int:
    return bin(int.from_bytes(_bytes(data, name), 'big')).count('1')


def _calendar_of(held: Any) -> Calendar:
    return Calendar(held.cover.first_year, held.cover.years, bytes(held.closed), bytes(held.exchange))


# ---- Days ----

def day(year: SupportsIndex, month: SupportsIndex, day: SupportsIndex) -> int:  # noqa: A002
    """The day of a date."""
    return _judged(_call['day'](_fit(year, 'year'), _fit(month, 'month'), _fit(day, 'day'))).day


def date(day: Day) -> tuple[int, int, int]:
    """Year, month and day of the month of a day."""
    reply = _judged(_call['date'](_day(day, 'day')))
    return reply.year, reply.month, reply.day


def as_date(day: Day) -> datetime.date:
    """A day as a datetime.date."""
    return datetime.date(*date(day))


def day_text(day: Day) -> str:
    """A day as 2008-03-20; one after 2099 as 0000-00-00."""
    reply = _call['date'](_day(day, 'day'))
    return f'{reply.year:04}-{reply.month:02}-{reply.day:02}'


def month_text(month: SupportsIndex) -> str:
    """A month as 2008-03."""
    number = _fit(month, 'month')
    return f'{2000 + number // 12}-{number % 12 + 1:02}'


def as_decimal(number: SupportsIndex) -> Decimal:
    """A number of ten-thousandths, such as a price, a tick or a size, as a decimal with four digits after the point."""
    return Decimal((0, tuple(map(int, str(_fit(number, 'number', 64)))), -4))


def _product_of(held: Any) -> Product:
    return Product(_text(held.id), _text(held.group), _text(held.market), held.kind, _text(held.currency), held.size,
                   held.tick)


# ---- Files ----

def product_at(file: ReadableBuffer, place: SupportsIndex) -> Product:
    """The product at a place of a master file: place p is record p % 15 of block p // 15, and one that holds no record
    gets 9. Master.products has all of them."""
    return _product_of(_judged(_call['product_at'](*_lent(file, 'file'), _fit(place, 'place', 64))).product)


def load(file: ReadableBuffer) -> Counts:
    """Judges a master file, bytes: the counts of years and of records."""
    counts = _judged(_call['load'](*_lent(file, 'file'))).counts
    return Counts(counts.years, counts.records)


def make(seed: SupportsIndex, first_year: SupportsIndex, years: SupportsIndex) -> Calendar:
    """A made-up calendar for load tests."""
    cover = _Cover(_fit(first_year, 'first_year'), _fit(years, 'years'))
    return _calendar_of(_judged(_call['make'](_fit(seed, 'seed', 32), cover)).calendar)


def write_into(buffer: WriteableBuffer, calendar: Calendar, records: ReadableBuffer) -> int:
    """Writes the master file of a calendar and of records, 32 bytes each, into a bytearray that nobody else uses
    meanwhile: the file's length. What stands after the file stays; refused, everything does. Days that are marked
    after the cover's last year are not in the file (Calendar.marked_after_cover)."""
    held, (records, length) = _of(Calendar, calendar, 'calendar')._held(), _lent(records, 'records')
    try:
        room = memoryview(buffer).nbytes
        lent = (c_uint8 * room).from_buffer(buffer)
    except TypeError as error:
        raise TypeError(f'buffer: {error}') from None
    try:
        reply = _call['write'](held, records, length, lent, room)
    finally:
        del lent  # a lent bytearray cannot be made longer, also where an error is raised
    return _judged(reply).length


def write(calendar: Calendar, records: ReadableBuffer) -> bytes:
    """The master file of a calendar and of records, 32 bytes each. Days that are marked after the cover's last year
    are not in it (Calendar.marked_after_cover)."""
    buffer = bytearray(FILE_AT_MOST)
    return bytes(buffer[:write_into(buffer, calendar, records)])


class Intake:
    """A load of a file of so many blocks, block by block: take each 512 bytes, then finish."""

    def __init__(self, blocks: SupportsIndex) -> None:
        self._held = _judged(_call['announce'](_fit(blocks, 'blocks'))).state

    def take(self, block: ReadableBuffer) -> None:
        """Takes the next block."""
        self._held = _judged(_call['take'](self._held, *_lent(block, 'block'))).state

    def finish(self) -> Counts:
        """The counts of years and of records, as load gives them."""
        counts = _judged(_call['finish'](self._held)).counts
        return Counts(counts.years, counts.records)

    def __repr__(self) -> str:
        return f'<Intake: {self._held.taken} of {self._held.announced} blocks taken>'


# ---- Tables ----

def open(file: ReadableBuffer, id: str, date: Day) -> Table:  # noqa: A001, A002
    """The table of a product of a master file on a date. An id that no record can have is not there (9). Master judges
    the file once for many."""
    return Table(_judged(_call['open'](*_lent(file, 'file'), _id(id), _day(date, 'date'))))


class Master:
    """A master file, bytes, that was judged once, for many opens. It keeps the bytes that were judged."""

    def __init__(self, file: ReadableBuffer) -> None:
        self._lent = _lent(file, 'file')
        self._said = _judged(_call['judge_file'](*self._lent))

    @property
    def calendar(self) -> Calendar:
        """The file's calendar."""
        return _calendar_of(self._said.calendar)

    # The products as the calls have them.
    def _products(self) -> list[Any]:
        replies = (_call['product_at'](*self._lent, place) for place in range(PLACES * (self._lent[1] // BLOCK)))
        return [reply.product for reply in replies if reply.refusal == 0]

    @property
    def products(self) -> list[Product]:
        """The file's products, in its order."""
        return [_product_of(product) for product in self._products()]

    def open(self, id: str, date: Day) -> Table:  # noqa: A002
        """The table of a product of the file on a date: what open answers."""
        return Table(_judged(_call['open_in'](self._said, *self._lent, _id(id), _day(date, 'date'))))

    def __repr__(self) -> str:
        cover = self._said.calendar.cover
        return f'<Master of {cover.years} years from {cover.first_year}, {len(self._products())} products>'


class Table:
    """A table of listed maturities. moved: how many entered and left in the last call that moved it."""

    def __init__(self, outcome: Any) -> None:
        self._held = outcome.table
        self.moved = Moved(outcome.entered, outcome.left)

    def _take(self, outcome: Any) -> Moved:
        self.__init__(_judged(outcome))  # type: ignore[misc]
        return self.moved

    def copy(self) -> Table:
        """A table of its own that is as this one is now."""
        return Table.from_bytes(bytes(self), self.moved)

    def roll(self, date: Day) -> Moved:
        """Sets the date: how many maturities entered and left."""
        return self._take(_call['roll'](self._held, _day(date, 'date')))

    def close(self, day: Day) -> Moved:
        """Closes a day: how many maturities entered and left."""
        return self._take(_call['close'](self._held, _day(day, 'day')))

    def reopen(self, day: Day) -> Moved:
        """Opens a closed day again: how many maturities entered and left."""
        return self._take(_call['reopen'](self._held, _day(day, 'day')))

    def measure(self, p: SupportsIndex, q: SupportsIndex, price: Price) -> int:
        """A capital measure on a future, p for q, with the settlement price before it: the price after it."""
        reply = _judged(_call['measure'](self._held, _fit(p, 'p'), _fit(q, 'q'), _price(price, 'price')))
        self._held = reply.table
        return reply.price

    # A key; of a weekly option, whose keys are days, a date too.
    def _key(self, key: Day, name: str) -> int:
        if self._held.product.kind != WEEKLY and isinstance(key, datetime.date):
            raise TypeError(f'{name}: the key of this product is the number of a month, and not a date')
        return _day(key, name)

    def last_trading_day(self, key: Day) -> tuple[int, int]:
        """The last trading day of a listed maturity, and how many days it was moved back."""
        reply = _judged(_call['last_trading_day'](self._held, self._key(key, 'key')))
        return reply.day, reply.back

    def due(self, day: Day) -> int:
        """The due day of a day of the cover."""
        return _judged(_call['due'](self._held, _day(day, 'day'))).day

    def tick(self, price: Price) -> None:
        """Raises Refused where a price does not pass."""
        refusal = _call['tick'](self._held, _price(price, 'price'))
        if refusal:
            raise Refused(refusal)

    def cash(self, contracts: SupportsIndex, agreed: Price, final_price: Price) -> Cash:
        """The cash of a future: whether the buyer pays the seller, the amount in 1/10,000 of the currency, and the
        rest, 0 to 9,999, in 1/100,000,000; all of it as a decimal is cash.decimal."""
        prices = _price(agreed, 'agreed'), _price(final_price, 'final_price')
        cash = _judged(_call['cash'](self._held, _fit(contracts, 'contracts', 32), *prices)).cash
        return Cash(cash.negative, cash.amount, cash.rest)

    def judge(self, numbers: Iterable[Day]) -> Verdict:
        """Whether keys and last trading days, in turn, are the table's listing: a Verdict, true where they are, with
        the smallest key that differs where they are not."""
        fitted = [(_day if i % 2 else self._key)(number, f'numbers[{i}]') for i, number in enumerate(numbers)]
        reply = _judged(_call['judge'](self._held, (c_uint16 * len(fitted))(*fitted), len(fitted)))
        return Verdict(reply.same, None if reply.same else reply.key)

    def rows(self) -> str:
        """Its rows, as deliver prints them."""
        buffer = (c_uint8 * TABLE_TEXT)()
        return _said(buffer, _judged(_call['rows'](self._held, buffer, TABLE_TEXT)).length)

    @property
    def product(self) -> Product:
        return _product_of(self._held.product)

    @property
    def calendar(self) -> Calendar:
        return _calendar_of(self._held.calendar)

    @property
    def date(self) -> int:
        return self._held.date

    @property
    def given(self) -> int:
        """How many listing numbers were given since the opening."""
        return self._held.given

    @property
    def maturities(self) -> list[Maturity]:
        """The listed maturities by rising key."""
        places = (Maturity(m.key, m.day, m.back, m.number) for m in self._held.maturities)
        return list(takewhile(lambda place: place.number, places))

    def __bytes__(self) -> bytes:
        """The table as C holds it, to be stored; its unused bytes are zeros."""
        data = bytearray(self._held)
        data[_Product.tick.offset + 2:_Table.calendar.offset] = bytes(2)
        return bytes(data)

    @classmethod
    def from_bytes(cls, data: ReadableBuffer, moved: tuple[SupportsIndex, SupportsIndex] = Moved(0, 0)) -> Table:
        """A table that was stored, and how many maturities entered and left before. Calls refuse one that is not
        sound (10)."""
        try:
            entered, left = moved
        except (TypeError, ValueError) as error:
            raise type(error)('moved: two counts are expected') from None
        return cls(_Outcome(0, _fit(entered, 'entered'), _fit(left, 'left'), _sized(_Table, data, 'data')))

    def __eq__(self, other: object) -> bool:
        return isinstance(other, Table) and bytes(self) == bytes(other)

    __hash__ = None  # type: ignore[assignment]

    def __repr__(self) -> str:
        product, listed = self.product, self.maturities
        ends = f', {product.key_text(listed[0].key)} to {product.key_text(listed[-1].key)}' if listed else ''
        return f'<Table of {product.id!r} on {day_text(self.date)}: {len(listed)} maturities{ends}>'


# ---- A delivery ----

class Delivered(NamedTuple):
    """A table after the notices, and the number of the line and of the refusal of each refused call."""

    table: Table
    refused: list[tuple[int, int]]


class Differences(NamedTuple):
    """What differs from rows that came from elsewhere. text: the heading and the lines under it, as reconcile prints
    them, '' where there was a row too many; differ: how many lines stand under the heading; rows: how many good rows
    there were; bad: the numbers of the bad lines; over: whether there was a good row too many."""

    text: str
    differ: int
    rows: int
    bad: list[int]
    over: bool


# The text of a line, or of a part of a buffer.
def _said(held: Any, length: int) -> str:
    return bytes(held[:length]).decode('ascii')


def _line(line: Any) -> str:
    return _said(line.bytes, line.length)


class _Rows:
    """Good rows in six lists, and a seventh for the places of a product's."""

    def __init__(self, master: Master, text: ReadableBuffer) -> None:
        self.state, self.bad = _Receipt(), []
        lists = ((c_uint8, ROW_IDS), (c_uint16, ROWS), (c_uint16, ROWS), (c_uint8, ROWS), (c_uint16, ROWS),
                 (c_uint16, ROWS))
        self.lists = [part for kind, room in lists for part in ((kind * room)(), room)]
        self.places = (c_uint16 * ROWS)()
        lent = _lent(text, 'text')
        while self.state.next < lent[1] and not self.state.over:
            self.state = _call['receive'](self.state, *master._lent, *lent, *self.lists)
            if self.state.bad:
                self.bad.append(self.state.bad)

    # The lines of a product's differences.
    def differences(self, product: Any, delivered: Any) -> tuple[str, int]:
        buffer, key, lines, count = (c_uint8 * TABLE_TEXT)(), 0, [], 0
        while key < KEYS:
            found = _call['differences'](product, delivered, self.state.rows, *self.lists, self.places, ROWS, key,
                                         buffer, TABLE_TEXT)
            lines.append(_said(buffer, found.length))
            key, count = found.next, count + found.lines
        return ''.join(lines), count

    # Those of the ids that are not in the file.
    def unknown(self, master: Master) -> tuple[str, int]:
        lines = [_line(_call['unknown_product'](*master._lent, *self.lists[:2], i)) for i in range(self.state.rows)]
        return ''.join(lines), sum(map(bool, lines))


class Notices:
    """A text of notices, bytes, that was read once, for many tables. One with a bad line raises BadLine."""

    def __init__(self, text: ReadableBuffer) -> None:
        self._lists = (c_uint32 * CALLS)(), CALLS, (c_uint8 * NOTICE_IDS)(), NOTICE_IDS
        self._said = _call['read_notices'](*_lent(text, 'text'), *self._lists)
        if self._said.bad:
            raise BadLine(self._said.bad)

    @property
    def date(self) -> int:
        """The day of the opening."""
        return self._said.date

    @property
    def opened(self) -> int:
        """The number of the line of the opening."""
        return self._said.opened

    @property
    def count(self) -> int:
        """How many notices there are after the opening."""
        return self._said.count

    # The table of the product with an id, and the number of each notice's refusal.
    def _deliver(self, master: Master, id: _Id) -> tuple[Any, Any]:  # noqa: A002
        _of(Master, master, 'master')
        refusals = (c_uint8 * NOTICES)()
        delivered = _call['deliver'](master._said, *master._lent, self._said, *self._lists, id, refusals, NOTICES)
        return delivered, refusals

    def table(self, master: Master, id: str) -> Delivered:  # noqa: A002
        """The table of a product of the file after the notices, and what was refused: the number of the line and of the
        refusal of each such call. A product whose opening is refused has none."""
        delivered, refusals = self._deliver(master, _id(id))
        held = Table.from_bytes(bytes(_judged(delivered).table))
        numbers = enumerate(refusals[:self._said.count])
        return Delivered(held, [(self._lists[0][5 * i], number) for i, number in numbers if number])

    def rows(self, master: Master) -> str:
        """The rows of all products of the file, under their heading, as deliver prints them."""
        buffer, lines = (c_uint8 * TABLE_TEXT)(), [_line(_call['rows_heading']())]
        for product in _of(Master, master, 'master')._products():
            delivered, _ = self._deliver(master, _Id(product.id))
            written = _call['rows'](delivered.table, buffer, TABLE_TEXT)
            lines.append(_said(buffer, written.length))
        return ''.join(lines)

    def refused(self, master: Master) -> str:
        """What was refused, a line for each call, as deliver tells it."""
        lines = []
        for product in _of(Master, master, 'master')._products():
            id = _Id(product.id)  # noqa: A001
            delivered, refusals = self._deliver(master, id)
            lines += [_call['refused_call'](id, self._said, delivered.refusal, *self._lists[:2], refusals, NOTICES, i)
                      for i in range(self._said.count + 1)]
        lines += [_call['unknown_measure'](*master._lent, *self._lists, i) for i in range(self._said.count)]
        return ''.join(map(_line, lines))

    def differences(self, master: Master, text: ReadableBuffer) -> Differences:
        """What differs between the tables after the notices and rows that came from elsewhere, bytes in the form that
        reconcile reads."""
        rows = _Rows(_of(Master, master, 'master'), text)
        if rows.state.over:
            return Differences('', 0, rows.state.rows, rows.bad, True)
        found = [rows.differences(product, self._deliver(master, _Id(product.id))[0]) for product in master._products()]
        found.append(rows.unknown(master))
        heading = _line(_call['differences_heading']())
        return Differences(heading + ''.join(lines for lines, _ in found), sum(count for _, count in found),
                           rows.state.rows, rows.bad, False)

    def __repr__(self) -> str:
        return f'<Notices: {self.count} after the opening on {day_text(self.date)}>'


# ---- The morning round ----

class Queue:
    """A queue of tables, by their numbers 0 to 199."""

    def __init__(self) -> None:
        self._held = _call['queue']()

    def handle(self, b: SupportsIndex) -> list[int]:
        """The numbers of the first b tables, or of all if fewer, which then stand at the end."""
        reply = _judged(_call['handle'](self._held, _fit(b, 'b')))
        self._held = reply.queue
        return reply.taken.tables[:reply.taken.count]

    def join(self, table: SupportsIndex) -> None:
        """A table joins at the end."""
        self._held = _judged(_call['join'](self._held, _fit(table, 'table'))).queue

    def leave(self, table: SupportsIndex) -> None:
        """A table leaves, wherever it stands."""
        self._held = _judged(_call['leave'](self._held, _fit(table, 'table'))).queue

    @property
    def tables(self) -> list[int]:
        """The numbers of the tables, the first first."""
        return self._held.tables[:self._held.count]

    def __repr__(self) -> str:
        return f'<Queue of {self._held.count} tables: {self.tables}>'
