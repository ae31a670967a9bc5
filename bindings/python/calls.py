#!/usr/bin/env python3
"""A line of input for each call of the module scullpouch, a line of output for each answer (bindings/README.md)."""

import sys
import time
from decimal import Decimal, InvalidOperation
from operator import mul

import scullpouch

LOOPS = 50
SUM_MODULUS = 65521
PRODUCT = ('id', 'group', 'market', 'kind', 'currency', 'size', 'tick')
# The commands whose first word is a text.
TEXTS = ('file', 'open', 'open_in', 'set', 'write', 'notices', 'deliver', 'differences', 'read_decimal')
ZERO_TABLE = scullpouch.Table.from_bytes(bytes(1624))


def read(name):
    with open(name, 'rb') as file:
        return file.read()


# The sum of (i + 1) * byte i, modulo 65,521.
def sum_of(data):
    return sum(map(mul, range(1, len(data) + 1), data)) % SUM_MODULUS


# A call's refusal, and its value, or another where it is refused.
def asked(call, *arguments, refused=None):
    try:
        return 0, call(*arguments)
    except scullpouch.Refused as no:
        return no.number, refused


# A text by its length and its sum.
def text_words(text):
    return len(text), sum_of(text.encode('ascii'))


def calendar_words(calendar):
    return calendar.first_year, calendar.years, sum_of(calendar.closed), sum_of(calendar.exchange)


# The count, the places that are used, and the sum of the others.
def queue_words(held):
    places = list(held.tables)
    return (held.count, *places[:held.count], sum(places[held.count:]))


class Calls:
    """What the lines before have left, and a method for each command. A method gives the words of its line, or None
    where it prints nothing."""

    def __init__(self):
        self.bytes = b''
        self.master = self.said = None
        self.held = self.kept = ZERO_TABLE
        self.days = ZERO_TABLE.calendar
        self.load_state = None
        self.waiting = scullpouch.Queue()

    def interface(self):
        return (scullpouch._call['interface'](),)

    def question(self, number):
        return (scullpouch.QUESTIONS.get(number, ''),)

    def day(self, *date):
        return asked(scullpouch.day, *date, refused=0)

    def date(self, day):
        refusal, date = asked(scullpouch.date, day, refused=(0, 0, 0))
        return (refusal, *date)

    # ---- Texts ----

    def day_text(self, day):
        return (scullpouch.day_text(day),)

    def month_text(self, month):
        return (scullpouch.month_text(month),)

    def key_text(self, kind, key):
        return (self.held.product._replace(kind=kind).key_text(key),)

    def decimal(self, number):
        return (scullpouch.as_decimal(number),)

    def read_decimal(self, word):
        try:
            return 1, scullpouch._price(Decimal(word), 'word')
        except (ValueError, InvalidOperation):
            return 0, 0

    def amount(self, negative, amount, rest):
        return (format(scullpouch.Cash(bool(negative), amount, rest).decimal, 'f'),)

    # ---- Files ----

    def products(self):
        refusal, master = asked(scullpouch.Master, self.bytes)
        records = [one.record() for one in master.products] if master else []
        return refusal, len(records), sum_of(b''.join(records))

    def file(self, name):
        self.bytes = read(name)

    def load(self):
        refusal, counts = asked(scullpouch.load, self.bytes, refused=(0, 0))
        return (refusal, *counts)

    def judge_file(self):
        refusal, self.master = asked(scullpouch.Master, self.bytes, refused=self.master)
        return (refusal, *calendar_words(self.master.calendar if self.master else ZERO_TABLE.calendar))

    def announce(self, blocks):
        refusal, state = asked(scullpouch.Intake, blocks)
        self.load_state = state or self.load_state
        return (refusal,)

    def take(self, start, length):
        return asked(self.load_state.take, self.bytes[start:start + length])[:1]

    def finish(self):
        refusal, counts = asked(self.load_state.finish, refused=(0, 0))
        return (refusal, *counts)

    def make(self, *numbers):
        refusal, self.days = asked(scullpouch.make, *numbers, refused=self.days)
        return (refusal, *calendar_words(self.days))

    def write(self, name, room):
        buffer = bytearray(b'\xa5' * room)
        refusal, length = asked(scullpouch.write_into, buffer, self.days, read(name), refused=0)
        if refusal == 0:
            assert scullpouch.write(self.days, read(name)) == buffer[:length]
        return refusal, length, sum_of(buffer)

    def marked(self):
        return (int(self.days.marked_after_cover()),)

    def trades(self, day):
        return (int(self.days.trades(day)),)

    def calendar_close(self, day):
        refusal, self.days = asked(self.days.with_closed, day, refused=self.days)
        return (refusal, *calendar_words(self.days))

    def calendar_reopen(self, day):
        refusal, self.days = asked(self.days.with_reopened, day, refused=self.days)
        return (refusal, *calendar_words(self.days))

    # ---- Tables ----

    def opened(self, call, *arguments):
        refusal, self.held = asked(call, *arguments, refused=self.held)
        return (refusal, *((0, 0) if refusal else self.held.moved))

    def open(self, code, date):
        return self.opened(scullpouch.open, self.bytes, code, date)

    def open_in(self, code, date):
        return self.opened(self.master.open, code, date)

    def outcome(self, call, day):
        refusal, moved = asked(call, day, refused=(0, 0))
        return (refusal, *moved)

    def roll(self, date):
        return self.outcome(self.held.roll, date)

    def close(self, day):
        return self.outcome(self.held.close, day)

    def reopen(self, day):
        return self.outcome(self.held.reopen, day)

    def measure(self, *numbers):
        return asked(self.held.measure, *numbers, refused=0)

    def table(self):
        product, held = self.held.product, self.held._held
        codes = ''.join(bytes(getattr(held.product, name)).hex() for name in ('id', 'group', 'market', 'currency'))
        places = [number for m in held.maturities for number in (m.key, m.day, m.back, m.number)]
        listed = self.held.maturities
        assert [number for one in listed for number in one] == places[:4 * len(listed)]
        return (codes, product.kind, product.size, product.tick, *calendar_words(self.held.calendar), self.held.date,
                self.held.given, *places, len(listed))

    def last(self, key):
        refusal, value = asked(self.held.last_trading_day, key, refused=(0, 0))
        return (refusal, *value)

    def due(self, day):
        return asked(self.held.due, day, refused=0)

    def tick(self, price):
        return asked(self.held.tick, price)[:1]

    def cash(self, *numbers):
        refusal, cash = asked(self.held.cash, *numbers, refused=(False, 0, 0))
        return (refusal, int(cash[0]), *cash[1:])

    def judge(self, *numbers):
        refusal, verdict = asked(self.held.judge, numbers, refused=scullpouch.Verdict(False, 0))
        return refusal, int(bool(verdict)), verdict.key or 0

    def record(self):
        return (self.held.product.record().hex(),)

    # A byte of a map is xored with the value.
    def set(self, field, place, value):
        self.held = self.held.copy()
        held = self.held._held
        if field in PRODUCT:
            part, name = held.product, field
        elif field in ('first_year', 'years'):
            part, name = held.calendar.cover, field
        elif field in ('closed', 'exchange'):
            part, name, value = held.calendar, field, getattr(held.calendar, field)[place] ^ value
        elif field in ('date', 'given'):
            part, name = held, field
        else:
            part, name = held.maturities[place], 'day' if field == 'last' else field
        if isinstance(getattr(part, name), int):
            setattr(part, name, value)
        else:
            getattr(part, name)[place] = value

    def stored(self):
        data = bytes(self.held)
        self.held = scullpouch.Table.from_bytes(data, self.held.moved)
        return (sum_of(data),)

    def keep(self):
        self.kept = self.held.copy()

    def restore(self):
        self.held = self.kept.copy()

    def calendar(self):
        self.days = self.held.calendar

    # ---- A delivery ----

    def product(self, place):
        refusal, p = asked(scullpouch.product_at, self.bytes, place)
        if refusal:
            return refusal, bytes(15).hex(), 0, 0, 0
        codes = [p.id.ljust(4), p.group.ljust(4), p.market.ljust(4), p.currency.ljust(3)]
        return refusal, ''.join(codes).encode('latin-1').hex(), p.kind, p.size, p.tick

    def notices(self, name):
        try:
            self.said = scullpouch.Notices(read(name))
        except scullpouch.BadLine as bad:
            return bad.number, 0, 0, 0
        return 0, self.said.date, self.said.opened, self.said.count

    def deliver(self, code):
        refusal, delivered = asked(self.said.table, self.master, code, refused=(self.held, []))
        self.held, refused = delivered
        return (refusal, len(refused), *(number for one in refused for number in one))

    def rows(self):
        refusal, text = asked(self.held.rows, refused='')
        return (refusal, *text_words(text))

    def delivery(self):
        assert len(self.master.products) == scullpouch.load(self.bytes).records
        return (*text_words(self.said.rows(self.master)), *text_words(self.said.refused(self.master)))

    def differences(self, name):
        found = self.said.differences(self.master, read(name))
        return (found.rows, found.differ, int(found.over), *text_words(found.text), *found.bad)

    # ---- The round ----

    def queue(self):
        self.waiting = scullpouch.Queue()

    # A queue of any numbers: its count, then its places from the first on.
    def numbers(self, count, *places):
        held = self.waiting._held = scullpouch._Round()
        held.count = count
        held.tables[:len(places)] = places

    def round(self):
        return queue_words(self.waiting._held)

    def handle(self, b):
        refusal, taken = asked(self.waiting.handle, b, refused=[])
        return (refusal, len(taken), *taken, 0)

    def join(self, table):
        return asked(self.waiting.join, table)[:1]

    def leave(self, table):
        return asked(self.waiting.leave, table)[:1]

    # ---- Time ----

    # The microseconds of a roll to a date, the best of some loops of so many rolls.
    def time(self, count, date):
        best = min(self.loop(count, date) for _ in range(LOOPS))
        return (f'{best / count * 1e6:.2f}',)

    def loop(self, count, date):
        start = time.perf_counter()
        for _ in range(count):
            self.held.roll(date)
        return time.perf_counter() - start


def main():
    calls = Calls()
    for line in sys.stdin:
        name, *words = line.split()
        texts = 1 if name in TEXTS else 0
        said = getattr(calls, name)(*words[:texts], *map(int, words[texts:]))
        if said is not None:
            print(*said)


if __name__ == '__main__':
    main()
