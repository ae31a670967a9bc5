"""Morning rounds: the master file and the script that the program morning reads,
and the lines that it must print.

python3 -m tests.inputs.mornings --write crates/compare_rounds/data
python3 -m tests.inputs.mornings --check crates/compare_rounds/data
"""

import sys
from functools import lru_cache

from tests.inputs import cases, stored
from tests.inputs.tables.files import SEED, Numbers
from tests.second import dates, rounds, table

# One product of each kind that the example has, of Italian and other groups.
PRODUCTS = (b'AXA ', b'ENTF', b'ADS ', b'GAZ ', b'AALF', b'ENT5', b'NOA3', b'AAPE')


# The first numbers of the 200 places of a queue, as the paper's list; a count that
# the places do not have makes a list that is longer than 200.
def listed(places, count):
    return places[:count] + [0] * (count - rounds.TABLES)


# The places of a queue of these numbers.
def placed(queue):
    return queue + [0] * (rounds.TABLES - len(queue))


# A queue's words in a line: its count, the places that are used, and the sum of
# the others.
def queue_words(places, count):
    return ' '.join(str(word) for word in [count, *places[:count], sum(places[count:])])


# The records of a script and the lines that it must print.
class Script:

    def __init__(self):
        self.records = []
        self.lines = []
        self.seen = set()
        self.tables = {}
        self.file = cases.example()
        self.places = placed([])
        self.count = 0

    # A record of 16 bytes: letter, 0, two numbers, an id, zeros.
    def record(self, letter, number=0, second=0, code=bytes(4)):
        self.records.append(letter.encode() + b'\0' + number.to_bytes(2, 'big')
                            + second.to_bytes(2, 'big') + code + bytes(6))

    def line(self, letter, argument, number, words):
        self.seen.add((letter, number))
        self.lines.append(f'{letter} {argument} {number} {words}')

    # The queue after a call: as it came where the call is refused.
    def keep(self, number, queue):
        if number == 0:
            self.places, self.count = placed(queue), len(queue)

    def empty(self):
        self.record('E')
        self.places, self.count = placed([]), 0

    # A place of the queue set by hand.
    def place(self, place, number):
        self.record('P', place, number)
        self.places = self.places[:place] + [number] + self.places[place + 1:]

    # The count of the queue set by hand.
    def set_count(self, count):
        self.record('N', count)
        self.count = count

    def change(self, letter, call, argument):
        self.record(letter, argument)
        number, queue = call(listed(self.places, self.count), argument)
        self.keep(number, queue)
        self.line(letter, argument, number, queue_words(self.places, self.count))

    def join(self, argument):
        self.change('J', rounds.join, argument)

    def leave(self, argument):
        self.change('L', rounds.leave, argument)

    # A call of the round; the numbers that it took.
    def handle(self, b, letter='H', date=0):
        self.record(letter, b, date)
        number, taken, queue = rounds.handle(listed(self.places, self.count), b)
        self.keep(number, queue)
        self.line(letter, b, number, queue_words(placed(taken), len(taken)) + ' '
                  + queue_words(self.places, self.count))
        return taken

    def table_line(self, letter, place, number, held, entered, left):
        self.line(letter, place, number, f'{held.date} {entered} {left} {held.given}')

    # The table of a number opened from the example file.
    def open(self, place, code, date):
        self.record('O', place, date, code)
        number, held, entered, left = table.open_table(self.file, code, date)
        self.tables[place] = held
        self.table_line('O', place, number, held, entered, left)

    # A call of the round whose tables are rolled to a date.
    def morning(self, b, date):
        for place in self.handle(b, 'M', date):
            held = self.tables.get(place, table.ZERO_TABLE)
            number, held, entered, left = table.roll(held, date)
            self.tables[place] = held
            self.table_line('R', place, number, held, entered, left)


# ---- Calls worked by hand ----

# A queue of these numbers by joinings.
def joined(script, queue):
    script.empty()
    for number in queue:
        script.join(number)


# A queue of these numbers by hand.
def by_hand(script, queue):
    script.empty()
    for place, number in enumerate(queue):
        script.place(place, number)
    script.set_count(len(queue))


# 02, note 13: the first b or all if fewer; 10, 30 and 31.
def small_queues(script):
    for b in (3, 4, 200, 1, 0, 201, 65535):
        joined(script, [5, 7, 9, 2])
        script.handle(b)
    for number in (7, 200, 65535, 0, 199):
        joined(script, [5, 7, 9, 2])
        script.join(number)
    for number in (5, 7, 2, 8, 200, 65535):
        joined(script, [5, 7, 9, 2])
        script.leave(number)
    script.empty()
    for b in (1, 200, 0, 201):
        script.handle(b)
    script.leave(5)


# Every call on a queue.
def every_call(script):
    for b in (0, 1, 3, 201):
        script.handle(b)
    for number in (200, 7, 8):
        script.join(number)
        script.leave(number)


# 02, note 13: "A queue that breaks this gets 10, first."
def broken_queues(script):
    for queue in ([7, 7], [7, 5, 9, 7], [200], [5, 65535, 7], [0, 0]):
        by_hand(script, queue)
        every_call(script)
    for count in (201, 256, 65535):
        by_hand(script, [5, 7, 9])
        script.set_count(count)
        every_call(script)


# Numbers in places that are not used: no number of the queue, whatever they are.
def unused_places(script):
    for number in (7, 200, 65535):
        for call, argument in ((script.handle, 2), (script.handle, 0), (script.join, 8), (script.join, 7),
                               (script.leave, 7), (script.leave, 9)):
            by_hand(script, [5, 7, 9])
            script.place(3, number)
            script.place(199, number)
            call(argument)


# All 200 tables: each is taken in its turn, none can join, and one that leaves can.
def full_queue(script):
    by_hand(script, [(7 * number + 3) % 200 for number in range(199)])
    script.join(196)
    for b in (200, 199, 67, 1):
        script.handle(b)
    for number in (0, 199, 200):
        script.join(number)
    for number in (100, 3):
        script.leave(number)
        script.join(number)
    script.handle(67)


# ---- Made from a seed ----

# Joinings, leavings and calls of the round, refused ones among them.
def mixed_calls(script, numbers, b, length):
    script.empty()
    for _ in range(length):
        number = numbers.below(12) if numbers.below(9) else 200 + numbers.below(3)
        call = numbers.one_of((script.join, script.join, script.leave, None, None))
        if call:
            call(number)
        else:
            script.handle(b if numbers.below(9) else numbers.one_of((0, 201)))


# ---- Tables of the example file ----

# Eight tables, three at a call; one leaves and comes back, and a number that has
# no table and dates that a roll refuses come up.
def mornings(script):
    script.empty()
    opened = dates.day_of(2008, 3, 19)
    for place, code in enumerate(PRODUCTS):
        script.open(10 * place + 5, code, opened)
        script.join(10 * place + 5)
    script.open(199, b'ZZZZ', opened)
    for days in (1, 2, 6, 30, 31):
        for _ in range(3):
            script.morning(3, opened + days)
    script.leave(25)
    script.join(77)
    for date in (opened + 29, opened + 60, dates.day_of(2014, 12, 1), 36525):
        for b in (4, 0, 200):
            script.morning(b, date)
    script.leave(77)
    script.join(25)
    script.morning(200, opened + 61)


# What the script has to meet.
def wanted():
    calls = {(letter, number) for letter in 'JL' for number in (0, 10, 30, 31)}
    calls |= {('H', number) for number in (0, 10, 30)} | {('M', number) for number in (0, 30)}
    return calls | {('O', 0), ('O', 9)} | {('R', number) for number in (0, 10, 11, 12, 16)}


# The whole script.
@lru_cache(maxsize=None)
def whole_script():
    script = Script()
    small_queues(script)
    broken_queues(script)
    unused_places(script)
    full_queue(script)
    numbers = Numbers(SEED + 13)
    for b in (1, 2, 3, 4, 7, 12, 200):
        mixed_calls(script, numbers, b, 80)
    mornings(script)
    if wanted() - script.seen:
        raise ValueError(f'the script has no {sorted(wanted() - script.seen)}')
    return script


# What the program morning must print.
def lines():
    return whole_script().lines


# The folder's files by name.
def folder():
    script = whole_script()
    return {'master.bin': script.file, 'script.bin': b''.join(script.records)}


if __name__ == '__main__':
    sys.exit(stored.command('mornings.py', sys.argv[1:], folder))
