"""The program `query`: questions to the tables after the notices.

A question a line, each with its product: `AXA last 2008-06`, `AXA due 2008-03-22`,
`AXA tick 12.3400`, `AXA cash 3 12.3400 12.5000` (contracts, agreed, final), `AXA size`.
The answer is the line, without blanks at its end, a space and: the last trading day and the
days back; the due day; `OK`; the amount with eight digits after the point, a minus before a
negative one; the size as in the text of a master file; or `NO n`: 9 of an id that is not in
the file, the opening's number of a product without a table, else the call's. Any other
line, one of more than 255 bytes, and `last` in the form of the other sort of maturity:
`BAD K`. Empty lines and comments are passed over. Refused notices are not told.

python3 -m tests.second.query reads master.bin and notices.txt in the current folder and
questions from standard input.
"""

import re
from collections.abc import Callable

from tests.second import lists, programs, replay, rows, table, terms, words
from tests.second.replay import Standing
from tests.second.table import Table

LINE_AT_MOST = 255
QUESTIONS = {
    'last': re.compile(words.ID + rb' last ([0-9-]+)'),
    'due': re.compile(words.ID + rb' due ' + words.DATE),
    'tick': re.compile(words.ID + rb' tick ' + words.PRICE),
    'cash': re.compile(words.ID + b' cash ' + b' '.join((words.NUMBER, words.PRICE, words.PRICE))),
    'size': re.compile(words.ID + rb' size'),
}


def no(number: int) -> bytes:
    return b'NO %d' % number


# ---- The answers of a table ----

def last(held: Table, key: int) -> bytes:
    number, day, back = table.last_trading_day(held, key)
    return no(number) if number else b'%s %d' % (terms.day_text(day).encode(), back)


def due(held: Table, day: int) -> bytes:
    number, due_day = table.due(held, day)
    return no(number) if number else terms.day_text(due_day).encode()


def tick(held: Table, price: int) -> bytes:
    number = table.tick(held, price)
    return no(number) if number else b'OK'


# "(`48.00000000`, `-0.00000001`, zero without a sign)".
def cash(held: Table, contracts: int, agreed: int, final: int) -> bytes:
    number, negative, amount, rest = table.cash(held, contracts, agreed, final)
    if number:
        return no(number)
    whole, parts = divmod(amount, words.PARTS)
    return b'%s%d.%04d%04d' % (b'-' if negative else b'', whole, parts, rest)


def size(held: Table) -> bytes:
    return lists.size_word(held.product.size)


ANSWERS: dict[str, Callable[..., bytes]] = {'last': last, 'due': due, 'tick': tick, 'cash': cash, 'size': size}


# ---- Questions ----

# The maturity of a question, by its product; of an id that is not in the file both forms
# are taken. None for another word.
def maturity(standing: Standing | None, word: bytes) -> int | None:
    if standing is None:
        return 0 if rows.is_maturity(word) else None
    return rows.key_of(standing.item.kind, word)


# The arguments of a question as numbers; None among them for a word that is none.
def arguments(name: str, standing: Standing | None, found: tuple[bytes, ...]) -> list[int | None]:
    if name == 'last':
        return [maturity(standing, *found)]
    if name == 'due':
        return [words.day_of(*found)]
    if name == 'cash':
        return [words.number_of(found[0]), *map(words.price_of, found[1:])]
    return [words.price_of(word) for word in found]


# The name of a question, its id and the other words; None for another line.
def question_of(line: bytes) -> tuple[str, bytes, tuple[bytes, ...]] | None:
    for name, form in QUESTIONS.items():
        match = form.fullmatch(line)
        if match:
            return name, match.group(1), match.groups()[1:]
    return None


# What stands after a question; None where the line is bad.
def answer(products: dict[bytes, Standing], line: bytes) -> bytes | None:
    question = question_of(line) if len(line) <= LINE_AT_MOST else None
    if question is None:
        return None
    name, code, found = question
    standing = products.get(words.id_of(code))
    numbers = arguments(name, standing, found)
    if None in numbers:
        return None
    if standing is None:
        return no(9)
    if standing.held is None:
        return no(standing.opening)
    return ANSWERS[name](standing.held, *numbers)


# The line that answers a line.
def answer_line(products: dict[bytes, Standing], place: int, line: bytes) -> bytes:
    said = answer(products, line)
    return b'BAD %d\n' % place if said is None else b'%s %s\n' % (line, said)


# Both outputs.
def query(file: bytes, notices: bytes, text: bytes) -> tuple[bytes, bytes]:
    refused, morning = replay.begin(file, notices)
    if morning is None:
        return b'', refused
    products = {standing.item.id: standing for standing in morning.products}
    return b''.join(answer_line(products, place, line) for place, line in enumerate(words.lines_of(text), 1)
                    if not words.says_nothing(line)), b''


if __name__ == '__main__':
    programs.run('query', query)
