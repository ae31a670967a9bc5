"""Questions for the program query: to products of a file and to others, with numbers and
days that decide between answers; lines that are none."""

from tests.inputs.runs.lines import OTHER_DATES, OTHER_IDS, OTHER_LINES, day_word, mutated
from tests.inputs.runs.notices import (BLANKS, LARGE, MARK, OTHER_NUMBERS, OTHER_PRICES, PRICES, SAYING_NOTHING,
                                       number_word, price_word)
from tests.inputs.runs.rows import some_maturity
from tests.second import dates
from tests.second.query import LINE_AT_MOST

OTHER_QUESTIONS = (
    b'AXA', b'AXA ', b'AXA last', b'AXA last 2008-06 2008-07', b'AXA due', b'AXA due 2008-06', b'AXA tick',
    b'AXA tick 1 1', b'AXA cash', b'AXA cash 1 1', b'AXA cash 1 1 1 1', b'AXA size 1', b'AXA sizes', b'AXA Size',
    b'AXA  size', b' AXA size', b'AXA\tsize', b'size', b'size AXA', b'last AXA 2008-06', b'AXA,size', b'"AXA" size',
    b'AXA size #', b'AXA size\0', b'AXA roll 2008-03-21', b' #', b'\xff size', MARK + b'AXA size',
    b'AXA last 2008-06-20x', *(b'%s size' % code for code in OTHER_IDS), *(b'AXA due ' + date for date in OTHER_DATES),
    *(b'AXA last ' + date for date in OTHER_DATES), *(b'AXAW last ' + date for date in OTHER_DATES),
    *(b'NONE last ' + date for date in OTHER_DATES), *(b'AXAF tick ' + price for price in OTHER_PRICES),
    *(b'AXAF cash 1 %s 1' % price for price in OTHER_PRICES), *(b'AXAF cash 1 1 ' + price for price in OTHER_PRICES),
    *(b'AXAF cash %s 1 1' % number for number in OTHER_NUMBERS), *OTHER_LINES)


# A price, usual or at the ends of what is taken.
def some_price(chance):
    price = chance.choice((chance.randrange(2_000_000), 100 * chance.randrange(20_000), 1, 5, 10, 999_999_999,
                           999_999_900, 1_000_000_000))
    return chance.choice(PRICES) if chance.random() < 0.1 else price_word(chance, price)


def some_contracts(chance):
    return chance.choice((number_word(chance, chance.choice((0, 1, 3, 17, 100_000, 100_001))),
                          b'%d' % chance.randint(1, 100_000),
                          chance.choice(LARGE[:5])))


# A maturity that is listed, or another, at times in the form of the other sort.
def maturity_word(chance, item, listed):
    if listed and chance.random() < 0.6:
        return chance.choice(listed)
    return some_maturity(chance, item.kind if chance.random() < 0.7 else chance.choice((0, 5)))


# A question to a product, of which some maturities are listed.
def some_question(chance, item, listed, near):
    code = item.id.rstrip() if chance.random() < 0.95 else chance.choice((b'NONE', b'0', b'ZZZ'))
    name = chance.choice((b'last', b'last', b'due', b'tick', b'cash', b'cash', b'size'))
    day = day_word(chance.choice((near + chance.randint(-40, 40), near + chance.randint(0, 3000),
                                  chance.randrange(dates.DAYS))) % dates.DAYS)
    words = {b'last': [maturity_word(chance, item, listed)], b'due': [day], b'tick': [some_price(chance)],
             b'cash': [some_contracts(chance), some_price(chance), some_price(chance)], b'size': []}[name]
    return b' '.join((code, name, *words))


# The maturities of a delivery by id.
def maturities(delivery):
    found = {}
    for line in delivery.splitlines()[1:]:
        code, _, maturity, _, _ = line.split(b',')
        found.setdefault(code, []).append(maturity)
    return found


# Questions to all products of a file, some of them with a slip; other lines among them.
def text_of(chance, delivery, items, near):
    listed, lines = maturities(delivery), []
    for _ in range(chance.choice((5, 20, 60))):
        item = chance.choice(items)
        line = some_question(chance, item, listed.get(item.id.rstrip(), []), near)
        lines.append((mutated(chance, line) if chance.random() < 0.05 else line) + chance.choice(BLANKS))
        if chance.random() < 0.1:
            lines.append(chance.choice(OTHER_QUESTIONS + SAYING_NOTHING))
    mark = MARK if chance.random() < 0.2 else b''
    return mark + b'\n'.join(lines) + chance.choice((b'', b'\n'))


# All lines that are none, in some order.
def odd_lines(chance):
    lines = [*OTHER_QUESTIONS, *SAYING_NOTHING, b'AXA size', b'NONE size']
    chance.shuffle(lines)
    return b'\n'.join(lines)


# Questions around 255 bytes, blanks at their ends and the mark not counted; long comments.
def long_lines():
    line = b'AXA tick ' + b'1'.rjust(LINE_AT_MOST - 9, b'0')
    lines = [line, line + b' \t\r' * 100, line.replace(b'1', b'01'), line + b' ' * 90 + b'x', b'#' * 255, b'#' * 256,
             b'#' * 70_000, b' ' * 70_000, b'x' * 255, b'x' * 256, b'x' * 70_000,
             b'AXAF cash 1 1 ' + b'1'.rjust(LINE_AT_MOST - 14, b'0'), b'AXA size']
    return [MARK + b'\n'.join(lines), b'\n'.join(lines[::-1]), MARK + lines[2]]
