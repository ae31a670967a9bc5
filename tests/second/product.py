"""Kinds, product fields, settlement days, tick, cash and measures (01, "Master file",
"Due day, tick, cash", question 7; 02, notes 1, 3 and 11)."""

import math
from dataclasses import dataclass
from fractions import Fraction

FUTURE = 0
OPTION_12 = 1
OPTION_24 = 2
OPTION_60 = 3
FUTURE_2005 = 4
OPTION_WEEKLY = 5
KINDS = (FUTURE, OPTION_12, OPTION_24, OPTION_60, FUTURE_2005, OPTION_WEEKLY)
FUTURES = (FUTURE, FUTURE_2005)

LETTERS = frozenset(b'ABCDEFGHIJKLMNOPQRSTUVWXYZ')
DIGITS = frozenset(b'0123456789')
TICKS = (1, 5, 10, 100)
CURRENCIES = (b'EUR', b'CHF', b'USD', b'GBP', b'GBX')

# The groups that 01 names: those of Italy, and those of options that settle on the second
# and on the fourth day.
ITALIAN = (b'IT01', b'IT11')
SECOND_DAY = (b'DE11', b'DE12', b'DE13', b'DE14')
FOURTH_DAY = (b'FI11', b'FI12', b'FI13', b'FI14', b'GB11', b'IE11')

PRICE_AT_MOST = 999_999_999
CONTRACTS_AT_MOST = 100_000

# 02, note 11: "Sizes now carry ten-thousandths of a share". Every size is a number of
# these; 65,535.9999 shares is the largest.
SHARE = 10_000
SIZE_AT_MOST = 655_359_999
RATIO_AT_MOST = 1_000


# 01, Master file: the fields of a record. id, group and market are 4 bytes,
# currency is 3 bytes, kind, size (in ten-thousandths of a share) and tick are numbers.
@dataclass(frozen=True)
class Product:
    id: bytes
    group: bytes
    market: bytes
    kind: int
    size: int
    tick: int
    currency: bytes


NO_PRODUCT = Product(bytes(4), bytes(4), bytes(4), 0, 0, 0, bytes(3))


# 01, Listed months: "A product's kind is either a future or an option with one
# of three terms." 02, note 1: "kind 4, a future of 2005". Question 21.
def is_future(kind: int) -> bool:
    return kind in FUTURES


# 02, note 3: "Weekly tables [..] under kind 5".
def is_weekly(kind: int) -> bool:
    return kind == OPTION_WEEKLY


# 01, Master file: "product id, 1 to 4 of A–Z and 0–9, then spaces".
def id_is_right(code: bytes) -> bool:
    name = code.rstrip(b' ')
    return (len(code) == 4 and 1 <= len(name)
            and all(byte in LETTERS or byte in DIGITS for byte in name))


# 01, Master file: "group, two letters A–Z and two digits, the first digit 0 for
# futures and 1 for options". 02, note 1: the "group digit of kind 4" is that "of
# a future"; note 3: "kind 5 and the option groups".
def group_is_right(group: bytes, kind: int) -> bool:
    return (len(group) == 4
            and group[0] in LETTERS and group[1] in LETTERS
            and group[2:3] == (b'0' if kind in FUTURES else b'1')
            and group[3] in DIGITS)


# 01, Master file: "cash market, four letters A–Z".
def market_is_right(market: bytes) -> bool:
    return len(market) == 4 and all(byte in LETTERS for byte in market)


# 02, note 11: "a table's size may fall as low as one ten-thousandth", and is at most
# "65,535.9999 shares".
def size_is_right(size: int) -> bool:
    return 1 <= size <= SIZE_AT_MOST


# 01, question 7, for the fields of one product, of a file or of a table. 02, notes 1
# and 3: "question 7 now admits" 4 and 5.
def fields_are_right(product: Product) -> bool:
    return (id_is_right(product.id)
            and product.kind in KINDS
            and group_is_right(product.group, product.kind)
            and market_is_right(product.market)
            and size_is_right(product.size)
            and product.tick in TICKS
            and product.currency in CURRENCIES)


# 01, Last trading day: "for the groups IT01 and IT11".
def is_italian(group: bytes) -> bool:
    return group in ITALIAN


# 01, Due day: "Futures: n = 1. Options: n = 2 for DE11 to DE14; 4 for FI11 to
# FI14, GB11, IE11; else 3."
def days_to_settlement(product: Product) -> int:
    if is_future(product.kind):
        return 1
    if product.group in SECOND_DAY:
        return 2
    if product.group in FOURTH_DAY:
        return 4
    return 3


# 01, question 19: "Is the order or agreed price 1 to 999,999,999?"
def price_in_range(price: int) -> bool:
    return 1 <= price <= PRICE_AT_MOST


# 01, question 20: "Is it a multiple of the tick?"
def is_multiple_of_tick(product: Product, price: int) -> bool:
    return price % product.tick == 0


# 01, question 22: "Is the final price 0 to 999,999,999 and are the contracts 1
# to 100,000?"
def final_and_contracts_in_range(final: int, contracts: int) -> bool:
    return 0 <= final <= PRICE_AT_MOST and 1 <= contracts <= CONTRACTS_AT_MOST


# 01, Due day, tick, cash: "contracts × size × (final − agreed), signed". 02, note 11:
# "a sign, an amount in 1/10,000 and a rest of 0 to 9,999 of 1/100,000,000, the sign
# covering both, zero being positive": (negative, amount, rest).
def cash_parts(product: Product, contracts: int, final: int, agreed: int) -> tuple[bool, int, int]:
    value = contracts * product.size * (final - agreed)
    return (value < 0, *divmod(abs(value), SHARE))


# ---- Measures (02, note 11) ----

# "nearest to [..], halves upward".
def nearest(value: Fraction) -> int:
    return math.floor(value + Fraction(1, 2))


# "the size nearest to size × p / q in ten-thousandths".
def new_size(size: int, p: int, q: int) -> int:
    return nearest(Fraction(size * p, q))


# "the price nearest to old price × old size / new size".
def new_price(price: int, old_size: int, size: int) -> int:
    return nearest(Fraction(price * old_size, size))


# 28: "are p and q in range?": "both 1 to 1,000".
def ratio_in_range(p: int, q: int) -> bool:
    return 1 <= p <= RATIO_AT_MOST and 1 <= q <= RATIO_AT_MOST


# The questions of a measure but 10: "28, after 10, 19 and 21 [..] 29: are the new size
# [..] and the new price, 1 to 999,999,999, in range?" The answer: (number, the size
# afterwards, the price, "0 if refused").
def measured(kind: int, size: int, p: int, q: int, price: int) -> tuple[int, int, int]:
    if not price_in_range(price):
        return 19, size, 0
    if not is_future(kind):
        return 21, size, 0
    if not ratio_in_range(p, q):
        return 28, size, 0
    changed = new_size(size, p, q)
    if not size_is_right(changed) or not price_in_range(new_price(price, size, changed)):
        return 29, size, 0
    return 0, changed, new_price(price, size, changed)
