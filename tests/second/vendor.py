"""Listings from elsewhere, judged by a table's fresh listing (02, note 12)."""

from collections import Counter

from tests.second import table
from tests.second.table import Table

# A month or Friday, and its last trading day.
Pair = tuple[int, int]


# 02, note 12: "the table's fresh listing", as pairs of a month and its last trading
# day, or of a Friday and its.
def fresh_pairs(held: Table) -> list[Pair]:
    return [(key, day) for key, day, _ in table.fresh_listing(held)]


# The pairs of a lent list of numbers, month and day in turn. A month at the end
# without a day has day 0.
def pairs_of(numbers: list[int]) -> list[Pair]:
    padded = [*numbers, 0] if len(numbers) % 2 else numbers
    return list(zip(padded[::2], padded[1::2]))


# 02, note 12: a month "that stands in only one of the two, has another day, or
# stands more than once in the list". A pair of one list that the other has not is
# of a month of the first two sorts.
def differing(fresh: list[Pair], pairs: list[Pair]) -> set[int]:
    only_in_one = {key for key, _ in set(fresh) ^ set(pairs)}
    doubled = {key for key, times in Counter(key for key, _ in pairs).items() if times > 1}
    return only_in_one | doubled


# 02, note 12: "say yes exactly when it is the table's fresh listing, in any order
# and each month once; with a no, name the smallest month that ..". "An unsound
# table gets 10." (number, yes or no, the month; 0 with a yes and with a number).
def judge(held: Table, numbers: list[int]) -> tuple[int, bool, int]:
    if not table.is_sound(held):
        return 10, False, 0
    fresh, pairs = fresh_pairs(held), pairs_of(numbers)
    if sorted(fresh) == sorted(pairs):
        return 0, True, 0
    return 0, False, min(differing(fresh, pairs))
