"""Measures by their own numbers: sizes and prices at which 28 and 29 decide, halves, sizes
below a share, the cash of tables whose size is no whole number of shares (02, note 11)."""

from tests.inputs.tables.files import (EXAMPLE, FRACTIONS, REFUSED_SIZES, SEVEN_YEARS, THREE_YEARS_2005,
                                       THREE_YEARS_SIZES, THREE_YEARS_WEEKLY, refused_sizes)
from tests.inputs.tables.moments import push_calls
from tests.inputs.tables.script import SIZE, make
from tests.second import dates

MARCH_20 = dates.day_of(2008, 3, 20)

# Measures p, q, price on a table of 100 shares: 2 for 1, 3 for 2, 1 for 3, 1 for 1, the
# largest and smallest p and q, prices at the ends; then those that 19, 28 and 29 refuse,
# the first number coming first.
OF_100_SHARES = (
    (2, 1, 123400), (3, 2, 123400), (1, 3, 100000), (1, 1, 1), (1, 1, 999999999), (1000, 1, 999999999),
    (1, 1000, 999999), (1000, 1000, 7), (999, 1000, 123456), (1000, 999, 123456), (7, 11, 5), (2, 1, 1), (2, 1, 3),
    (1, 2, 0), (1, 2, 1000000000), (1, 2, 4294967295), (0, 0, 0), (1001, 1, 0),
    (0, 1, 100), (1, 0, 100), (0, 0, 100), (1001, 1, 100), (1, 1001, 100), (65535, 65535, 100), (1000, 1001, 1),
    (1, 2, 500000000), (1, 2, 499999999), (3, 1, 1), (1000, 499, 1), (1000, 501, 1), (1, 1000, 1000000),
)

# A size in ten-thousandths and measures on it. Halves of the size and of the price, at the
# ends of both ranges too, are rounded upward. 7 × 655,359,999 is in range if it is cut to
# 32 bits.
OF_OTHER_SIZES = (
    (1, ((1, 2, 100), (1, 3, 100), (1, 1, 100), (2, 3, 100), (3, 2, 100), (1000, 1, 5), (1, 1000, 999999999))),
    (2, ((1, 2, 100), (1, 4, 100), (1, 5, 100), (3, 4, 7))),
    (3, ((1, 2, 100), (1, 6, 100), (1, 7, 100), (5, 6, 999999999))),
    (31, ((2, 31, 64516129), (2, 31, 64516128), (2, 31, 64516130))),
    (9999, ((1, 1, 123400), (1000, 999, 123400), (1, 2, 123400), (2, 1, 123400))),
    (14727191, ((89, 2, 123400), (88, 2, 123400), (445, 10, 123400), (444, 10, 123400))),
    (333333, ((3, 1, 300000), (1, 3, 300000), (1000, 999, 123400))),
    (633860633, ((884, 855, 123400), (885, 855, 123400))),
    (655359999, ((1, 1, 999999999), (2, 1, 123400), (7, 1, 123400), (1000, 999, 123400), (999, 1000, 123400),
                 (1000, 1, 123400), (1, 1000, 999999), (1, 1000, 1000000), (1, 2, 123400))),
)


# The measures of 100 shares on the same table, of futures of both texts, the second of
# them with 500 shares; then the others, on a table with another size.
def worked_measures(script):
    for number, code in ((EXAMPLE, b'AXAF'), (THREE_YEARS_2005, b'FIA5')):
        script.open(number, code, MARCH_20)
        script.save()
        for p, q, price in OF_100_SHARES:
            script.restore()
            script.measure(p, q, price)
    for size, measures in OF_OTHER_SIZES:
        for p, q, price in measures:
            script.restore()
            script.damage(SIZE, 0, size)
            script.measure(p, q, price)


# 21 before 28 and after 19, for options of every sort.
def measures_of_options(script):
    for number, code, date in ((EXAMPLE, b'AXA ', MARCH_20), (SEVEN_YEARS, b'DAI ', 7000),
                               (THREE_YEARS_WEEKLY, b'ENIW', MARCH_20)):
        script.open(number, code, date)
        for p, q, price in ((2, 1, 123400), (0, 1, 123400), (1, 1001, 123400), (1, 1000, 999999999), (0, 0, 0),
                            (1, 1, 1000000000)):
            script.measure(p, q, price)


# A measure starts from the size that the one before left, and rolls, closures and
# reopenings between them keep it. A size falls to one ten-thousandth and rises again.
def measure_after_measure(script):
    for number, code in ((EXAMPLE, b'AXAF'), (THREE_YEARS_2005, b'AXA5'), (THREE_YEARS_2005, b'FIA5'),
                         (THREE_YEARS_SIZES, b'FRA1')):
        script.open(number, code, MARCH_20 - 2)
        calls = [('Z', 1, 3, 123400), ('C', MARCH_20), ('Z', 1, 3, 123400), ('R', MARCH_20 - 1), ('E', MARCH_20),
                 ('Z', 9, 1, 123400), ('E', MARCH_20 + 1), ('Z', 1, 1000, 100), ('R', MARCH_20), ('Z', 1, 1000, 100),
                 ('Z', 1, 1000, 100), ('R', MARCH_20 + 1), ('Z', 1000, 1, 999999999), ('Z', 1000, 999, 999999)]
        for call in calls:
            make(script, [call])
            script.cash(1, 100, 101)
        make(script, [*push_calls(script.book), ('Z', 2, 1, 50), ('R', MARCH_20 + 200)])


# Cash of sizes that are no whole number of shares: amount and rest, either sign, the sign
# of an amount of 0 with a rest, and of zero.
def cash_of_sizes(script):
    script.open(EXAMPLE, b'AXAF', MARCH_20)
    script.save()
    for size in (1, 9999, 10000, 333333, 655350000, 655359999):
        script.restore()
        script.damage(SIZE, 0, size)
        for numbers in ((1, 100, 101), (1, 100, 99), (1, 100, 100), (3, 100, 0), (100000, 100, 999999999),
                        (100000, 999999900, 0), (99999, 123400, 125001), (1, 101, 0)):
            script.cash(*numbers)


# Files whose sizes carry ten-thousandths, and those that question 7 refuses.
def sizes_of_files(script):
    for item in FRACTIONS:
        script.open(THREE_YEARS_SIZES, item.id, MARCH_20)
        make(script, (('R', MARCH_20 + 1), ('Z', 1, 1, 100), ('Z', 3, 2, 100)))
        script.cash(1, 100, 101)
    for place, (number, _) in enumerate(refused_sizes()):
        if script.open(REFUSED_SIZES + place, b'FRA0', MARCH_20) != number:
            raise ValueError(f'file {REFUSED_SIZES + place} is not refused by {number}')


# All of these.
def measured_tables(script):
    worked_measures(script)
    measures_of_options(script)
    measure_after_measure(script)
    cash_of_sizes(script)
    sizes_of_files(script)
