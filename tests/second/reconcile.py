"""The program `reconcile`: whether rows from elsewhere are those of the tables after the
notices.

Standard output: one line for a key that differs, under a heading. `missing` is listed and
not delivered, `extra` delivered and not listed, however often, `twice` delivered more than
once; then `day`, `number`, `days_back`, the last two of five fields. Rows of a product
without a table are `extra`. Products in the file's order, keys rising; then `product`, once
for each id that is not in the file, in the order of their first rows. Standard error:
refused openings, bad lines by number, and last the summary, which is not there where there
were too many rows; standard output is then empty.

python3 -m tests.second.reconcile reads master.bin and notices.txt in the current folder
and rows from standard input.
"""

from collections.abc import Iterator

from tests.second import programs, replay, rows, table, terms, words
from tests.second.replay import Morning, Standing
from tests.second.rows import Row

# Why a key differs, what was delivered, what is right.
Said = tuple[bytes, bytes, bytes]

HEADING = b'product,maturity,why,delivered,right\n'


def day_word(day: int) -> bytes:
    return terms.day_text(day).encode()


# What is said of a key: why it differs, what was delivered and what is right; None where
# it does not differ. `listed` is its place in the table, None where it is not listed;
# `given` are the rows with the key, in their order. "the first `why` that holds";
# "`delivered` is that of the first row with the key".
def difference(listed: table.Place | None, given: list[Row]) -> Said | None:
    if not given:
        assert listed is not None
        return b'missing', b'', day_word(listed[1])
    first = given[0]
    if listed is None:
        return b'extra', day_word(first.day), b''
    _, day, back, number = listed
    if len(given) > 1:
        return b'twice', day_word(first.day), day_word(day)
    if first.day != day:
        return b'day', day_word(first.day), day_word(day)
    return number_difference(first, number, back)


# The same of the two numbers, "of five fields".
def number_difference(row: Row, number: int, back: int) -> Said | None:
    if row.number is None or row.back is None:
        return None
    if row.number != number:
        return b'number', b'%d' % row.number, b'%d' % number
    if row.back != back:
        return b'days_back', b'%d' % row.back, b'%d' % back
    return None


# The rows of a product by their keys.
def by_key(given: list[Row]) -> dict[int, list[Row]]:
    found: dict[int, list[Row]] = {}
    for row in given:
        assert row.key is not None
        found.setdefault(row.key, []).append(row)
    return found


# The lines of a product: "keys rising".
def product_lines(standing: Standing, given: list[Row]) -> Iterator[bytes]:
    held, item = standing.held, standing.item
    listed = {} if held is None else {maturity[0]: maturity for maturity in table.maturities(held)}
    delivered = by_key(given)
    for key in sorted(listed.keys() | delivered.keys()):
        said = difference(listed.get(key), delivered.get(key, []))
        if said:
            yield b','.join((words.id_word(item.id), terms.key_text(item.kind, key).encode(), *said)) + b'\n'


# The lines under the heading.
def lines(morning: Morning, good: list[Row]) -> list[bytes]:
    given: dict[bytes, list[Row]] = {standing.item.id: [] for standing in morning.products}
    for row in good:
        given.setdefault(row.code, []).append(row)
    said = [line for standing in morning.products for line in product_lines(standing, given.pop(standing.item.id))]
    return said + [b'%s,,product,,\n' % words.id_word(code) for code in given]


def kinds_of(morning: Morning) -> dict[bytes, int]:
    return {standing.item.id: standing.item.kind for standing in morning.products}


# Both outputs.
def reconcile(file: bytes, notices: bytes, text: bytes) -> tuple[bytes, bytes]:
    refused, morning = replay.begin(file, notices)
    if morning is None:
        return b'', refused
    read = rows.read(text, kinds_of(morning))
    told = [replay.opening_refusal(morning, standing) for standing in morning.products]
    told += [b'standard input:%d: BAD\n' % place for place in read.bad]
    if read.too_many:
        return b'', b''.join(told)
    differ = lines(morning, read.good)
    summary = b'%d products, %d rows, %d differ, %d bad\n' % (
        len(morning.products), len(read.good), len(differ), len(read.bad))
    return HEADING + b''.join(differ), b''.join([*told, summary])


# Whether some lines end the reading: there is a row too many among them.
def ends(file: bytes, notices: bytes, lines: bytes) -> bool:
    _, morning = replay.begin(file, notices)
    return morning is not None and rows.read(lines, kinds_of(morning)).too_many


if __name__ == '__main__':
    programs.run('reconcile', reconcile, ends=ends)
