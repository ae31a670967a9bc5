"""The program `deliver`: the rows of all tables after the notices.

Standard output, in the file's order, maturities rising, under a heading that is always
there. Standard error: refused calls by product, of each by line, a refused opening by the
line of the `O` and nothing else of that product; then the measures of unknown ids by line.

python3 -m tests.second.deliver reads master.bin and notices.txt in the current folder.
"""

from tests.second import programs, replay, table, terms, words
from tests.second.product import Product
from tests.second.replay import Morning, Standing

HEADING = b'product,number,maturity,last_trading_day,days_back\n'
UNKNOWN = 9


# A row: "`maturity` is the month, of a weekly option the Friday".
def row(item: Product, maturity: table.Place) -> bytes:
    key, day, back, number = maturity
    return b'%s,%d,%s,%s,%d\n' % (words.id_word(item.id), number, terms.key_text(item.kind, key).encode(),
                                  terms.day_text(day).encode(), back)


# The rows of a product; none without a table.
def rows(standing: Standing) -> list[bytes]:
    held = standing.held
    return [] if held is None else [row(held.product, maturity) for maturity in table.maturities(held)]


# What is told of a product.
def told(morning: Morning, standing: Standing) -> list[bytes]:
    calls = [replay.refusal_line(place, number, standing.item.id) for place, number in standing.refused]
    return [replay.opening_refusal(morning, standing), *calls]


# Both outputs.
def deliver(file: bytes, notices: bytes) -> tuple[bytes, bytes]:
    refused, morning = replay.begin(file, notices)
    if morning is None:
        return b'', refused
    printed = [line for standing in morning.products for line in rows(standing)]
    errors = [line for standing in morning.products for line in told(morning, standing)]
    errors += [replay.refusal_line(place, UNKNOWN, code) for place, code in morning.unknown]
    return HEADING + b''.join(printed), b''.join(errors)


if __name__ == '__main__':
    programs.run('deliver', lambda file, notices, _: deliver(file, notices), takes_input=False)
