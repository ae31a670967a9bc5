"""The products of the inputs: the one maker of a product, and the one list of those that
stand for all kinds, groups, markets, ticks and currencies. Which currencies, ticks and
groups there are is second/product.py's."""

from tests.second.product import SHARE, Product

# Countries of groups (01, Due day): those that it names, and one that it does not.
COUNTRIES = (b'DE', b'FI', b'FR', b'GB', b'IE', b'IT', b'US')

# 01's example, a future and a weekly option on the same share, and a future of 2005, as
# lines of a text.
AXA_LINE = b'P AXA FR11 XPAR 1 100 100 EUR'
AXAF_LINE = b'P AXAF FR01 XPAR 0 100 100 EUR'
AXAW_LINE = b'P AXAW FR11 XPAR 5 100 100 EUR'
PENY_LINE = b'P PENY GB01 XLON 4 1 1 GBX'


# A product with this id, the other fields as in document 01's example.
def item(code, group=b'FR11', kind=1, size=100 * SHARE, tick=100, market=b'XPAR', currency=b'EUR'):
    return Product(code.ljust(4), group, market, kind, size, tick, currency)


# A product from a line: id, group, market, kind, size in whole shares, tick, currency.
def product_from(line):
    code, group, market, kind, size, tick, currency = line.encode('ascii').split()
    return Product(code.ljust(4), group, market, int(kind), SHARE * int(size), int(tick), currency)


AXA = item(b'AXA')

# A product of every kind; an Italian option among them.
EVERY_KIND = [item(b'A0', b'FR01', 0), item(b'A1', b'FR11', 1), item(b'A1IT', b'IT11', 1), item(b'A2', b'FR11', 2),
              item(b'A3', b'DE11', 3), item(b'A4', b'FR01', 4), item(b'A5', b'FR11', 5)]

# All kinds, Italian groups and others, every count of days to settlement.
PRODUCTS = tuple(product_from(line) for line in (
    '1 CH01 XSWX 0 10 1 CHF',
    'ABB SE11 XSTO 1 100 5 EUR',
    'AXA FR11 XPAR 1 100 100 EUR',
    'AXAF FR01 XPAR 0 100 100 EUR',
    'BAY DE12 XETR 2 100 10 EUR',
    'BP GB11 XLON 1 1000 5 GBX',
    'CRH IE11 XDUB 2 65535 1 EUR',
    'DAI DE11 XETR 3 100 1 EUR',
    'ENEL IT11 XMIL 3 500 5 EUR',
    'ENI IT11 XMIL 1 500 1 EUR',
    'FIAT IT01 XMIL 0 500 1 EUR',
    'MSFT US01 XNAS 0 100 10 USD',
    'NOK1 FI14 XHEL 3 1 5 EUR',
    'TIT IT11 XMIL 2 1000 10 EUR',
    'VOD GB01 XLON 0 65535 100 GBP',
))


# 02, note 1: "kind 4, a future of 2005", with an Italian group and with others.
FUTURES_2005 = tuple(product_from(line) for line in (
    'AXA5 FR01 XPAR 4 100 100 EUR',
    'FIA5 IT01 XMIL 4 500 1 EUR',
    'IT05 IT02 XMIL 4 1 5 EUR',
    'VOD5 GB09 XLON 4 65535 10 GBX',
))


# 02, note 3: "under kind 5 and the option groups", with an Italian group and with
# others, every count of days to settlement.
WEEKLY = tuple(product_from(line) for line in (
    'AXAW FR11 XPAR 5 100 100 EUR',
    'BAYW DE13 XETR 5 10 10 EUR',
    'BPW GB11 XLON 5 1000 5 GBX',
    'ENIW IT11 XMIL 5 500 1 EUR',
    'ITW IT19 XMIL 5 65535 1 EUR',
))


# The products with these ids, by rising id.
def products_of(*names):
    return [item for item in PRODUCTS if item.id.rstrip().decode() in names]


# Products by rising id.
def by_id(*items):
    return sorted(items, key=lambda item: item.id)
