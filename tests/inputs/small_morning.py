"""A small file and the rows that its four products have on the morning of 20 March 2008, worked
by hand."""

from tests.inputs.products import AXAF_LINE, AXAW_LINE, AXA_LINE, PENY_LINE
from tests.second import lists

MARK = b'\xef\xbb\xbf'
AXA, AXAF, AXAW, PENY = (line.decode() for line in (AXA_LINE, AXAF_LINE, AXAW_LINE, PENY_LINE))
OPEN = b'O 2008-03-20\n'


# The master file of a text, given by its lines.
def file_of(*lines):
    file, said = lists.compose('\n'.join(lines).encode())
    assert not said, said
    return file


# 01: "With 2008–2010, only 21 March 2008 closed, and AXA, FR11, XPAR, kind 1, 100, 100,
# EUR"; with a future and a weekly option beside it.
FILE = file_of('Y 2008 3', 'C 2008-03-21', AXA, AXAF, AXAW, PENY)
ONE = file_of('Y 2008 3', 'C 2008-03-21', AXA)
DELIVERY_HEADING = 'product,number,maturity,last_trading_day,days_back'
HEADING = 'product,maturity,why,delivered,right'

# 01: AXA on 20 March 2008, "Mar, Apr, May, Jun, Sep, Dec"; 02, note 2: "March 2008 in the
# example shows 1 for FR11".
AXA_ROWS = ['AXA,1,2008-03,2008-03-20,1', 'AXA,2,2008-04,2008-04-18,0', 'AXA,3,2008-05,2008-05-16,0',
            'AXA,4,2008-06,2008-06-20,0', 'AXA,5,2008-09,2008-09-19,0', 'AXA,6,2008-12,2008-12-19,0']

# Thirteen months from March 2008 on and two Decembers; the third Fridays.
AXAF_ROWS = ['AXAF,1,2008-03,2008-03-20,1', 'AXAF,2,2008-04,2008-04-18,0', 'AXAF,3,2008-05,2008-05-16,0',
             'AXAF,4,2008-06,2008-06-20,0', 'AXAF,5,2008-07,2008-07-18,0', 'AXAF,6,2008-08,2008-08-15,0',
             'AXAF,7,2008-09,2008-09-19,0', 'AXAF,8,2008-10,2008-10-17,0', 'AXAF,9,2008-11,2008-11-21,0',
             'AXAF,10,2008-12,2008-12-19,0', 'AXAF,11,2009-01,2009-01-16,0', 'AXAF,12,2009-02,2009-02-20,0',
             'AXAF,13,2009-03,2009-03-20,0', 'AXAF,14,2009-12,2009-12-18,0', 'AXAF,15,2010-12,2010-12-17,0']

# 02, note 3: the next four Fridays that are not the third of their month.
AXAW_ROWS = ['AXAW,1,2008-03-28,2008-03-28,0', 'AXAW,2,2008-04-04,2008-04-04,0', 'AXAW,3,2008-04-11,2008-04-11,0',
             'AXAW,4,2008-04-25,2008-04-25,0']

# 02, note 1: the next seven of March, April, May, June, July, September, December.
PENY_ROWS = ['PENY,1,2008-03,2008-03-20,1', 'PENY,2,2008-04,2008-04-18,0', 'PENY,3,2008-05,2008-05-16,0',
             'PENY,4,2008-06,2008-06-20,0', 'PENY,5,2008-07,2008-07-18,0', 'PENY,6,2008-09,2008-09-19,0',
             'PENY,7,2008-12,2008-12-19,0']
ALL_ROWS = AXA_ROWS + AXAF_ROWS + AXAW_ROWS + PENY_ROWS


# Lines as a text.
def text(*lines):
    return ''.join(line + '\n' for line in lines).encode()
