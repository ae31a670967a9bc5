"""The status with which an installed program ends: '0 all well; 1 something was refused,
bad or differs; 2 input or output failed, or wrong arguments'. Both texts of a run say it."""

import re

REFUSED_ANSWER = re.compile(rb'(?:.* )?NO \d+|BAD(?: \d+)?')
ALL_WELL = re.compile(rb'\d+ products, \d+ rows, 0 differ, 0 bad\n')


# Whether a line of some text is an answer that refuses, or says that its line is bad.
def refuses(printed: bytes) -> bool:
    return any(REFUSED_ANSWER.fullmatch(line) for line in printed.split(b'\n'))


# Of a run that read its input to its end and wrote all: whether something was refused, bad or differs.
def refused(name: str, printed: bytes, told: bytes) -> bool:
    if name in ('compose', 'deliver'):
        return told != b''
    if name == 'confirm':
        return printed != b'YES\n'
    if name == 'reconcile':
        return not ALL_WELL.fullmatch(told)
    if name == 'query' and told:
        return True
    return refuses(printed)


# A call of the system that failed is told in a line that begins with the program's name.
def status(name: str, printed: bytes, told: bytes) -> int:
    if told.startswith(name.encode() + b': ') or f'\n{name}: '.encode() in told:
        return 2
    return 1 if refused(name, printed, told) else 0
