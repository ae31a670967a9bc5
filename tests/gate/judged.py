"""Holds the status of an installed program to what it printed and told:
python3 -m tests.gate.judged NAME STATUS PRINTED TOLD

PRINTED and TOLD are files. Ends with 0 where the status is the second program's, else with 9, and a line says which
was wanted; so a comparison of programs without a status can be made with one that has one (tests/gate/installed.py).
"""

import sys

from tests.second.status import status


def main(name, ended, printed, told):
    with open(printed, 'rb') as out, open(told, 'rb') as errors:
        wanted = status(name, out.read(), errors.read())
    if int(ended) != wanted:
        print(f'{name}: the status is {ended}, and not {wanted}', file=sys.stderr)
        return 9
    return 0


if __name__ == '__main__':
    sys.exit(main(*sys.argv[1:]))
