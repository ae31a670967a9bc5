"""The morning of examples/morning: what the second program makes of its master file's
text, its notices and its questions.

  python3 -m tests.inputs.deliveries --write examples/morning    writes the other files
  python3 -m tests.inputs.deliveries --check examples/morning    are the stored ones these?
"""

import sys
from pathlib import Path

from tests.inputs import stored
from tests.second import lists
from tests.second.deliver import deliver
from tests.second.query import query
from tests.second.reconcile import reconcile

# The files that are written by hand.
BY_HAND = ('README.md', 'run', 'master.txt', 'notices.txt', 'questions.txt')

# The three faults of the wrong delivery: a row, and what stands in its place.
FAULTS = (
    (b'ABBN,2,2008-04,2008-04-17,1\n', b'ABBN,2,2008-04,2008-04-18,0\n'),
    (b'AXAW,6,2008-05-09,2008-05-09,0\n', b''),
    (b'TOT5,8,2009-03,2009-03-20,0\n', b'TOT5,1,2009-03,2009-03-20,0\n'),
)


# The wrong delivery.
def wrong(delivery):
    for row, other in FAULTS:
        if delivery.count(row) != 1:
            raise SystemExit(f'deliveries: {row!r} is not in the delivery')
        delivery = delivery.replace(row, other)
    return delivery


# The files that are made of a folder's master file text, notices and questions.
def made(text, notices, questions):
    file, said = lists.compose(text)
    if said:
        raise SystemExit(f'deliveries: master.txt: {said.decode()}')
    delivery, refused = deliver(file, notices)
    differences, summary = reconcile(file, notices, wrong(delivery))
    answers, _ = query(file, notices, questions)
    return {'master.bin': file, 'delivery.csv': delivery, 'refused.txt': refused, 'wrong.csv': wrong(delivery),
            'differences.csv': differences, 'summary.txt': summary, 'answers.txt': answers}


# All files of a folder, those by hand as they are.
def files_of(path):
    by_hand = {name: (path / name).read_bytes() for name in BY_HAND}
    return {**by_hand, **made(*(by_hand[name] for name in ('master.txt', 'notices.txt', 'questions.txt')))}


if __name__ == '__main__':
    sys.exit(stored.command('tests/inputs/deliveries.py', sys.argv[1:], lambda: files_of(Path(sys.argv[2]))))
