#!/usr/bin/env python3
"""Prints what deliver and reconcile cost on the example of 788 products with a year of
mornings, 261 rolls and eight closures: how long they take, how that grows with products
and notices, how much memory they hold and, where valgrind is installed, the instructions of
a product and notice, beside those of the same calls in terms. A benchmark, not a test:
nothing here passes or fails.

  python3 -m bench.delivery [FOLDER]        FOLDER holds the programs, target/bin else
  python3 -m bench.delivery --write FOLDER  writes master.bin, notices.txt, rows and input,
                                            which is the same for terms

Run `tools/built deliver reconcile terms` first.
"""
import os
import re
import shutil
import subprocess
import sys
import tempfile
import time

from tests import ROOT
from tests.inputs import cases
from tests.second import dates, master, words
from tests.second.deliver import deliver
from tests.second.notices import read
from tests.second.terms import day_text

RUNS = 5
FIRST = (2008, 1, 2)
ROLLS = 261
CLOSURES = 8
AHEAD = 14  # days from a closure's notice to the day
ROWS_AT_MOST = 65536
PIPE = 1 << 16
LIMIT = 8  # MB


# ---- Files, notices and rows ----

# The example with every n-th of its products.
def file_of(step=1):
    file = cases.example()
    return master.build(master.read_calendar(file), master.read_products(file)[::step])


def product_count(file):
    return len(master.read_products(file))


# The Mondays to Fridays after the opening, the first so many of them.
def mornings(count):
    first = dates.day_of(*FIRST)
    return [day for day in range(first + 1, first + 2 * count + 7) if dates.is_weekday(day)][:count]


# The days on which a closure is announced: Wednesdays, evenly over the mornings.
def announced(days):
    wednesdays = [day for day in days if dates.weekday(day) == 2]
    return set(wednesdays[::max(1, len(wednesdays) // CLOSURES)][:CLOSURES])


# The calls of so many mornings, by letter and day: the opening, and after the roll to such a
# Wednesday a closure of the one two weeks later.
def calls(count):
    days = mornings(count)
    closing = announced(days)
    after = [call for day in days for call in ([('R', day), ('C', day + AHEAD)] if day in closing else [('R', day)])]
    return [('O', dates.day_of(*FIRST)), *after]


# The notices of so many mornings.
def notices_of(count):
    return b''.join(f'{letter} {day_text(day)}\n'.encode() for letter, day in calls(count))


# The same calls for terms, on one product after the other.
def commands(file, count, opens_only=False):
    (_, date), *others = calls(count)
    after = b'' if opens_only else b''.join(f'{letter} {day_text(day)}\n'.encode() for letter, day in others)
    return b''.join(b'O %s %s\n' % (words.id_word(item.id), day_text(date).encode()) + after
                    for item in master.read_products(file))


# Rows that all differ, as many as there may be: those of a delivery with other days, and
# months that are not listed.
def wrong_rows(delivery):
    rows = [line.split(b',') for line in delivery.splitlines()[1:]]
    other = [b'%s,%s,2099-12-31\n' % (row[0], row[2]) for row in rows]
    codes = sorted({row[0] for row in rows})
    more = (b'%s,%04d-%02d,2099-12-31\n' % (code, 2050 + year, month) for year in range(50) for month in range(1, 13)
            for code in codes)
    while len(other) < ROWS_AT_MOST:
        other.append(next(more))
    return b''.join(other)


# ---- Runs ----

# A folder with a file, notices and an input.
def laid_out(file, notices, data=b''):
    folder = tempfile.TemporaryDirectory(prefix='bench-')
    for name, content in (('master.bin', file), ('notices.txt', notices), ('input', data)):
        with open(os.path.join(folder.name, name), 'wb') as out:
            out.write(content)
    return folder


# A run of a program in a folder: seconds, both outputs.
def run_once(program, folder):
    with open(os.path.join(folder, 'input')) as source, open(os.path.join(folder, 'printed'), 'w+b') as out:
        start = time.perf_counter()
        ran = subprocess.run(program, cwd=folder, stdin=source, stdout=out, stderr=subprocess.PIPE, check=True)
        took = time.perf_counter() - start
        out.seek(0)
        return took, out.read(), ran.stderr


# The best milliseconds of some runs.
def milliseconds(program, file, notices, data=b'', runs=RUNS):
    with laid_out(file, notices, data) as folder:
        return min(run_once(program, folder)[0] for _ in range(runs)) * 1000


# What valgrind counts in a run.
def instructions(program, file, notices, data=b''):
    with laid_out(file, notices, data) as folder, open(os.path.join(folder, 'input')) as source:
        ran = subprocess.run(('valgrind', '--tool=callgrind', '--callgrind-out-file=/dev/null', program),
                             cwd=folder, stdin=source, capture_output=True, check=True)
    return int(re.search(rb'Collected : (\d+)', ran.stderr).group(1))


# The most memory that a process held so far, in KiB, as the kernel counts it; and whether it
# waits, as for the pipe.
def peak_of(pid):
    with open(f'/proc/{pid}/status') as status:
        return next(int(line.split()[1]) for line in status if line.startswith('VmHWM'))


def waits(pid):
    with open(f'/proc/{pid}/stat') as stat:
        return stat.read().rsplit(')', 1)[1].split()[0] == 'S'


# The peak of a program in KiB, when it waits to write the last of its output; the pipe does
# not take that before it is read. None where the output is too short to wait.
def peak(program, file, notices, data=b''):
    with laid_out(file, notices, data) as folder:
        left = len(run_once(program, folder)[1]) - PIPE - 4096
        if left <= 0:
            return None
        with open(os.path.join(folder, 'input')) as source, subprocess.Popen(
                program, cwd=folder, stdin=source, stdout=subprocess.PIPE, stderr=subprocess.DEVNULL) as child:
            while left > 0:
                left -= len(os.read(child.stdout.fileno(), min(left, PIPE)))
            while not waits(child.pid):
                time.sleep(0.01)
            found = peak_of(child.pid)
            child.stdout.read()
    return found


# ---- What is printed ----

def show(name, value, unit):
    print(f'{name:76}{value:>14} {unit}', flush=True)


# The delivery is the second program's, and a reconciliation of it finds nothing: what is
# measured is the right work.
def check(programs, file, notices, delivery):
    with laid_out(file, notices, delivery) as folder:
        _, printed, errors = run_once(programs['deliver'], folder)
        if (printed, errors) != (delivery, b''):
            raise SystemExit('bench: deliver does not print what the second program does')
        said = run_once(programs['reconcile'], folder)[2]
        if said != b'%d products, %d rows, 0 differ, 0 bad\n' % (product_count(file), delivery.count(b'\n') - 1):
            raise SystemExit(f'bench: reconcile says {said.decode()!r}')


# The times of more and more products and notices, and of one product and notice.
def show_growth(program):
    for step, count in ((8, ROLLS), (4, ROLLS), (2, ROLLS), (1, ROLLS // 4), (1, ROLLS // 2), (1, ROLLS)):
        file, notices = file_of(step), notices_of(count)
        products, lines = product_count(file), len(calls(count))
        took = milliseconds(program, file, notices)
        show(f'deliver, {products} products, {lines} notices', f'{took:,.1f}', 'ms')
        show('    of a product and notice', f'{took * 1000 / products / lines:.3f}', 'µs')


def show_reconcile(program, file, notices, delivery):
    wrong = wrong_rows(delivery)
    for name, data in (('its delivery', delivery), ('no row', b''), (f'{ROWS_AT_MOST:,} rows that differ', wrong)):
        show(f'reconcile of {name}', f'{milliseconds(program, file, notices, data):,.1f}', 'ms')


# The instructions of a product and notice of deliver, all in all, and of the same calls in
# terms, without its opens, which judge the file each.
def show_instructions(programs):
    if not shutil.which('valgrind'):
        print('bench: no valgrind, so the instructions are left out')
        return
    for step in (16, 1):
        file, notices = file_of(step), notices_of(ROLLS)
        each = product_count(file) * len(calls(ROLLS))
        show(f'deliver, {product_count(file)} products, {len(calls(ROLLS))} notices, of a product and notice',
             f'{instructions(programs["deliver"], file, notices) / each:,.0f}', 'instructions')
    file = file_of(16)
    each = product_count(file) * (len(calls(ROLLS)) - 1)
    if os.path.exists(programs['terms']):
        rolled = instructions(programs['terms'], file, b'', commands(file, ROLLS))
        opened = instructions(programs['terms'], file, b'', commands(file, ROLLS, opens_only=True))
        show(f'the same rolls and closures in terms, {product_count(file)} products, of a command',
             f'{(rolled - opened) / each:,.0f}', 'instructions')


def show_memory(programs, file, notices, delivery):
    for name, data in (('deliver', b''), ('reconcile', wrong_rows(delivery))):
        found = peak(programs[name], file, notices, data)
        show(f'peak memory of {name}, to be under {LIMIT} MB', 'not told' if found is None else f'{found:,}', 'KiB')


# The files of the benchmark.
def write(folder):
    file, notices = file_of(), notices_of(ROLLS)
    os.makedirs(folder, exist_ok=True)
    for name, data in (('master.bin', file), ('notices.txt', notices), ('rows', deliver(file, notices)[0]),
                       ('input', commands(file, ROLLS))):
        with open(os.path.join(folder, name), 'wb') as out:
            out.write(data)


def main(arguments):
    if arguments[:1] == ['--write']:
        write(arguments[1])
        return 0
    folder = os.path.abspath(arguments[0] if arguments else os.path.join(ROOT, 'target', 'bin'))
    programs = {name: os.path.join(folder, name) for name in ('deliver', 'reconcile', 'terms')}
    for name in ('deliver', 'reconcile'):
        if not os.path.exists(programs[name]):
            print(f'bench: no {programs[name]}; run `tools/built deliver reconcile terms` first', file=sys.stderr)
            return 2
    file, notices = file_of(), notices_of(ROLLS)
    assert read(notices)[0] == 0
    start = time.perf_counter()
    delivery = deliver(file, notices)[0]
    second = time.perf_counter() - start
    check(programs, file, notices, delivery)
    show_growth(programs['deliver'])
    show_reconcile(programs['reconcile'], file, notices, delivery)
    show('deliver of the second program, in its process', f'{second * 1000:,.0f}', 'ms')
    show_memory(programs, file, notices, delivery)
    show_instructions(programs)
    return 0


if __name__ == '__main__':
    sys.exit(main(sys.argv[1:]))
