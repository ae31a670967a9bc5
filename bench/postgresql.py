#!/usr/bin/env python3
"""Prints what a year of deliveries costs in PostgreSQL: the example of 788 products, the
mornings of 2008 in a table, and a query that makes the delivery of each, with 0, 1 and 2
workers beside the process that asks. The rows a second are those of the clock, which on a
machine with other work say what share of it the processes got; the processor's own seconds
of the query without workers are printed beside them. The mornings are taken in two ways: each opened
afresh on its date, and each with all notices from the first of them on. A benchmark, not
a test: nothing here passes or fails.

  python3 -m bench.postgresql [ARCHIVE]     ARCHIVE is one that bindings/install has made

It needs what tests/gate/postgresql.py needs, and starts a server of its own as that does.
"""
import os
import re
import sys

from tests.gate import postgresql
from tests.second import dates
from tests.second.terms import day_text

RUNS = 3
WORKERS = (0, 1, 2)
QUERY = """SELECT count(*), min(last_trading_day), max(number)
  FROM {mornings}, scullpouch_delivery((SELECT file FROM master WHERE name = 'example'), lines)"""

# Few mornings on a page, since a parallel scan hands out pages.
TABLE = """CREATE TABLE {name} (morning date PRIMARY KEY, lines text NOT NULL)
  WITH (fillfactor = 10, parallel_workers = 2);
"""


# The Mondays to Fridays of 2008 from 2 January on.
def mornings():
    return [day for day in range(dates.day_of(2008, 1, 2), dates.day_of(2009, 1, 1)) if dates.is_weekday(day)]


# The notices of a morning: opened on it, or with every morning since the first.
def afresh(days, place):
    return f'O {day_text(days[place])}\n'


def replayed(days, place):
    return f'O {day_text(days[0])}\n' + ''.join(f'R {day_text(day)}\n' for day in days[1:place + 1])


def table(name, lines_of):
    days = mornings()
    rows = ', '.join(f"('{day_text(day)}', '{lines_of(days, place)}')" for place, day in enumerate(days))
    return TABLE.format(name=name) + f'INSERT INTO {name} VALUES {rows};\nANALYZE {name};\n'


# The milliseconds of the best run, the rows, and the answer.
def measured(server, name, workers):
    query = QUERY.format(mornings=name)
    script = f'SET max_parallel_workers_per_gather = {workers};\n\\timing on\n' + f'{query};\n' * RUNS
    said = server.psql(script)
    times = [float(found) for found in re.findall(r'^Time: ([0-9.]+) ms', said, re.M)]
    answers = set(re.findall(r'^\d+\|.*$', said, re.M))
    assert len(times) == RUNS and len(answers) == 1, said
    [answer] = answers
    return min(times), int(answer.split('|')[0]), answer


# The processor's seconds of the query without workers, by the server's own count.
def processor_seconds(server, name):
    settings = 'SET max_parallel_workers_per_gather = 0;\nSET client_min_messages = log;\nSET log_statement_stats = on;\n'
    said = server.psql(f'{settings}{QUERY.format(mornings=name)};\n')
    *_, (user, system) = re.findall(r'^!\t([0-9.]+) s user, ([0-9.]+) s system', said, re.M)
    return float(user) + float(system)


def report(server, name, title):
    print(f'\n{title}\n\n| workers | rows | seconds | rows a second |\n|---|---|---|---|')
    answers = set()
    for workers in WORKERS:
        best, rows, answer = measured(server, name, workers)
        answers.add(answer)
        print(f'| {workers} | {rows:,} | {best / 1000:.2f} | {1000 * rows / best:,.0f} |', flush=True)
    assert len(answers) == 1, answers
    seconds = processor_seconds(server, name)
    print(f"\nwithout workers {seconds:.2f} seconds of a processor, {rows / seconds:,.0f} rows in each")


# What one call costs, in microseconds, the best of some runs.
def single_calls(server):
    others = {'scullpouch_load': '', 'scullpouch_products': '', 'scullpouch_listing': ", 'AXA', '2008-03-20'",
              'scullpouch_delivery': ", 'O 2008-03-20'", 'scullpouch_rejects': ", 'O 2008-03-20'",
              'scullpouch_due': ", 'O 2008-03-20', 'AXA', '2008-03-20'",
              'scullpouch_cash': ", 'O 2008-03-20', 'AXAF', 3, 12.34, 12.5"}
    print('\n| a call, 788 products | µs |\n|---|---|')
    for name, words in others.items():
        many = 5 if name in ('scullpouch_products', 'scullpouch_delivery', 'scullpouch_rejects') else 500
        # the file seems to depend on n, so that every n has its call
        query = f"""SELECT count(*)
            FROM generate_series(1, {many}) AS n, (SELECT file FROM master WHERE name = 'example') AS m,
            {name}(CASE WHEN n > 0 THEN file END{words}) AS c;\n"""
        said = server.psql('SET max_parallel_workers_per_gather = 0;\n\\timing on\n' + query * RUNS)
        best = min(float(found) for found in re.findall(r'^Time: ([0-9.]+) ms', said, re.M))
        print(f'| `{name}` | {1000 * best / many:,.0f} |', flush=True)


def machine():
    with open('/proc/cpuinfo') as lines:
        model = next((line.split(':')[1].strip() for line in lines if line.startswith('model name')), 'unknown')
    return f'{model}, {os.cpu_count()} processors, load {os.getloadavg()[0]:.1f} at the start'


def main():
    left_out = postgresql.missing()
    if left_out:
        sys.exit(f'bench: {left_out}')
    postgresql.ARCHIVE = sys.argv[1] if len(sys.argv) > 1 else None
    print(machine())
    server = postgresql.Server()
    try:
        server.install()
        server.start()
        said = server.psql(postgresql.setup() + table('afresh', afresh) + table('replayed', replayed))
        assert said == '', said
        print(server.psql('SELECT version();'), end='')
        single_calls(server)
        query = QUERY.format(mornings='afresh')
        print(server.psql(f'SET max_parallel_workers_per_gather = 2;\nEXPLAIN (COSTS OFF) {query};'))
        report(server, 'afresh', 'Each morning opened afresh on its date')
        report(server, 'replayed', 'Each morning with all notices since 2 January')
    finally:
        server.stop()


if __name__ == '__main__':
    main()
