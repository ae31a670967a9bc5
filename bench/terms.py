"""Prints what a command of the program terms costs, and one of the second program, in
one run and on the same inputs: microseconds, and, where valgrind is installed, the
instructions of terms, which do not vary with the machine's pace. A benchmark, not a
test: nothing here passes or fails.

  bench/run              all of it
  bench/run PART..       these parts alone:
    streams              the streams of bench/streams.py; the table of docs/PERFORMANCE.md
    years                opens, rolls and closes with 1 to 16 years
    records              the same with 1 to 1,680 records
    commands             futures with 3 and 16 years; judging the largest file; lines
                         that are no commands
    memory               the most that each program holds
    languages            a roll through C, through Python and, where there is cargo,
                         through Rust, where there is a C compiler (cc)

Run `tools/built terms compose` first, which builds target/bin/terms and
target/bin/compose. compose makes one of the files, from the text that
bench/streams.py writes.
"""
import os
import re
import shutil
import subprocess
import sys
import tempfile
import time
from typing import NamedTuple

from bench.streams import file_of, made_up_streams, made_up_text, streams
from tests import ROOT, command
from tests.gate.bindings import Built
from tests.inputs import cases
from tests.second import dates, master, trading
from tests.second.terms import day_text

TERMS = os.path.join(ROOT, 'target/bin/terms')
COMPOSE = os.path.join(ROOT, 'target/bin/compose')
SECOND = command('second.terms')
PROGRAMS = ((TERMS,), SECOND)
RUNS = {(TERMS,): 7, SECOND: 5}
CALLS = {(TERMS,): 10_000, SECOND: 1000}
REPEATS = {(TERMS,): 20, SECOND: 1}  # of a stream
COUNTED = 50  # commands of which the instructions are counted
TARGET = 50
ROLLS = 500
CLOSES = 50  # after one open: more than five years of an exchange's holidays


# ---- Files ----

# The first trading day of a file's cover.
def first_date(file):
    calendar = master.contents(file)[0]
    day = trading.first_day(calendar)
    while not trading.is_trading_day(calendar, day):
        day += 1
    return day


# The file that compose makes of the text with a seed.
def made_up_file():
    made = subprocess.run(COMPOSE, input=made_up_text(), capture_output=True, check=True)
    if made.stderr:
        raise SystemExit(f'bench: compose said {made.stderr.decode()!r}')
    return made.stdout


# The Wednesdays of a file's cover that are trading days, the first weeks left out.
# A week with one of them closed still has a trading day.
def wednesdays(file):
    calendar = master.contents(file)[0]
    return [day for day in range(trading.first_day(calendar) + 14, trading.last_day(calendar) + 1)
            if dates.weekday(day) == 2 and trading.is_trading_day(calendar, day)]


# ---- Commands ----

def open_line(code, day):
    return f'O {code} {day_text(day)}\n'.encode()


# Opens of a product on the file's first trading day.
def opens(file, code, count):
    return open_line(code, first_date(file)) * count


# An open, then rolls to the same date: "a later or equal one".
def rolls(file, code, count):
    return opens(file, code, 1) + f'R {day_text(first_date(file))}\n'.encode() * count


# Opens with closures of Wednesdays after each, the first ones of the cover: the
# commands, and the counts of opens and of closes.
def closes(file, code, at_least, most):
    days = wednesdays(file)[:most]
    rounds = -(-at_least // len(days))
    once = opens(file, code, 1) + b''.join(f'C {day_text(day)}\n'.encode() for day in days)
    return once * rounds, rounds, rounds * len(days)


# ---- Runs ----

# A run of a program in a folder: seconds, and what it printed.
def run_once(program, folder):
    with open(os.path.join(folder, 'input')) as source, open(os.path.join(folder, 'printed'), 'w+b') as out:
        start = time.perf_counter()
        subprocess.run(program, cwd=folder, stdin=source, stdout=out, check=True)
        took = time.perf_counter() - start
        out.seek(0)
        return took, out.read()


# A folder with a master file and commands.
def laid_out(file, commands):
    folder = tempfile.TemporaryDirectory(prefix='bench-')
    for name, data in (('master.bin', file), ('input', commands)):
        with open(os.path.join(folder.name, name), 'wb') as out:
            out.write(data)
    return folder


# The best seconds of some runs on a file and commands; the answers that begin with
# a word must be as many as are expected.
def seconds(program, file, commands, word, expected):
    with laid_out(file, commands) as folder:
        ran = [run_once(program, folder) for _ in range(RUNS[program])]
    found = sum(line.startswith(word) for line in ran[0][1].split(b'\n'))
    if found != expected:
        raise SystemExit(f'bench: {found} answers {word.decode()!r} instead of {expected}')
    return min(took for took, _ in ran)


# Commands and how many of them are asked about, those that are taken off, with
# starting and reading the file, and the word that the answers begin with.
class Measured(NamedTuple):
    commands: bytes
    count: int
    others: bytes
    opened: int
    word: bytes


def measured_opens(file, code, count):
    return Measured(opens(file, code, count + 1), count, opens(file, code, 1), 1, b'O ')


def measured_rolls(file, code, count):
    return Measured(rolls(file, code, count), count, opens(file, code, 1), 1, b'R ')


def measured_closes(file, code, count, most=CLOSES):
    commands, rounds, closed = closes(file, code, count, most)
    return Measured(commands, closed, opens(file, code, rounds), rounds, b'C ')


KINDS = {'open': measured_opens, 'roll': measured_rolls, 'close': measured_closes}


# Microseconds for each command of a kind.
def cost(program, file, kind, code, *most):
    measured = KINDS[kind](file, code, CALLS[program] // 2 if kind == 'close' else CALLS[program], *most)
    expected = measured.count + (measured.opened if measured.word == b'O ' else 0)
    many = seconds(program, file, measured.commands, measured.word, expected)
    few = seconds(program, file, measured.others, b'O ', measured.opened)
    return (many - few) / measured.count * 1e6


# ---- Instructions ----

# What valgrind counts in a run of terms on a file and commands.
def instructions(file, commands):
    with laid_out(file, commands) as folder, open(os.path.join(folder, 'input')) as source:
        ran = subprocess.run(('valgrind', '--tool=callgrind', '--callgrind-out-file=/dev/null', TERMS),
                             cwd=folder, stdin=source, capture_output=True, check=True)
    return int(re.search(rb'Collected : (\d+)', ran.stderr).group(1))


# Thousands of instructions by which a run on a file and commands is longer than one
# on another, for each of so many commands; none where there is no valgrind.
def thousands(file, commands, other_file, others, count=1):
    if not shutil.which('valgrind'):
        return None
    return (instructions(file, commands) - instructions(other_file, others)) / count / 1000


# ---- Streams ----

# Microseconds for each command of a stream: what a run without commands takes is
# taken off. A stream begins with an open, so it can be repeated.
def stream_cost(program, file, lines):
    def best(commands):
        with laid_out(file, commands) as folder:
            return min(run_once(program, folder)[0] for _ in range(RUNS[program]))
    repeats = REPEATS[program]
    return (best(b''.join(lines) * repeats) - best(b'')) / repeats / len(lines) * 1e6


# ---- Memory ----

# The most memory that a process held so far, in KiB, as the kernel counts it.
def peak_of(pid):
    with open(f'/proc/{pid}/status') as status:
        return next(int(line.split()[1]) for line in status if line.startswith('VmHWM'))


# Whether a process waits, as for more input.
def waits(pid):
    with open(f'/proc/{pid}/stat') as stat:
        return stat.read().rsplit(')', 1)[1].split()[0] == 'S'


# The peak of terms: it gets the commands through a pipe that stays open, so that
# it can be looked at when it has answered them and waits for more.
def terms_peak(file, commands):
    with laid_out(file, commands) as folder, subprocess.Popen(
            TERMS, cwd=folder, stdin=subprocess.PIPE, stdout=subprocess.DEVNULL) as child:
        child.stdin.write(commands)
        child.stdin.flush()
        time.sleep(0.5)
        while not waits(child.pid):
            time.sleep(0.1)
        return peak_of(child.pid)


# The peak of the second program, which says it itself at its end.
PEAK = """
import sys
from tests.second import terms
terms.main()
with open('/proc/self/status') as status:
    print(next(line.split()[1] for line in status if line.startswith('VmHWM')), file=sys.stderr)
"""


def second_peak(file, commands):
    with laid_out(file, commands) as folder, open(os.path.join(folder, 'input')) as source:
        ran = subprocess.run((sys.executable, '-c', PEAK), cwd=folder, stdin=source,
                             env={**os.environ, 'PYTHONPATH': ROOT}, stdout=subprocess.DEVNULL, stderr=subprocess.PIPE, check=True)
        return int(ran.stderr)


# ---- What is printed ----

# A number with its unit. What is taken off varies from run to run, and where more
# was taken off than the commands took, they took too little to tell.
def shown(value, unit):
    if value is None:
        return ''
    return f'{value:12,.1f} {unit:4}' if value > 0 else f'{"too little":>12} {"":4}'


# A line: what was measured, a number of each program, and the thousands of
# instructions of terms.
def show(name, values, unit, counted=None):
    print(f'{name:64}' + ''.join(shown(value, unit) for value in values) + shown(counted, 'k'), flush=True)


# Years and records in words.
def span(years):
    return '1 year' if years == 1 else f'{years} years'


def size(records):
    return '1 record' if records == 1 else f'{records:,} records'


# A cost of each program.
def costs(measure, *arguments):
    return [measure(program, *arguments) for program in PROGRAMS]


# A line of a command: microseconds of both programs and instructions of terms.
def show_command(name, kind, file, code, *most):
    values = costs(cost, file, kind, code, *most)
    few = KINDS[kind](file, code, COUNTED, *most)
    show(name, values, 'µs', thousands(file, few.commands, file, few.others, few.count))
    return values


# Reading and judging a file: a run with one open of an id that is not there, less
# one on a file of no bytes. Each program judges its file once in a run.
def show_judging(name, file):
    absent = open_line('0', first_date(file))
    values = [(seconds(program, file, absent, b'NO 9', 1) - seconds(program, b'', absent, b'NO 1', 1)) * 1e6
              for program in PROGRAMS]
    show(name, values, 'µs', thousands(file, absent, b'', absent))


# The commands on 3 and 16 years.
def show_commands():
    for years in (3, 16):
        file = file_of(years)
        show_command(f'open of a future, {span(years)}, 15 records', 'open', file, 'A13')
        roll = show_command(f'accepted roll of a future, {span(years)}', 'roll', file, 'A13')
        close = show_command(f'accepted close of a future, {span(years)}', 'close', file, 'A13')
        show_command(f'the same, until every Wednesday of {span(years)} is closed', 'close', file, 'A13', None)
    print(f'an accepted roll or close on 16 years is to take at most {TARGET} µs: '
          f'a roll takes {roll[0]:.1f} µs, a close {close[0]:.1f} µs')
    show_judging('reading and judging the largest file, 128 blocks', cases.largest())
    show('a million short lines that are no commands',
         costs(seconds, file_of(3), b'x\n' * 1_000_000, b'BAD', 1_000_000), 's')


# The growth with the cover's years, for an option with 12 months.
def show_years():
    for years in (1, 2, 4, 8, 16):
        for kind in KINDS:
            show_command(f'{kind} of an option, {span(years)}, 15 records', kind, file_of(years), 'A12')


# The growth with the file's records, for a future.
def show_records():
    for records in (1, 15, 120, 480, 1680):
        for kind in KINDS:
            show_command(f'{kind} of a future, 16 years, {size(records)}', kind, file_of(16, records), 'A13')


# Thousands of instructions a command that another program of the same behaviour
# takes, in Rust and without proofs, on streams of the same kinds with 20,000 lines
# each; and the same program where it judges its file once and does not ask question
# 10. It is not in this repository.
PEERS = {
    'opens, 3 years, 15 records': (13.4, 4.2),
    'many rolls, 3 years, 15 records': (6.8, 3.9),
    'closes, 3 years, 15 records': (7.0, 4.0),
    'opens, 16 years, 1,000 records': (305.6, 9.2),
    'many rolls, 16 years, 1,000 records': (12.6, 5.7),
    'closes, 16 years, 1,000 records': (12.0, 5.4),
}


# A row of the table of docs/PERFORMANCE.md: thousands of instructions, then microseconds.
def row(name, values, counted):
    peers = PEERS.get(name, ('', ''))
    return '| ' + ' | '.join(str(cell) for cell in (
        name, '' if counted is None else f'{counted:,.1f}', *peers, f'{values[0]:.1f}', f'{values[1]:,.0f}')) + ' |'


# The streams, with those of the made-up file: microseconds a command of each
# program, and thousands of instructions a command of terms; then the table of docs/PERFORMANCE.md.
def show_streams():
    rows = []
    for name, file, lines in (*streams(), *made_up_streams(made_up_file())):
        values = costs(stream_cost, file, lines)
        counted = thousands(file, b''.join(lines), file, b'', len(lines))
        show(f'a command of the stream of {name}', values, 'µs', counted)
        rows.append(row(name, values, counted))
    print('\n'.join(rows))


# The programs calls of the languages that there are tools for, by language.
def languages(built):
    rust = {'Rust': [built.rust('calls', release=True)['calls']]} if shutil.which('cargo') else {}
    return {'C': [built.c('calls', '-O2')], **rust, 'Python': [sys.executable, built.python('calls')]}


# The microseconds of an accepted roll through each language, printing left out.
def show_languages():
    if not shutil.which('cc'):
        print('bench: no C compiler (cc), so the rolls through C, Rust and Python are left out')
        return
    with Built() as built:
        built.install()
        programs = languages(built)
        print(f'{"":64}' + ''.join(f'{language:>12}{"":5}' for language in programs))
        for years in (3, 16):
            file = file_of(years)
            day = first_date(file)
            with laid_out(file, b'') as folder:
                lines = f'file master.bin\nopen A13 {day}\ntime {ROLLS} {day}\n'.encode()
                said = [subprocess.run(program, cwd=folder, input=lines, env=built.environment, check=True,
                                       stdout=subprocess.PIPE).stdout for program in programs.values()]
            show(f'accepted roll of a future, {span(years)}, through', [float(one.split()[-1]) for one in said], 'µs')


def show_memory():
    file = cases.largest()
    day = first_date(file)
    code = next(item.id for item in master.contents(file)[1].values() if item.kind == 0).decode().rstrip()
    commands = open_line(code, day) + f'R {day_text(day)}\n'.encode() * 1000
    show('peak memory, largest file, an open and 1,000 rolls',
         [terms_peak(file, commands), second_peak(file, commands)], 'KiB')


PARTS = {
    'streams': show_streams,
    'years': show_years,
    'records': show_records,
    'commands': show_commands,
    'memory': show_memory,
    'languages': show_languages,
}


def main():
    chosen = sys.argv[1:] or list(PARTS)
    if not set(chosen) <= set(PARTS):
        print(f'usage: bench/run [PART..], the parts {" ".join(PARTS)}', file=sys.stderr)
        return 2
    for program in (TERMS, COMPOSE):
        if not os.path.exists(program):
            print(f'bench: no {os.path.relpath(program, ROOT)}; run `tools/built terms compose` first', file=sys.stderr)
            return 2
    print('Best of several runs; k are thousands of instructions of terms.')
    print(f'{"":64}{"terms":>12}{"second program":>19}')
    for part in chosen:
        PARTS[part]()
    return 0


if __name__ == '__main__':
    sys.exit(main())
