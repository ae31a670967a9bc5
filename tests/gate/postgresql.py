"""Tests of the calls in PostgreSQL: python3 -m tests.gate.postgresql

The extension of bindings/postgresql is built over the archive that bindings/install makes,
and installed beside a copy of the server's programs in a temporary folder: nothing of the
machine's own installation is written. A server runs there, on a unix socket alone, as a
user that is not root, and is stopped by its process id. The scripts of bindings/postgresql/sql
must print what is stored beside them in expected/; every row of all products of the
example, of histories with notices and of questions is compared with the second program;
modules with a wrong line must be found. Where the server, its headers or a tool is not
there, a line says what is left out.

--seed N repeats the histories of a run; without it they are others each time. --archive
FILE takes an archive that bindings/install has made, in place of running it.
"""

import argparse
import dataclasses
import glob
import os
import pwd
import random
import re
import shutil
import signal
import subprocess
import sys
import tempfile
import time
import unittest

from tests import ROOT
from tests.second import dates, deliver, lists, master, query, reconcile, replay, terms, words

SOURCE = os.path.join(ROOT, 'bindings', 'postgresql')
MORNING = os.path.join(ROOT, 'examples', 'morning')
EXAMPLE = os.path.join(ROOT, 'examples', 'master.bin')
SECONDS = 600
HISTORIES = 16
USER = 'scullpouch'


def read(*path):
    with open(os.path.join(*path), 'rb') as file:
        return file.read()


def run(*command, **ways):
    ran = subprocess.run(command, stdout=subprocess.PIPE, stderr=subprocess.STDOUT, timeout=SECONDS, **ways)
    if ran.returncode != 0:
        raise AssertionError(f'{command}: status {ran.returncode}\n{ran.stdout.decode(errors="replace")}')
    return ran.stdout.decode()


# ---- What is on the machine ----

# The pg_config of the newest server on the machine; '' where there is none.
def pg_config():
    found = sorted(glob.glob('/usr/lib/postgresql/*/bin/pg_config'), key=lambda path: int(path.split('/')[4]))
    return os.environ.get('PG_CONFIG') or (found[-1] if found else shutil.which('pg_config') or '')


def place(config, name):
    return run(config, f'--{name}').strip()


# What is missing for the tests; '' where nothing is.
def missing():
    config = pg_config()
    if not config or not shutil.which(config):
        return 'no PostgreSQL (pg_config)'
    if not os.path.exists(os.path.join(place(config, 'includedir-server'), 'postgres.h')):
        return 'no headers of the PostgreSQL server (postgresql-server-dev)'
    if not os.path.exists(os.path.join(place(config, 'bindir'), 'initdb')):
        return 'no PostgreSQL server (initdb)'
    tools = [tool for tool in ('cc', 'make', 'psql') if not shutil.which(tool)]
    return f'no {tools[0]}' if tools else ''


# ---- The server ----

# The user of the server, where the tests are run by root, for whom it does not start.
def other_user():
    if os.geteuid() != 0:
        return {}
    nobody = pwd.getpwnam('nobody')
    return {'user': nobody.pw_uid, 'group': nobody.pw_gid, 'extra_groups': []}


# Links to what a folder has and its copy has not.
def link_missing(folder, copy):
    os.makedirs(copy, exist_ok=True)
    for name in os.listdir(folder):
        if not os.path.lexists(os.path.join(copy, name)):
            os.symlink(os.path.join(folder, name), os.path.join(copy, name))


class Server:
    """A server with the extension, in a folder of its own."""

    def __init__(self):
        self.folder = tempfile.mkdtemp(prefix='postgresql-')
        os.chmod(self.folder, 0o755)
        self.config = pg_config()
        self.tree, self.prefix, self.socket = (os.path.join(self.folder, name) for name in ('tree', 'prefix', 's'))
        self.process = None

    # A folder of the machine's installation in the copy.
    def copied(self, name):
        return self.tree + place(self.config, name)

    @property
    def module(self):
        return os.path.join(self.copied('pkglibdir'), 'scullpouch.so')

    # Builds the extension from a folder: what make printed.
    def make(self, source, *words):
        return run('make', '-s', '-C', source, f'SCULLPOUCH={self.prefix}', f'PG_CONFIG={self.config}', *words)

    # The sources in a folder of their own.
    def sources(self):
        return shutil.copytree(SOURCE, os.path.join(self.folder, 'build'), ignore=shutil.ignore_patterns('*.o', '*.so'))

    # A module with one text of the sources replaced; only that file is compiled again.
    def wrong_module(self, name, changed, old, new):
        folder = shutil.copytree(os.path.join(self.folder, 'build'), os.path.join(self.folder, name))
        text = read(folder, changed).decode()
        assert text.count(old) == 1, (changed, old)
        with open(os.path.join(folder, changed), 'w') as out:
            out.write(text.replace(old, new))
        self.make(folder, 'scullpouch.so')
        return os.path.join(folder, 'scullpouch.so')

    # The header and the archive, as bindings/install puts them.
    def take_archive(self):
        if ARCHIVE is None:
            run(os.path.join(ROOT, 'bindings', 'install'), self.prefix)
            return
        for name, file in (('include', os.path.join(ROOT, 'bindings', 'include', 'scullpouch.h')), ('lib', ARCHIVE)):
            os.makedirs(os.path.join(self.prefix, name))
            shutil.copy(file, os.path.join(self.prefix, name))

    # The server finds its files by the place of its own program: that is copied, the others are links.
    def install(self):
        self.take_archive()
        said = self.make(self.sources(), 'install', f'DESTDIR={self.tree}')
        for name in ('pkglibdir', 'sharedir'):
            link_missing(place(self.config, name), self.copied(name))
        link_missing(os.path.join(place(self.config, 'sharedir'), 'extension'),
                     os.path.join(self.copied('sharedir'), 'extension'))
        os.makedirs(self.copied('bindir'), exist_ok=True)
        for program in ('initdb', 'postgres'):
            shutil.copy(os.path.join(place(self.config, 'bindir'), program), self.copied('bindir'))
        return said

    def program(self, name):
        return os.path.join(self.copied('bindir'), name)

    def start(self):
        data = os.path.join(self.folder, 'data')
        for folder in (data, self.socket):
            os.mkdir(folder, 0o700)
            if os.geteuid() == 0:
                os.chown(folder, other_user()['user'], other_user()['group'])
        run(self.program('initdb'), '-D', data, '-U', USER, '-A', 'trust', '-E', 'UTF8', '--locale=C', '--no-sync',
            cwd='/', **other_user())
        settings = {'listen_addresses': '', 'unix_socket_directories': self.socket, 'fsync': 'off', 'logging_collector': 'off'}
        with open(os.path.join(self.folder, 'log'), 'wb') as log:
            self.process = subprocess.Popen(
                [self.program('postgres'), '-D', data, *(f'--{name}={value}' for name, value in settings.items())],
                stdout=log, stderr=log, cwd='/', **other_user())
        for _ in range(600):
            if self.psql('SELECT 1;').strip() == '1':
                return
            time.sleep(0.1)
        raise AssertionError(read(self.folder, 'log').decode())

    def stop(self):
        if self.process:
            self.process.send_signal(signal.SIGINT)
            self.process.wait(60)
        shutil.rmtree(self.folder)

    # What psql prints of a script, errors among the rows.
    def psql(self, script, database='postgres', words=('-A', '-t'), **ways):
        command = ['psql', '-X', '-q', *words, '-h', self.socket, '-U', USER, '-d', database]
        ran = subprocess.run(command, input=script.encode(), stdout=subprocess.PIPE, stderr=subprocess.STDOUT,
                             timeout=SECONDS, env={**os.environ, 'PGOPTIONS': '', 'PGCLIENTENCODING': 'UTF8'}, **ways)
        return ran.stdout.decode()


SERVER = None
SEED = None
ARCHIVE = None
BUILD_SAID = ''


# A text as SQL writes it.
def quoted(text):
    return "'" + text.replace("'", "''") + "'"


def bytes_of(data):
    return f"'\\x{data.hex()}'"


# The tables of the scripts: the master files and the notices by name.
def setup():
    return f"""CREATE EXTENSION scullpouch;
CREATE TABLE master (name text PRIMARY KEY, file bytea NOT NULL);
CREATE TABLE notices (name text PRIMARY KEY, lines text NOT NULL);
INSERT INTO master VALUES ('morning', {bytes_of(read(MORNING, 'master.bin'))}), ('example', {bytes_of(read(EXAMPLE))});
INSERT INTO notices VALUES ('morning', {quoted(read(MORNING, 'notices.txt').decode())});
CREATE TABLE history (n int PRIMARY KEY, name text, lines text);
CREATE TABLE question (n int PRIMARY KEY, history int, what text, id text, a text, b text, c text);
"""


def setUpModule():
    global SERVER, BUILD_SAID
    SERVER = Server()
    try:
        BUILD_SAID = SERVER.install()
        SERVER.start()
        said = SERVER.psql(setup())
        if said:
            raise AssertionError(said)
    except BaseException:
        SERVER.stop()
        raise


def tearDownModule():
    SERVER.stop()


# ---- Histories and questions ----

# A line of a history; days ahead of today, most of them Fridays, which move last trading days.
def some_line(chance, today, closed, ids):
    ahead = today + chance.randrange(-2, 60)
    ahead -= (dates.weekday(ahead) - dates.weekday(dates.day_of(2008, 3, 21))) % 7 if chance.random() < 0.7 else 0
    kind = chance.choice('RRRRCCCEM#')
    if kind == 'M':
        price = f'{chance.randrange(0, 90)}.{chance.randrange(10000):04d}'
        return f'M {chance.choice([*ids, "ZZZZ"])} {chance.randrange(0, 6)} {chance.randrange(1, 4)} {price}'
    if kind == '#':
        return chance.choice(['', '# a notice'])
    if kind == 'C':
        closed.append(ahead)
    if kind == 'E' and closed:
        ahead = chance.choice(closed)
    return f'{kind} {terms.day_text(ahead)}'


# A text of notices; one in eight has a bad line.
def history(chance, ids, count):
    today = dates.day_of(2008, 1, 1) + chance.choice([chance.randrange(0, 10), chance.randrange(0, 1500)])
    text, closed = [f'O {terms.day_text(today)}'], []
    for _ in range(count):
        line = some_line(chance, today, closed, ids)
        if line.startswith('R'):
            today += chance.randrange(0, 25)
            line = f'R {terms.day_text(today - (chance.random() < 0.1))}'
        text.append(line)
    if chance.random() < 0.125:
        text[chance.randrange(len(text))] = chance.choice(['R 2008-02-30', 'X', 'O 2008-03-20', ' R 2008-03-20'])
    return '\n'.join(text) + '\n'


LARGE_HISTORY = """O 2008-03-17
R 2008-03-20
C 2008-04-18
M AXA 3 2 22.5000
M AXAF 3 2 22.5000
R 2008-03-25
E 2008-04-18
C 2008-05-16
C 2008-06-20
"""


# Histories of the morning's twelve products, and of all products of the example: each the file's name and the text.
def histories(chance):
    ids = [words.id_word(item.id).decode() for item in master.read_products(read(MORNING, 'master.bin'))]
    small = [('morning', history(chance, ids, chance.randrange(0, 45))) for _ in range(HISTORIES)]
    large = [('example', text) for text in ('O 2008-03-20\n', 'O 2009-12-01\n', LARGE_HISTORY)]
    return [('morning', read(MORNING, 'notices.txt').decode()), *large, *small]


def file_of(name):
    return read(EXAMPLE) if name == 'example' else read(MORNING, 'master.bin')


# The lines of both outputs of the second program; a bad line of the notices as the module tells it.
def second_delivery(name, text):
    rows, told = (part.decode().splitlines() for part in deliver.deliver(file_of(name), text.encode()))
    return rows[1:], told


# Questions to a history: their words, with answers as `query` has them.
def questions(chance, name, text, count):
    refused, morning = replay.begin(file_of(name), text.encode())
    if refused:
        return []
    chosen = morning.products if name == 'example' else chance.choices(morning.products, k=count)
    return [question for standing in chosen for question in asked_of(chance, standing)]


def price_text(chance):
    whole = chance.choice([0, 1, 35, 99999, 100000, chance.randrange(200)])
    return f'{whole}.{chance.choice([0, 1, 100, 9999, chance.randrange(100) * 100]):04d}'


# One question of each kind.
def asked_of(chance, standing):
    code = words.id_word(standing.item.id).decode()
    day = dates.day_of(2008, 1, 1) + chance.choice([chance.randrange(-3, 2200), 2190])
    held = standing.held
    keys = [] if held is None else [place[0] for place in held.places if place[3]]
    kind = standing.item.kind
    maturity = terms.key_text(kind, chance.choice(keys)) if keys and chance.random() < 0.7 else '2008-04'
    contracts = str(chance.choice([0, 1, 3, 100000, 100001]))
    return [('due', code, terms.day_text(day), '', ''), ('last', code, maturity, '', ''),
            ('tick', code, price_text(chance), '', ''), ('cash', code, contracts, price_text(chance), price_text(chance))]


# The answer as the second program's `query` gives it: the line without the question.
def second_answer(name, text, question):
    what, code, *others = question
    line = ' '.join([code, what, *filter(None, others)])
    said = query.query(file_of(name), text.encode(), line.encode())[0].decode().rstrip('\n')
    return said.removeprefix(line + ' ')


# What the module must say: query's words, days back left out. To a maturity in another form, for which query has BAD, the
# answer is that of the opening where it was refused, as to any other question, else that it is not listed (18).
def expected_answer(name, text, question):
    said = second_answer(name, text, question)
    if said.startswith('BAD'):
        size = second_answer(name, text, ('size', question[1]))
        return size if size.startswith('NO') else 'NO 18'
    return said.split()[0] if question[0] == 'last' and not said.startswith('NO') else said


ANSWERS = """SELECT n, CASE WHEN r <> 0 THEN 'NO ' || r ELSE CASE what
  WHEN 'due' THEN scullpouch_due(file, lines, id, a::date)::text
  WHEN 'last' THEN scullpouch_last_trading_day(file, lines, id, a)::text
  WHEN 'tick' THEN CASE WHEN scullpouch_tick(file, lines, id, a::numeric) THEN 'OK' END
  WHEN 'cash' THEN scullpouch_cash(file, lines, id, a::bigint, b::numeric, c::numeric)::text END END
FROM (SELECT q.*, h.lines, m.file, CASE what
        WHEN 'due' THEN scullpouch_due_refusal(file, lines, id, a::date)
        WHEN 'last' THEN scullpouch_last_trading_day_refusal(file, lines, id, a)
        WHEN 'tick' THEN scullpouch_tick_refusal(file, lines, id, a::numeric)
        WHEN 'cash' THEN scullpouch_cash_refusal(file, lines, id, a::bigint, b::numeric, c::numeric) END AS r
      FROM question q JOIN history h ON h.n = q.history JOIN master m USING (name)) AS asked ORDER BY n;
"""


# The histories and questions of this run, stored in the server: once.
class Asked:
    kept = None

    @classmethod
    def get(cls):
        if cls.kept is None:
            chance = random.Random(SEED)
            cls.kept = cls()
            cls.kept.histories = histories(chance)
            cls.kept.questions = [(n, question) for n, (name, text) in enumerate(cls.kept.histories) if n != 1
                                  for question in questions(chance, name, text, 8)]
            cls.kept.store()
        return cls.kept

    def store(self):
        rows = ', '.join(f'({n}, {quoted(name)}, {quoted(text)})' for n, (name, text) in enumerate(self.histories))
        asked = ', '.join(f'({k}, {n}, {", ".join(map(quoted, question))})' for k, (n, question) in enumerate(self.questions))
        said = SERVER.psql(f'INSERT INTO history VALUES {rows};\nINSERT INTO question VALUES {asked};\nANALYZE;')
        if said:
            raise AssertionError(said)


# ---- Comparisons: each answers '' or the first difference ----

def first_difference(what, found, expected):
    for number, (one, other) in enumerate(zip([*found, 'nothing'], [*expected, 'nothing'])):
        if one != other:
            return f'{what}, row {number}: the module says {one!r}, the second program {other!r}'
    return '' if len(found) == len(expected) else f'{what}: {len(found)} rows, {len(expected)} of the second program'


# The stored scripts.
def script_difference(name):
    found = SERVER.psql(read(SOURCE, 'sql', f'{name}.sql').decode()).splitlines()
    return first_difference(name, found, read(SOURCE, 'expected', f'{name}.out').decode().splitlines())


DELIVERY = """\\set VERBOSITY terse
SELECT concat_ws(',', d.product, number, maturity, last_trading_day, days_back)
  FROM history JOIN master USING (name), scullpouch_delivery(file, lines) WITH ORDINALITY AS d WHERE n = {n} ORDER BY ordinality;
"""
REJECTS = """\\set VERBOSITY terse
SELECT 'notices.txt:' || line || ': NO ' || refusal || ' ' || d.product
  FROM history JOIN master USING (name), scullpouch_rejects(file, lines) WITH ORDINALITY AS d WHERE n = {n} ORDER BY ordinality;
"""


# The rows and the refused calls of every history.
def history_difference():
    for n, (name, text) in enumerate(Asked.get().histories):
        rows, told = second_delivery(name, text)
        found, refused = (SERVER.psql(script.format(n=n)).splitlines() for script in (DELIVERY, REJECTS))
        if told and told[0].endswith('BAD'):
            bad = f"ERROR:  scullpouch: line {told[0].split(':')[1]} of the notices is bad"
            rows, told = [bad], [bad]
        difference = first_difference(f'delivery {n}', found, rows) or first_difference(f'rejects {n}', refused, told)
        if difference:
            return difference + f'\n{text}'
    return ''


def question_difference():
    asked = Asked.get()
    found = SERVER.psql(ANSWERS).splitlines()
    expected = [f'{k}|{expected_answer(*asked.histories[n], question)}' for k, (n, question) in enumerate(asked.questions)]
    difference = first_difference('questions', found, expected)
    number = re.search(r'row (\d+)', difference)
    return difference and f'{difference}: {asked.questions[int(number[1])] if number else ""}'


# The listing of every product of the example on a date, one call each.
def listing_difference():
    day = '2008-03-20'
    found = SERVER.psql(f"""SELECT concat_ws(',', l.product, number, maturity, last_trading_day, days_back) FROM master,
        scullpouch_products(file) WITH ORDINALITY AS p, scullpouch_listing(file, p.product, '{day}') WITH ORDINALITY AS l
        WHERE name = 'example' ORDER BY p.ordinality, l.ordinality;""").splitlines()
    return first_difference('listings', found, second_delivery('example', f'O {day}\n')[0])


# All fields of all products of the example, as the text of a master file has them.
def product_difference():
    found = SERVER.psql("""SELECT concat_ws(' ', 'P', product, product_group, market, kind,
        CASE WHEN size = trunc(size) THEN trunc(size) ELSE size END, (tick * 10000)::int, currency)
        FROM master, scullpouch_products(file) WHERE name = 'example';""").splitlines()
    text = lists.decompose(read(EXAMPLE)).decode().splitlines()
    return first_difference('products', found, [line for line in text if line.startswith('P ')])


COMPARISONS = (lambda: script_difference('morning'), lambda: script_difference('refusals'), lambda: script_difference('hostile'),
               lambda: script_difference('long'), history_difference, question_difference, listing_difference, product_difference)


class Same(unittest.TestCase):

    def test_build(self):
        self.assertEqual(BUILD_SAID, '', 'warnings')

    def test_comparisons(self):
        for comparison in COMPARISONS:
            with self.subTest(comparison=comparison.__name__):
                self.assertEqual(comparison(), '', f'--seed {SEED}')

    # A file that gets each refusal of 1 to 8, and some that are accepted.
    def test_files(self):
        for number, file in refused_files().items():
            self.assertEqual(master.file_refusal(file), number)
            said = SERVER.psql(f'SELECT scullpouch_load_refusal({bytes_of(file)});')
            self.assertEqual(said, f'{number}\n')

    # Every function is strict, immutable and parallel safe, and has a cost.
    def test_declarations(self):
        said = SERVER.psql("""SELECT proname FROM pg_proc p
            JOIN pg_depend d ON d.objid = p.oid JOIN pg_extension e ON e.oid = d.refobjid
            WHERE extname = 'scullpouch' AND NOT (proisstrict AND provolatile = 'i' AND proparallel = 's'
            AND (procost > 1 OR proname = 'scullpouch_interface') AND (NOT proretset OR prorows <> 1000));
            SELECT count(*) FROM pg_proc WHERE proname LIKE 'scullpouch\\_%';""")
        self.assertEqual(said, '20\n')


# A damaged file for each refusal.
def refused_files():
    def built(*damages):
        file = read(MORNING, 'master.bin')
        return master.build(master.read_calendar(file), master.read_products(file), damages=damages)

    return {0: built(), 1: built(('length', 3000)), 2: built(('check', 0, 1)), 3: built(('bytes', 0, 1, b'\x02')),
            4: built(('exchange', 0, 1)), 5: built(('bytes', 0, 200, b'\x01')), 6: idle_file(),
            7: built(('bytes', 6, 16 + 12, b'\x09')), 8: built(('bytes', 6, 16, b'ZZZZ'))}


# A file whose calendar closes a whole week.
def idle_file():
    file = read(MORNING, 'master.bin')
    calendar, monday = master.read_calendar(file), dates.day_of(2008, 6, 2)
    closed = calendar.closed | {monday + k for k in range(5)}
    return master.build(dataclasses.replace(calendar, closed=closed), master.read_products(file))


COUNTED = """SELECT count(*), sum(number), sum(last_trading_day - date '2000-01-01'), min(maturity)
  FROM mornings, scullpouch_delivery((SELECT file FROM master WHERE name = 'morning'), lines);"""


class Backend(unittest.TestCase):

    # A long delivery is cancelled, and the backend lives on.
    def test_cancel(self):
        said = SERVER.psql("""\\set VERBOSITY terse
            SELECT pg_backend_pid() AS before \\gset
            SET statement_timeout = 100;
            SELECT count(*) FROM master, scullpouch_delivery(file, E'O 2008-03-17\\n' || repeat(E'R 2008-03-18\\n', 5000))
              WHERE name = 'example';
            SET statement_timeout = 0;
            SELECT pg_backend_pid() = :before;""")
        self.assertEqual(said, 'ERROR:  canceling statement due to statement timeout\nt\n')

    # Texts with bytes of no encoding, and a database in which a question cannot be written.
    def test_encodings(self):
        for database, encoding in (('raw', 'SQL_ASCII'), ('latin', 'LATIN1')):
            SERVER.psql(f"CREATE DATABASE {database} ENCODING '{encoding}' TEMPLATE template0;")
            SERVER.psql('CREATE EXTENSION scullpouch;', database)
        file = bytes_of(read(MORNING, 'master.bin'))
        odd = "convert_from('\\xc3ff80', 'SQL_ASCII')"
        said = SERVER.psql(f"""SELECT pg_backend_pid() AS before \\gset
            SELECT scullpouch_listing_refusal({file}, {odd}, '2008-03-20'), scullpouch_bad_notice(E'O 2008-03-17\\n' || {odd}),
                   scullpouch_bad_notice(E'O 2008-03-17\\n# ' || {odd}),
                   scullpouch_last_trading_day_refusal({file}, 'O 2008-03-17', 'AXA', {odd});
            SELECT pg_backend_pid() = :before;""", 'raw')
        self.assertEqual(said, '9|2|0|18\nt\n')
        said = SERVER.psql("""\\set VERBOSITY terse
            SELECT pg_backend_pid() AS before \\gset
            SELECT count(scullpouch_question(n)) FROM generate_series(0, 31) n WHERE n <> 23;
            SELECT scullpouch_question(23);
            SELECT pg_backend_pid() = :before;""", 'latin')
        self.assertRegex(said, r'\A30\nERROR:  character with byte sequence .* has no equivalent in encoding "LATIN1"\nt\n\Z')

    # The same rows with workers and without, and a plan that has them.
    def test_parallel(self):
        said = SERVER.psql(f"""CREATE TABLE mornings AS SELECT 'O ' || day::date AS lines
              FROM generate_series(date '2008-03-03', '2008-03-14', '1 day') AS day;
            ALTER TABLE mornings SET (parallel_workers = 2);
            SET max_parallel_workers_per_gather = 2;
            EXPLAIN (ANALYZE, COSTS OFF, TIMING OFF, SUMMARY OFF) {COUNTED}
            {COUNTED}
            SET max_parallel_workers_per_gather = 0;
            {COUNTED}""").splitlines()
        self.assertTrue(any('Workers Launched: 2' in line for line in said), said)
        self.assertEqual(said[-1], said[-2])
        mornings = [f'O {terms.day_text(dates.day_of(2008, 3, 3) + k)}\n' for k in range(12)]
        rows = [row.split(',') for text in mornings for row in second_delivery('morning', text)[0]]
        days = sum(words.day_of(row[3].encode()) for row in rows)
        self.assertEqual(said[-1], f'{len(rows)}|{sum(int(row[1]) for row in rows)}|{days}|{min(row[2] for row in rows)}')


# ---- Wrong modules ----

# The file, the right text, the wrong one, and the comparison that finds it.
FAULTS = (
    ('arguments.c', 'day >= 0 && day <= LAST_DAY ? (uint16_t) day : UINT16_MAX', '(uint16_t) day',
     lambda: script_difference('hostile')),
    ('arguments.c', 'number >= 0 && number < (int64) UINT32_MAX ? (uint32_t) number : UINT32_MAX', '(uint32_t) number',
     lambda: script_difference('hostile')),
    ('rows.c', 'DateADTGetDatum(m->day)', 'DateADTGetDatum(m->day + m->back)', history_difference),
    ('calls.c', 'amount.negative ? "-" : ""', '""', question_difference),
    ('calls.c', 'for (uint32_t i = 0; i <= lists->said.count; i++)', 'for (uint32_t i = 1; i < lists->said.count; i++)',
     history_difference),
    ('mornings.c', 'at += SCULLPOUCH_BLOCK)', 'at += 2 * SCULLPOUCH_BLOCK)', history_difference),
)


class Faults(unittest.TestCase):

    # A module with a wrong line, in the place of the right one for the connections that are made from then on.
    def test_faults(self):
        right = shutil.copy(SERVER.module, os.path.join(SERVER.folder, 'right.so'))
        for number, (name, old, new, comparison) in enumerate(FAULTS):
            os.replace(SERVER.wrong_module(f'fault{number}', name, old, new), SERVER.module)
            with self.subTest(fault=(name, new)):
                self.assertEqual(SERVER.psql('SELECT scullpouch_interface();'), '2\n')
                self.assertNotEqual(comparison(), '')
        os.replace(right, SERVER.module)
        self.assertEqual(script_difference('morning'), '')


# ---- The section of docs/LIBRARY.md ----

# The fenced parts of the section on PostgreSQL.
def fenced(language):
    text = read(ROOT, 'docs', 'LIBRARY.md').decode()
    section = re.search(r'^## From PostgreSQL\n(.*?)^## ', text, re.M | re.S)[1]
    return re.findall(rf'^```{language}\n(.*?)^```$', section, re.M | re.S)


# A delivery with faults: rows that are left out, doubled, changed, of a maturity that is not listed, or without numbers.
def faulty(chance, rows):
    given = []
    for row in rows:
        product, number, maturity, day, back = row.split(',')
        kind = chance.randrange(20)
        if kind == 0:
            continue
        if kind == 1:
            day = terms.day_text(words.day_of(day.encode()) + chance.choice([-7, -1, 1, 7]))
        if kind == 2:
            number = str(int(number) + 1)
        if kind == 3:
            back = str(int(back) + 1)
        if kind == 4:
            maturity = '2012-02-03' if len(maturity) == 10 else '2012-01'
        given.append([product, maturity, day] if kind == 5 else [product, number, maturity, day, back])
        given += given[-1:] if kind == 6 else []
    chance.shuffle(given)
    return given


# The rows of a delivery as SQL; those of three fields have no numbers.
def delivered_sql(given):
    full = [[row[0], None, row[1], row[2], None] if len(row) == 3 else row for row in given]
    return 'TRUNCATE delivered; INSERT INTO delivered VALUES ' + ', '.join(
        '(' + ', '.join('NULL' if field is None else quoted(field) for field in row) + ')' for row in full) + ';\n'


class Section(unittest.TestCase):

    # Its lines for psql, in the folder of the example, print what it says; its comparison of a delivery finds what the
    # second program's `reconcile` finds.
    def test_section(self):
        lines, expected = '\n'.join(fenced('sql')), ''.join(fenced('text'))
        SERVER.psql('CREATE DATABASE reader TEMPLATE template0;')
        found = SERVER.psql(lines, 'reader', words=(), cwd=MORNING)
        self.assertEqual(*([line.rstrip() for line in said.splitlines() if line] for said in (found, expected)))
        [query] = re.findall(r'^WITH o AS .*?;$', lines, re.M | re.S)
        self.compare(random.Random(SEED), query)

    def compare(self, chance, query):
        file, text = read(MORNING, 'master.bin'), read(MORNING, 'notices.txt')
        rows = deliver.deliver(file, text)[0].decode().splitlines()[1:]
        for _ in range(10):
            given = faulty(chance, rows)
            second = reconcile.reconcile(file, text, '\n'.join(map(','.join, given)).encode())[0].decode().splitlines()[1:]
            found = SERVER.psql(delivered_sql(given) + query, 'reader').splitlines()
            self.assertEqual([line.split('|')[:3] for line in found], [line.split(',')[:3] for line in second], f'--seed {SEED}')


    # Without the server nothing fails, and a line says what is left out.
    def test_left_out(self):
        said = run(sys.executable, '-m', 'tests.gate.postgresql', cwd=ROOT, env={**os.environ, 'PG_CONFIG': '/nonexistent/pg_config'})
        self.assertEqual(said, 'postgresql: no PostgreSQL (pg_config), so the calls in PostgreSQL are left out\n')


# The server saw no process end by a signal.
class Zlast(unittest.TestCase):

    def test_log(self):
        log = read(SERVER.folder, 'log').decode(errors='replace')
        self.assertNotIn('terminated by signal', log)
        self.assertIsNone(SERVER.process.poll())


def main(arguments):
    global SEED, ARCHIVE
    parser = argparse.ArgumentParser(description=__doc__, formatter_class=argparse.RawDescriptionHelpFormatter)
    parser.add_argument('--seed', type=int, default=int.from_bytes(os.urandom(4), 'big'))
    parser.add_argument('--archive')
    asked, rest = parser.parse_known_args(arguments)
    SEED, ARCHIVE = asked.seed, asked.archive
    left_out = missing()
    if left_out:
        print(f'postgresql: {left_out}, so the calls in PostgreSQL are left out')
        return 0
    print(f'postgresql: seed {SEED}', flush=True)
    unittest.main(argv=[__file__, *rest])


if __name__ == '__main__':
    sys.exit(main(sys.argv[1:]))
