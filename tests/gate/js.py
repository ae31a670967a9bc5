"""Tests of the calls for JavaScript: python3 -m tests.gate.js

The module is made by bindings/js/build, which needs rt, in a folder of its own; the programs
of bindings/js are run over it by node and compared with the second program, on the scripts and
sessions of test_bindings.py. Without node they are left out, and a line says so; the layouts,
names, words and types are held to the crates all the same.

--seed N repeats the scripts and sessions of a run; without it they are others each time.
"""

import argparse
import json
import os
import re
import shutil
import subprocess
import sys
import tempfile
import threading
import time
import unittest
from functools import partial
from http.server import SimpleHTTPRequestHandler, ThreadingHTTPServer

from tests import ROOT
from tests.gate import bindings, browser
from tests.gate.bindings import BINDINGS, CRATE, EXAMPLES, GATE, SECONDS, read, run
from tests.inputs import sessions
from tests.second import terms

JS = os.path.join(BINDINGS, 'js')
MODULE = 'scullpouch.js'
BUILT = None  # the folder that bindings/js/build made
ENVIRONMENT = {**os.environ}


def setUpModule():
    global BUILT
    if shutil.which('node'):
        BUILT = tempfile.mkdtemp(prefix='js-')
        run(os.path.join(JS, 'build'), BUILT)


def tearDownModule():
    if BUILT:
        shutil.rmtree(BUILT)


# The command of a program of bindings/js over a folder.
def program(name, folder=None):
    return ['node', os.path.join(JS, f'{name}.js'), folder or BUILT]


# What a text of JavaScript prints, as JSON, with the module as `s`.
def said(text, folder=None):
    source = f'import * as s from {json.dumps(os.path.join(folder or BUILT, MODULE))};\n{text}'
    return json.loads(run('node', '--input-type=module', '-e', source))


# The first of the fixed scripts that finds a difference, or ''.
def found(folder):
    scripts = (bindings.kept_script(f'fixed {number}') for number in range(bindings.FIXED_SCRIPTS))
    return next(filter(None, (bindings.difference(one, program('calls', folder), env=ENVIRONMENT) for one in scripts)), '')


# ---- Comparisons ----

@unittest.skipUnless(shutil.which('node'), 'no node')
class Same(unittest.TestCase):

    # The stored session, byte for byte as `terms` prints it.
    def test_session(self):
        commands, expected = (read(EXAMPLES, name).encode() for name in ('session.txt', 'session.out'))
        self.assertEqual(bindings.printed(program('session'), EXAMPLES, commands, env=ENVIRONMENT), expected)

    # Sessions of other files and commands, as `terms` is asked them.
    def test_sessions(self):
        for case in bindings.some_sessions():
            with tempfile.TemporaryDirectory() as folder:
                sessions.put(case, folder)
                expected = terms.answers(terms.read_master(os.path.join(folder, 'master.bin')), case.commands)
                self.assertEqual(bindings.printed(program('session'), folder, case.commands, env=ENVIRONMENT), expected,
                                 f'{case.name}, --seed {bindings.SEED}')

    # Scripts of every call, on sound tables and others.
    def test_calls(self):
        seen = set()
        for seed in (*(f'fixed {number}' for number in range(bindings.FIXED_SCRIPTS)), *bindings.some_seeds(bindings.SCRIPTS)):
            script = bindings.kept_script(seed)
            seen |= script.seen if seed.startswith('fixed') else set()
            self.assertEqual(bindings.difference(script, program('calls'), env=ENVIRONMENT), '', f'script {seed}')
        self.assertEqual(sorted(bindings.calls.WANTED - seen), [])

    # Every refusal in words, as docs/REFUSALS.md has it.
    def test_questions(self):
        known = bindings.questions()
        data = ''.join(f'question {number}\n' for number in range(256)).encode()
        expected = ''.join(f'{known.get(number, "")}\n' for number in range(256))
        self.assertEqual(bindings.printed(program('calls'), ROOT, data, env=ENVIRONMENT).decode(), expected)
        self.assertEqual(said('const r = new s.Refused(13); console.log(JSON.stringify([r instanceof Error, r.name, r.number, r.question, r.message]))'),
                         [True, 'Refused', 13, known[13], f'refusal 13: {known[13]}'])

    # The program of docs/LIBRARY.md prints what those for C, Rust and Python print.
    def test_library(self):
        build, lines = bindings.fenced('sh', 'From JavaScript')
        [source] = bindings.fenced('js', 'From JavaScript')
        self.assertIn('bindings/js/build "$folder"', build)
        with tempfile.TemporaryDirectory() as folder:
            shutil.copy(os.path.join(EXAMPLES, 'master.bin'), folder)
            for name in os.listdir(BUILT):
                shutil.copy(os.path.join(BUILT, name), folder)
            with open(os.path.join(folder, 'roll.mjs'), 'w', encoding='utf-8') as out:
                out.write(source)
            printed = run('bash', '-euc', lines, cwd=folder)
        self.assertEqual(printed.decode(), bindings.fenced('text')[0])

    # The program with texts and decimals prints what those for the other languages print.
    def test_over_the_calls(self):
        title = bindings.OverTheCalls.TITLE
        with tempfile.TemporaryDirectory() as folder:
            shutil.copytree(BUILT, folder, dirs_exist_ok=True)
            shutil.copy(os.path.join(EXAMPLES, 'master.bin'), folder)
            with open(os.path.join(folder, 'program.mjs'), 'w', encoding='utf-8') as out:
                out.write(bindings.fenced('js', title)[0])
            printed = run('node', 'program.mjs', cwd=folder)
        self.assertEqual(printed.decode(), bindings.fenced('text', title)[0])


# ---- Layouts, names, the module ----

def js_layouts():
    text = read(JS, MODULE).split('export const LAYOUT = {')[1].split('\n};')[0]
    rows = re.findall(r'^  (\w+): \[(\d+), \{ (.*?) \}\],$', text, re.M | re.S)
    return {name: (int(size), {field: int(offset) for field, offset in re.findall(r'(\w+): (\d+)', fields)})
            for name, size, fields in rows}


def exported():
    return set(re.findall(r'^pub extern "C" fn scullpouch_(\w+)\(', read(*CRATE), re.M))


# The names that a file of JavaScript or of types exports.
def names_of(text):
    declared = re.findall(r'^export (?:declare )?(?:async )?(?:const|function|class) (\w+)', text, re.M)
    return sorted(declared + re.findall(r'^export \{ \w+ as (\w+) \};', text, re.M))


# The public members of each class in a file of types.
def typed_members():
    found = {}
    for name, body in re.findall(r'^export class (\w+)[^{]*\{\n(.*?)^\}', read(JS, 'scullpouch.d.ts'), re.M | re.S):
        members = re.findall(r'^  (?:private )?(?:static |readonly |get )*(\w+)[(:]', body, re.M)
        found[name] = sorted(set(members) - {'constructor'})
    return found


class Interface(unittest.TestCase):

    # Every struct that the crates export, with every field.
    def test_layouts(self):
        known = bindings.structs()
        self.assertEqual(js_layouts(), {bindings.snake(name): bindings.layout_of(name, known)[::2] for name in known})

    # The functions that the crate exports.
    def test_names(self):
        signatures = read(JS, MODULE).split('const SIGNATURES = {')[1].split('\n};')[0]
        self.assertEqual(sorted(re.findall(r'^  (\w+): \[', signatures, re.M)), sorted(exported()))

    def test_versions(self):
        self.assertEqual(json.loads(read(JS, 'package.json'))['version'], bindings.version())
        major = bindings.version().split('.')[0]
        self.assertIn(f'\nexport const INTERFACE = {major};\n', read(JS, MODULE))
        self.assertIn(f'\nexport const INTERFACE: {major};\n', read(JS, 'scullpouch.d.ts'))

    # What is said of days after the cover's last year, as in the other languages.
    def test_said(self):
        self.assertIn("after the cover's last year", read(JS, MODULE).replace('\n * ', ' '))

    # The types name what the module exports.
    def test_types(self):
        self.assertEqual(names_of(read(JS, 'scullpouch.d.ts')), names_of(read(JS, MODULE)))

    # One kit makes the module; another is told in a line, and nothing is made.
    def test_another_kit(self):
        with tempfile.TemporaryDirectory() as folder:
            with open(os.path.join(folder, 'rt'), 'w', encoding='utf-8') as out:
                out.write('#!/bin/sh\n[ "$1" = version ] && echo another-kit || exit 9\n')
            os.chmod(os.path.join(folder, 'rt'), 0o755)
            ran = subprocess.run([os.path.join(JS, 'build'), os.path.join(folder, 'out')], capture_output=True, text=True,
                                 env={**os.environ, 'PATH': f'{folder}:{os.environ["PATH"]}'}, timeout=SECONDS)
            pinned = read(JS, 'kit').strip()
            self.assertEqual((ran.returncode, ran.stdout, ran.stderr), (1, '', (
                f"bindings/js/build: the kit is 'another-kit'; the module is made by '{pinned}' alone (bindings/js/kit)\n")))
            self.assertEqual(os.listdir(os.path.join(folder, 'out')), [])


@unittest.skipUnless(shutil.which('node'), 'no node')
class Made(unittest.TestCase):

    # The module imports nothing, exports the calls, and says which kit made it; it has no other section that would say
    # where it was made, so that the same code gives the same bytes in every folder.
    def test_module(self):
        found = said(f'''import {{ readFileSync }} from 'node:fs';
            const module = new WebAssembly.Module(readFileSync({json.dumps(os.path.join(BUILT, 'scullpouch.wasm'))}));
            const others = ['name', 'producers', 'target_features', 'sourceMappingURL', '.debug_info', 'linking'];
            await s.start(module);
            console.log(JSON.stringify([WebAssembly.Module.imports(module), WebAssembly.Module.exports(module).map(one => one.name),
              others.flatMap(name => WebAssembly.Module.customSections(module, name)).length, s.kit(), s.interface()]))''')
        imports, exports, others, kit, interface = found
        self.assertEqual((imports, others, interface), ([], 0, int(bindings.version().split('.')[0])))
        self.assertEqual(sorted(exports), sorted(['memory', '__heap_base', *(f'scullpouch_{name}' for name in exported())]))
        self.assertEqual(kit, read(JS, 'kit').strip())
        self.assertEqual(kit, run('rt', 'version').decode().strip())

    # The members of the classes are those that the types name.
    def test_members(self):
        found = said('''await s.start();
            const made = { Calendar: s.make(7, 2008, 1), Product: new s.Product({}), Intake: new s.Intake(2), Queue: new s.Queue(),
              Table: s.Table.from_bytes(new Uint8Array(1624)), Refused: new s.Refused(1), BadLine: new s.BadLine(1) };
            const names = Object.fromEntries(Object.entries(s).filter(([, one]) => typeof one === 'function' && /^class/.test(one)).map(([name, one]) =>
              [name, [...Object.getOwnPropertyNames(one.prototype), ...Object.getOwnPropertyNames(made[name] ?? {}), ...Object.getOwnPropertyNames(one)]]));
            console.log(JSON.stringify(names))''')
        hidden = {'constructor', 'length', 'name', 'prototype', 'stack', 'message'}
        self.assertEqual({name: sorted(set(members) - hidden) for name, members in found.items()}, typed_members())

    # What bindings/js/build installs is what a program imports: no file but these.
    def test_files(self):
        self.assertEqual(sorted(os.listdir(BUILT)), ['package.json', 'scullpouch.d.ts', 'scullpouch.js', 'scullpouch.wasm'])


# A page that imports the module as a server hands it out, and shows what the program of docs/LIBRARY.md prints.
PAGE = '''<!DOCTYPE html><title>waits</title><script type="module">
import * as scullpouch from './scullpouch.js';
const lines = [];
try {
  await scullpouch.start();
  const table = scullpouch.open(await (await fetch('master.bin')).arrayBuffer(), 'AXA', '2008-03-20');
  table.roll('2008-03-21');
  for (const m of table.maturities) lines.push(`${m.number} ${m.key} ${m.day} ${m.back}`);
  table.roll('2008-03-20');
} catch (error) { lines.push(error.message); }
document.body.textContent = lines.join('\\n') + '\\n';
document.title = 'ready';
</script>'''


@unittest.skipUnless(shutil.which('node') and browser.installed(), 'no node or no chromium')
class InABrowser(unittest.TestCase):

    def test_served(self):
        with tempfile.TemporaryDirectory() as folder:
            shutil.copytree(BUILT, folder, dirs_exist_ok=True)
            shutil.copy(os.path.join(EXAMPLES, 'master.bin'), folder)
            with open(os.path.join(folder, 'index.html'), 'w', encoding='utf-8') as out:
                out.write(PAGE)
            handler = type('Handler', (SimpleHTTPRequestHandler,), {'log_message': lambda *_: None})
            with ThreadingHTTPServer(('127.0.0.1', 0), partial(handler, directory=folder)) as server:
                threading.Thread(target=server.serve_forever, daemon=True).start()
                with browser.Browser(here=True) as one:
                    one.open(f'http://127.0.0.1:{server.server_port}/index.html')
                    end = time.monotonic() + SECONDS
                    while one.evaluate('document.title') != 'ready' and time.monotonic() < end:
                        time.sleep(0.1)
                    printed = one.evaluate('document.body.textContent')
                server.shutdown()
        self.assertEqual(printed, bindings.fenced('text')[0])


# ---- Planted faults ----

# What stands in the module, and what stands there instead.
LAYOUT_FAULTS = (
    ("entered: 'u16', left: 'u16', table: 'table'", "left: 'u16', entered: 'u16', table: 'table'"),
    ("kind: 'u8', currency: 'u8[3]'", "currency: 'u8[3]', kind: 'u8'"),
    ('date: 1500, given: 1502', 'date: 1502, given: 1500'),
)
FAULTS = (
    ("{ entered: get(outcome, 'outcome', 'entered'), left: get(outcome, 'outcome', 'left') }",
     "{ entered: get(outcome, 'outcome', 'left'), left: get(outcome, 'outcome', 'entered') }"),
    ("asked('reopen', this.#held", "asked('close', this.#held"),
    ("key: same ? null : get(reply, 'verdict', 'key')", 'key: null'),
    ("asked('open_in', this.#said,", "asked('open_in', new Uint8Array(1478),"),
    ("['closed', 'exchange'].some", "['closed'].some"),
    ('.getBigUint64(0, true)', '.getBigUint64(0, true) & 0xffffffffn'),
    ('if (number === 0) break;', ''),
    ("if (ways[i] !== 'place') words.push(BigInt(value.length));", "if (ways[i] !== 'place') words.push(BigInt(value.byteLength));"),
    ('for (const [bytes, at] of written) bytes.set(', 'for (const [bytes, at] of written) void ('),
    ('SIZE[kind] <= 16 && needed <= left', 'SIZE[kind] <= 16'),
    ('{ line: this.#calls[5 * i], number }', '{ line: this.#calls[5 * i + 1], number }'),
    ('for (let i = 0; i <= this.count; i++)', 'for (let i = 0; i < this.count; i++)'),
    ('const found = lines.join(\'\') + rows.unknown(products);', "const found = lines.join('');"),
    ("get(reply, 'measured', 'price')", "0 * get(reply, 'measured', 'price')"),
    ('for (const map of [this.closed, this.exchange])', 'for (const map of [this.closed])'),
    ('pointed(String(parts), 8)', 'pointed(String(parts), 7)'),
    ("if (this.#refusal()) {", 'if (false) {'),
)
ATTEMPTS = {
    'starts': ("if (!held) throw new Error('scullpouch: call start() first, and wait for it');", ''),
    'ids': ("text.replace(/[^\\0-\\x7f]/g, '?')", 'text'),
    'numbers': ('number < 0 || number >= 2 ** bits', 'number < 0 || number >= 2 ** 32'),
    'dates': ('(\\d{4})-(\\d\\d)-(\\d\\d)$/.exec(value)', '(\\d{4})-(\\d\\d?)-(\\d\\d)$/.exec(value)'),
    'items': ('if (bytes.length !== size)', 'if (data.length !== size)'),
    'counts': ('entered: fit(entered), left: fit(left)', 'entered, left'),
    'lengths': ("new Uint8Array(...MEASURES[type_name.call(data) ? 'typed' : 'view'].map(measure => measure.call(data)))",
                'new Uint8Array(data.buffer, data.byteOffset, data.byteLength)'),
    'long': ('if (bytes.length > LENT_AT_MOST)', 'if (false)'),
    'room': ('bytes_of(buffer).subarray(0, FILE_AT_MOST)', 'new Uint8Array(FILE_AT_MOST)'),
    'changes': ('this.#file = file_of(file).slice();', 'this.#file = file_of(file);'),
    'verdicts': ("const same = get(reply, 'verdict', 'same') !== 0;", "const same = get(reply, 'verdict', 'key') === 0;"),
    'deliveries': ("call('read_notices', bytes_of(text),", "call('read_notices', text,"),
    'codes': ('text.length > length || ', ''),
    'decimals': ('{1,4}))?$/.exec(text)', '{1,5}))?$/.exec(text)'),
}


def attempted(name, folder):
    ran = subprocess.run(['node', os.path.join(GATE, 'hostile.mjs'), folder, name], stdout=subprocess.PIPE, stderr=subprocess.STDOUT, timeout=SECONDS)
    return f'status {ran.returncode}: {ran.stdout.decode(errors="replace")}' if ran.returncode or ran.stdout else ''


@unittest.skipUnless(shutil.which('node'), 'no node')
class Faults(unittest.TestCase):

    # The folder that was built, with one text of the module exchanged for another.
    def planted(self, old, new):
        folder = tempfile.mkdtemp(prefix='fault-')
        self.addCleanup(shutil.rmtree, folder)
        shutil.copytree(BUILT, folder, dirs_exist_ok=True)
        text = read(folder, MODULE)
        self.assertEqual(text.count(old), 1, old)
        with open(os.path.join(folder, MODULE), 'w', encoding='utf-8') as out:
            out.write(text.replace(old, new))
        return folder

    # Two fields exchanged: the module is not imported.
    def test_layouts(self):
        for old, new in LAYOUT_FAULTS:
            with self.subTest(fault=new):
                self.assertIn('status 1', found(self.planted(old, new)))

    # The module answers hostile arguments as it should, and with a wrong line it does not.
    def test_hostile(self):
        self.assertEqual(run('node', os.path.join(GATE, 'hostile.mjs'), BUILT, 'names').decode().split(), list(ATTEMPTS))
        for name, (old, new) in ATTEMPTS.items():
            with self.subTest(attempt=name):
                self.assertEqual(attempted(name, BUILT), '')
                self.assertNotEqual(attempted(name, self.planted(old, new)), '')

    # A module of another interface, or one whose calls are fewer, is not taken.
    def test_interface(self):
        major = bindings.version().split('.')[0]
        self.assertIn('status 1', found(self.planted(f'INTERFACE = {major};', f'INTERFACE = {major}0;')))
        self.assertIn('status 1', found(self.planted("  interface: ['u32'],", "  interface: ['u32'],\n  another: ['u32'],")))

    # Another wrong line: the comparison finds it.
    def test_comparisons(self):
        for old, new in FAULTS:
            with self.subTest(fault=new):
                self.assertIn('the second program says', found(self.planted(old, new)))


def main(arguments):
    parser = argparse.ArgumentParser(description=__doc__, formatter_class=argparse.RawDescriptionHelpFormatter)
    parser.add_argument('--seed', type=int, default=int.from_bytes(os.urandom(4), 'big'))
    asked, rest = parser.parse_known_args(arguments)
    bindings.SEED = asked.seed
    if not shutil.which('node'):
        print('js: no node, so the calls for JavaScript are left out; their layouts, names and types are compared')
    elif not browser.installed():
        print('js: chromium is not installed, so the module in a browser is left out')
    print(f'js: seed {asked.seed}', flush=True)
    unittest.main(argv=[__file__, *rest])


if __name__ == '__main__':
    sys.exit(main(sys.argv[1:]))
