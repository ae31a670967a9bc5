"""Tests of the program gateway (02, note 8): python3 -m tests.gate.gateway

It is run on the files that both programs judge and compared with the second program;
its memory is read off the built program and the text of the state. Run `tools/built
gateway` first, which builds target/bin/gateway. The tests of reads that fail need a
C compiler (cc); without one they are skipped.
"""

import os
import re
import struct
import subprocess
import sys
import tempfile
import time
import unittest

from tests import ROOT
from tests.gate import failing
from tests.inputs import cases
from tests.second import intake, master

PROGRAM = os.path.join(ROOT, 'target', 'bin', 'gateway')
STATE = os.path.join(ROOT, 'crates', 'file_intake', 'src', 'lib.rt')
SPARE = 512  # "A broker's gateway has 512 bytes to spare for this beside the lent block"
SECONDS = 20


# A run of gateway with some arguments: what it printed and what it said on standard
# error. The input is bytes, or an open file.
def run(arguments, data, **ways):
    source = {'input': data} if isinstance(data, bytes) else {'stdin': data}
    ran = subprocess.run([PROGRAM, *arguments], stdout=subprocess.PIPE, stderr=subprocess.PIPE,
                         timeout=SECONDS, **source, **ways)
    assert ran.returncode == 0, ran.returncode
    return ran.stdout.decode('ascii'), ran.stderr


# As many blocks as a file has, a short last one counted.
def blocks_in(file):
    return -(-len(file) // master.BLOCK)


class Answers(unittest.TestCase):

    # Compares a run with the second program.
    def assert_same(self, arguments, data, name=''):
        self.assertEqual(run(arguments, data), (intake.answer(arguments, data), b''), (name, arguments))

    # "it is the result of the whole-file load": of every file of the test suite.
    def test_every_case(self):
        seen = set()
        for name, file in cases.cases():
            arguments = [str(blocks_in(file))]
            self.assert_same(arguments, file, name)
            number, years, records = master.load(file)
            printed = f'NO {number}\n' if number else f'OK {years} {records}\n'
            self.assertEqual(run(arguments, file), (printed, b''), name)
            seen.add(number)
        self.assertEqual(seen, set(range(9)))

    # A final call made too early, a block too many, and a short last block.
    def test_another_number(self):
        file = cases.six()
        for blocks in (2, 5, 6, 7, 128):
            self.assert_same([str(blocks)], file)
        self.assertEqual(run(['6'], file)[0], 'OK 3 6\n')
        for length in (0, 1, 511, 512, 2560, 3071):
            self.assert_same(['6'], file[:length])
        for more in (b'\0', file[:511], file[:512], file):
            self.assert_same(['6'], file + more)

    # "An announced number outside 2 to 128 gets 1 before any block": nothing is read.
    def test_announcements(self):
        file = cases.six()
        for said in ('6', '06', '0006', '1', '0', '129', '999', '1000', '9999', '10000', '65538', '65542',
                     '4294967302', '18446744073709551622', '00000006', '000000006', '', ' 6', '6 ', '+6', '-6', '6x', 'x', '6.0', '\uff16'):
            self.assert_same([said], file)
        for arguments in ([], ['6', '6'], ['6', '']):
            self.assert_same(arguments, file)
        with tempfile.TemporaryFile() as source:
            source.write(file)
            source.seek(0)
            self.assertEqual(run(['129'], source), ('NO 1\n', b''))
            self.assertEqual(os.lseek(source.fileno(), 0, os.SEEK_CUR), 0)

    # Reads that bring less than a block.
    def test_pieces(self):
        for length in (1, 7, 500, 513, 3000):
            child = subprocess.Popen([PROGRAM, '6'], stdin=subprocess.PIPE, stdout=subprocess.PIPE)
            for start in range(0, 600 if length < 100 else 3072, length):
                child.stdin.write(cases.six()[start:start + length])
                child.stdin.flush()
                time.sleep(0.0002)
            end = start + length
            printed, _ = child.communicate(cases.six()[end:], timeout=SECONDS)
            self.assertEqual(printed, b'OK 3 6\n', length)

    def test_failed_write(self):
        for arguments, file in ((['6'], cases.six()), (['6'], b''), (['1'], b'')):
            with open('/dev/full', 'wb') as full:
                ran = subprocess.run([PROGRAM, *arguments], input=file, stdout=full, stderr=subprocess.PIPE)
            self.assertEqual((ran.returncode, ran.stderr), (0, b'gateway: standard output: ENOSPC\n'))


class Reads(failing.FailingReads):

    # What is printed for six blocks where a read fails, or is short.
    def printed(self, **words):
        with tempfile.NamedTemporaryFile() as source:
            source.write(cases.six())
            source.seek(0)
            held = {**os.environ, 'LD_PRELOAD': self.library, 'FAULT_FILE': source.name, **words}
            return run(['6'], source, env=held)

    # A read that fails gets 1, wherever it is, also where the end should be found, and is told.
    def test_failed_reads(self):
        for at in (0, 1, 511, 512, 3071, 3072):
            for ends in ('0', '1'):
                self.assertEqual(self.printed(FAULT_AT=str(at), FAULT_ENDS=ends),
                                 ('NO 1\n', b'gateway: standard input: EIO\n'), (at, ends))

    def test_short_reads(self):
        for most in ('1', '511', '512'):
            self.assertEqual(self.printed(FAULT_MOST=most), ('OK 3 6\n', b''), most)


# ---- Memory ----

# The bytes of a number's or an array's type.
def size_of(kind):
    array = re.fullmatch(r'\[(\w+); (\d+)\]', kind)
    if array:
        return int(array[2]) * size_of(array[1])
    return {'u8': 1, 'u16': 2, 'u32': 4, 'u64': 8, 'usize': 8}[kind]


# The fields of a struct of a source and their types.
def fields_of(text, name):
    body = re.search(rf'pub struct {name} {{\n(.*?)\n}}', text, re.S)[1]
    return re.findall(r'^    pub (\w+): (.+),$', body, re.M)


# The sections of an ELF file of 64 bits: (name, type, flags, address, offset, size, link).
def sections_of(data):
    at, = struct.unpack_from('<Q', data, 0x28)
    size, count, names = struct.unpack_from('<HHH', data, 0x3A)
    rows = [struct.unpack_from('<IIQQQQI', data, at + size * k) for k in range(count)]
    return [(text_at(data, rows[names][4] + row[0]), *row[1:]) for row in rows]


def text_at(data, at):
    return data[at:data.index(b'\0', at)].decode('ascii', 'replace')


# The functions of an ELF file and their code.
def functions_of(data):
    sections = sections_of(data)
    table = next(row for row in sections if row[1] == 2)
    names = sections[table[6]][4]
    for at in range(table[4], table[4] + table[5], 24):
        name, info, _, section, value, size = struct.unpack_from('<IBBHQQ', data, at)
        if info & 15 == 2 and 0 < section < len(sections):
            start = sections[section][4] + value - sections[section][3]
            yield text_at(data, names + name), data[start:start + size]


# The most bytes that a function of x86-64 has on the stack: the address to return to,
# the registers that it saves, and what it takes from the stack pointer.
def frame_of(code):
    saved = re.match(rb'(?:\x41?[\x50-\x57])*', code)[0].replace(b'\x41', b'')
    taken = [int.from_bytes(found[1] or found[2], 'little')
             for found in re.finditer(rb'\x48(?:\x81\xec(....)|\x83\xec(.))', code, re.S)]
    return 8 + 8 * len(saved) + max(taken, default=0)


class Memory(unittest.TestCase):

    # "the state carried between blocks at most 512 bytes": summed from its text.
    def test_state(self):
        with open(STATE) as source:
            text = source.read()
        fields = fields_of(text, 'Intake')
        self.assertEqual(len(fields), text[text.index('pub struct Intake {'):].split('}')[0].count('pub ') - 1)
        self.assertEqual(sum(size_of(kind) for _, kind in fields), 18)
        self.assertLessEqual(sum(size_of(kind) for _, kind in fields), SPARE)

    # No larger value stands between the block and the state: all functions of the program
    # together have no more on the stack than the block and 512 bytes, it has no other
    # memory that it writes to but what the C library needs, and its constants have no room
    # for the table of 1,200 first days. The program's own `main` is `gateway::main+start`;
    # C's `main` is the toolchain's, which calls it, and writes a line where the processor
    # is too old.
    def test_stack(self):
        with open(PROGRAM, 'rb') as file:
            data = file.read()
        frames = {name: frame_of(code) for name, code in functions_of(data) if '::' in name}
        self.assertIn('gateway::main+start', frames)
        self.assertGreater(max(frames.values()), master.BLOCK)
        self.assertLessEqual(sum(frames.values()), master.BLOCK + SPARE, frames)
        sizes = {row[0]: row[5] for row in sections_of(data)}
        self.assertLessEqual(sizes['.data'] + sizes['.bss'], 64)
        self.assertLess(sizes['.rodata'], 2 * 1200)

    # The reader of frames on code that is known.
    def test_frames(self):
        self.assertEqual(frame_of(bytes.fromhex('c3')), 8)
        self.assertEqual(frame_of(bytes.fromhex('55415741564155415453' '4881eca8020000' 'c3')), 8 + 48 + 680)
        self.assertEqual(frame_of(bytes.fromhex('53' '4883ec30' 'c3')), 8 + 8 + 48)
        self.assertEqual(size_of('[u8; 736]'), 736)


if __name__ == '__main__':
    if not os.access(PROGRAM, os.X_OK):
        sys.exit(f'gateway: {PROGRAM} is no program; run `tools/built gateway` first')
    if not failing.COMPILER:
        print('gateway: no C compiler (cc), so the tests of failed reads are skipped', file=sys.stderr)
    unittest.main()
