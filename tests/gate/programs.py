"""Inputs that a program can answer wrongly although every call that it makes is right:
python3 -m tests.gate.programs

An input that arrives in two writes, the last byte that confirm reads, a listing with
many entries, one block more than gateway may be handed, and an input that cannot be
read. What is expected is the second program's. Run `tools/built compose decompose confirm
gateway` first, which builds target/bin.
"""

import array
import errno
import fcntl
import os
import subprocess
import sys
import tempfile
import termios
import time
import unittest

from tests import ROOT
from tests.inputs import cases
from tests.inputs.products import AXA_LINE, item
from tests.inputs.runs import lines
from tests.second import confirm, intake, lists, master

BIN = os.path.join(ROOT, 'target', 'bin')
SECONDS = 20

FIRST = b'O AXA 2008-03-20\n'


# Waits until nothing is left in a pipe to read.
def wait_until_read(pipe):
    end = time.monotonic() + SECONDS
    left = array.array('i', [1])
    while left[0]:
        assert time.monotonic() < end, 'the program does not read'
        time.sleep(0.01)
        fcntl.ioctl(pipe, termios.FIONREAD, left)


# A run of a program on an input that arrives in some writes: what it wrote to standard
# output and to standard error.
def run(words, *writes, file=None):
    with tempfile.TemporaryDirectory() as folder:
        if file is not None:
            with open(os.path.join(folder, 'master.bin'), 'wb') as out:
                out.write(file)
        child = subprocess.Popen([os.path.join(BIN, words[0]), *words[1:]], cwd=folder, stdin=subprocess.PIPE,
                                 stdout=subprocess.PIPE, stderr=subprocess.PIPE)
        for data in writes[:-1]:
            child.stdin.write(data)
            child.stdin.flush()
            wait_until_read(child.stdin)
        answer = child.communicate(writes[-1], timeout=SECONDS)
        assert child.returncode == 0, child.returncode
        return answer


# A run whose standard input is a folder, which cannot be read.
def run_unread(*words):
    with tempfile.TemporaryDirectory() as folder:
        source = os.open(folder, os.O_RDONLY)
        try:
            ran = subprocess.run([os.path.join(BIN, words[0]), *words[1:]], cwd=folder, stdin=source,
                                 capture_output=True, timeout=SECONDS)
        finally:
            os.close(source)
        return ran.stdout, ran.stderr


# A run of a program whose standard input is not open.
def run_closed(*words):
    ran = subprocess.run(['sh', '-c', 'exec "$0" "$@" <&-', os.path.join(BIN, words[0]), *words[1:]],
                         capture_output=True, timeout=SECONDS)
    return ran.stdout, ran.stderr


class TwoWrites(unittest.TestCase):

    def test_compose(self):
        text = b'Y 2008 1\nC 2008-03-21\n' + AXA_LINE + b'\n'
        file, said = lists.compose(text)
        self.assertEqual((master.load(file)[0], said), (0, b''))
        for cut in (1, 9, 30, len(text) - 1):
            self.assertEqual(run(['compose'], text[:cut], text[cut:]), (file, said), cut)

    def test_confirm(self):
        listing = b''.join(f'{month} {month}-{day}\n'.encode() for month, day in (
            ('2008-03', 20), ('2008-04', 18), ('2008-05', 16), ('2008-06', 20), ('2008-09', 19)))
        text = FIRST + listing
        wanted = confirm.answer(lines.FILE, text)
        for cut in (5, len(FIRST), len(FIRST) + 19, len(text) - 3):
            self.assertNotEqual(confirm.answer(lines.FILE, text[:cut]), wanted, cut)
            self.assertEqual(run(['confirm'], text[:cut], text[cut:], file=lines.FILE), (wanted, b''), cut)

    def test_decompose(self):
        file = cases.six()
        wanted = run(['decompose'], file)
        self.assertEqual(lists.compose(wanted[0])[1], b'')
        self.assertEqual(run(['decompose'], file[:700], file[700:]), wanted)

    def test_gateway(self):
        file = cases.six()
        self.assertEqual(run(['gateway', '6'], file[:700], file[700:]), (b'OK 3 6\n', b''))


class Confirm(unittest.TestCase):

    def assert_printed(self, text, wanted):
        self.assertEqual(confirm.answer(lines.FILE, text), wanted)
        self.assertEqual(run(['confirm'], text, file=lines.FILE), (wanted, b''))

    # The last line's line feed is byte 65,537: five rolls to the table's date and 3,445
    # entries fill 65,536 bytes but for the last of them.
    def test_last_byte(self):
        entry = b'2009-12 2009-12-18\n'
        text = FIRST + 5 * b'R 2008-03-20\n' + 3445 * entry
        self.assertEqual(len(text), 65537)
        self.assert_printed(text, b'BAD 3451\n')
        self.assert_printed(text[:-1], confirm.answer(lines.FILE, text[:-1]))
        self.assertNotEqual(confirm.answer(lines.FILE, text[:-1]), b'BAD 3451\n')
        self.assert_printed(text[:-1] + b' \n', b'BAD 3451\n')

    # The entry that differs first stands after 2,100 others, and after more than 65,000 bytes.
    def test_many_entries(self):
        for count in (2047, 2048, 2100, 3445):
            text = FIRST + count * b'2009-12 2009-12-18\n' + b'2008-01 2008-01-18\n'
            self.assert_printed(text, b'DIFFERS 2008-01\n')


class Gateway(unittest.TestCase):

    # The most blocks that can be announced, and one more.
    def test_one_block_too_many(self):
        for file in (cases.six(), bytes(1024)):
            blocks = (file * 128)[:128 * master.BLOCK]
            wanted = intake.answer(['128'], blocks)
            self.assertEqual(run(['gateway', '128'], blocks), (wanted.encode(), b''))
            for more in (blocks[:1], blocks[:512], blocks[:513], blocks):
                self.assertEqual(run(['gateway', '128'], blocks + more), (b'NO 1\n', b''))
                self.assertEqual(intake.answer(['128'], blocks + more), 'NO 1\n')

    # A right file of 128 blocks is accepted, and refused with a block more.
    def test_right_file(self):
        products = [item(b'%04d' % n) for n in range(127)]
        file = master.build(cases.Calendar(2008, 1, frozenset(), frozenset()), products, 1)
        self.assertEqual(len(file), 128 * master.BLOCK)
        self.assertEqual(run(['gateway', '128'], file), (b'OK 1 127\n', b''))
        self.assertEqual(run(['gateway', '128'], file + file[-512:]), (b'NO 1\n', b''))


# What cannot be read is told with the system's reason; gateway, which has no room for its words, tells its name.
class Unread(unittest.TestCase):

    def test_told(self):
        for program in ('compose', 'decompose', 'confirm'):
            self.assertEqual(run_unread(program), (b'', program.encode() + b': standard input: Is a directory\n'))
        self.assertEqual(run_unread('gateway', '2'), (b'NO 1\n', b'gateway: standard input: EISDIR\n'))

    def test_closed(self):
        for program in ('compose', 'decompose'):
            told = f'{program}: standard input: {os.strerror(errno.EBADF)}\n'
            self.assertEqual(run_closed(program), (b'', told.encode()))
        self.assertEqual(run_closed('gateway', '2'), (b'NO 1\n', b'gateway: standard input: EBADF\n'))


if __name__ == '__main__':
    if not os.access(os.path.join(BIN, 'confirm'), os.X_OK):
        sys.exit(f'programs: {BIN} has no programs; run `tools/built compose decompose confirm gateway` first')
    unittest.main()
