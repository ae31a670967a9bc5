"""Reads and writes that fail: libraries that are loaded before the C library, from
failing_read.c and failing_write.c."""

import os
import shutil
import subprocess
import tempfile
import unittest

FOLDER = os.path.dirname(os.path.abspath(__file__))
COMPILER = shutil.which('cc')


# Tests of a program whose reads or writes fail; without a C compiler they are skipped.
@unittest.skipUnless(COMPILER, 'no C compiler')
class FailingCalls(unittest.TestCase):

    # The library of one of the files.
    @classmethod
    def made(cls, name):
        folder = tempfile.TemporaryDirectory()
        cls.addClassCleanup(folder.cleanup)
        library = os.path.join(folder.name, f'{name}.so')
        subprocess.run([COMPILER, '-shared', '-fPIC', '-O1', '-o', library, os.path.join(FOLDER, f'{name}.c')], check=True)
        return library


class FailingReads(FailingCalls):

    @classmethod
    def setUpClass(cls):
        cls.library = cls.made('failing_read')


class FailingWrites(FailingCalls):

    @classmethod
    def setUpClass(cls):
        cls.library = cls.made('failing_write')
