"""Tests that every file with a version has the one of the file VERSION."""

import os
import re
import unittest
from pathlib import Path

from tests import ROOT

# The files with the version, and those with its first number, which is the interface's.
WHOLE = {
    'bindings/scullpouch.pc.in': r'^Version: (.*)$',
    'bindings/rust/Cargo.toml': r'^name = "scullpouch"\nversion = "(.*)"$',
    'bindings/rust/Cargo.lock': r'^name = "scullpouch"\nversion = "(.*)"$',
    'bindings/python/scullpouch/__init__.py': r"^__version__ = '(.*)'$",
    'bindings/js/package.json': r'^  "version": "(.*)",$',
    'page/package.json': r'"version": "([^"]*)"',
}
FIRST = {
    'bindings/include/scullpouch.h': r'^#define SCULLPOUCH_INTERFACE (\d+) ',
    'bindings/python/scullpouch/__init__.py': r'^INTERFACE = (\d+)$',
    'bindings/js/scullpouch.js': r'^export const INTERFACE = (\d+);$',
    'bindings/js/scullpouch.d.ts': r'^export const INTERFACE: (\d+);$',
    'bindings/install': r'-Wl,-soname,libscullpouch\.so\.(\d+) ',
}

# A line that says a version of three numbers, whatever the file.
SAYS = re.compile(r'(?:\b|_)version(?:__)?["\']?\s*[:=]\s*["\']?\d+\.\d+\.\d+', re.I)
FOLDERS = ('bindings', 'page')
BUILT = {'target', 'node_modules', '__pycache__'}


def text_of(name):
    return Path(ROOT, name).read_text(encoding='utf-8')


# The files that have another version, or not just one.
def differing(version):
    wanted = [(WHOLE, version), (FIRST, version.split('.')[0])]
    return sorted({name for places, right in wanted for name, place in places.items()
                   if re.findall(place, text_of(name), re.M) != [right]})


# The text files of a folder.
def files_in(folder):
    for path, folders, names in os.walk(os.path.join(ROOT, folder)):
        folders[:] = [name for name in folders if name not in BUILT]
        for name in names:
            if not name.endswith(('.png', '.wasm', '.html')):
                yield os.path.relpath(os.path.join(path, name), ROOT)


class Versions(unittest.TestCase):

    def test_form(self):
        self.assertRegex(text_of('VERSION'), r'\A\d+\.\d+\.\d+\n\Z')

    def test_every_file(self):
        self.assertEqual(differing(text_of('VERSION').strip()), [])

    # With another version every file would be named.
    def test_named(self):
        self.assertEqual(differing('99.9.9'), sorted(WHOLE.keys() | FIRST.keys()))

    # No file says a version that is not held to VERSION.
    def test_no_other(self):
        found = {name for folder in FOLDERS for name in files_in(folder) if SAYS.search(text_of(name))}
        self.assertEqual(found, set(WHOLE))


if __name__ == '__main__':
    unittest.main()
