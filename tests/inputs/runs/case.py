"""One run: what stands at master.bin and what comes on standard input."""

import os
import random
from dataclasses import dataclass

# What stands at master.bin.
FILE, LOCKED, MISSING, FOLDER, LINK = 'file', 'locked file', 'missing', 'folder', 'link'

# How the input comes: at once through a pipe, in pieces through a pipe, from a
# file, from no open file at all, or from a folder, which can't be read.
WHOLE, PIECES, STORED, CLOSED, UNREADABLE = 'whole', 'pieces', 'stored', 'closed', 'unreadable'


# Random choices, with the names that tables/files.py and tables/moments.py use.
class Chance(random.Random):

    # A number from 0 to n - 1.
    def below(self, n):
        return self.randrange(n)

    # One of several items.
    def one_of(self, items):
        return self.choice(items)


# data: a file's bytes, or a link's target. A locked file is one that only root
# can read.
@dataclass(frozen=True)
class Master:
    place: str
    data: bytes = b''

    # Makes master.bin in a folder.
    def put(self, folder):
        path = os.path.join(folder, 'master.bin')
        if self.place == FOLDER:
            os.mkdir(path)
        elif self.place == LINK:
            os.symlink(self.data, os.fsencode(path))
        elif self.place != MISSING:
            write(path, self.data)
            os.chmod(path, 0o000 if self.place == LOCKED else 0o644)


# Writes a file.
def write(path, data):
    with open(path, 'wb') as out:
        out.write(data)


@dataclass(frozen=True)
class Case:
    name: str
    master: Master
    commands: bytes
    feed: str = WHOLE


# An accepted or damaged file's case.
def with_file(name, file, commands, feed=WHOLE):
    return Case(name, Master(FILE, file), commands, feed)
