"""What a program or shared object (ELF, 64 bits, little-endian) says of itself: its machine, and what it takes of the C library."""
import re
import struct
from typing import NamedTuple

from .checkout import Stop

DYNAMIC_SYMBOLS, GLOBAL, NOT_HERE = 11, 1, 0
OLDEST = 17  # the oldest C library that Python's installers still name on every machine


class Machine(NamedTuple):
    debian: str  # Debian's name of the architecture
    name: str  # that of Python and of the kernel
    triplet: str  # that of Debian's folder for libraries


MACHINES = {62: Machine('amd64', 'x86_64', 'x86_64-linux-gnu'), 183: Machine('arm64', 'aarch64', 'aarch64-linux-gnu')}


def machine_of(data):
    if data[:6] != b'\x7fELF\x02\x01' or struct.unpack_from('<H', data, 18)[0] not in MACHINES:
        raise Stop('target/ has programs for a machine that packages are not made for')
    return MACHINES[struct.unpack_from('<H', data, 18)[0]]


# The second number of the C library's version that some files need, 2.N; OLDEST where they name none.
def glibc_of(*files):
    return max((int(number) for data in files for number in re.findall(rb'\0GLIBC_2\.(\d+)', data)), default=OLDEST)


def sections(data):
    start, = struct.unpack_from('<Q', data, 40)
    size, count = struct.unpack_from('<HH', data, 58)
    return [struct.unpack_from('<IIQQQQIIQQ', data, start + number * size) for number in range(count)]


# The names of the functions that a file takes of the C library.
def taken(data):
    found = sections(data)
    symbols = next(section for section in found if section[1] == DYNAMIC_SYMBOLS)
    names = found[symbols[6]][4]
    for at in range(symbols[4], symbols[4] + symbols[5], 24):
        name, info, _, section = struct.unpack_from('<IBBH', data, at)
        if name and section == NOT_HERE and info >> 4 == GLOBAL:
            yield data[names + name:data.index(b'\0', names + name)].decode()
