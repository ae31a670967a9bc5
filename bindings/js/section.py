"""python3 section.py MODULE NAME FILE: adds a section of this name, the text of a file, at the end of a WebAssembly module."""

import sys


# A number in the module's own form: seven bits a byte, the lowest first.
def leb(number):
    head = bytes([number & 127 | (128 if number > 127 else 0)])
    return head + leb(number >> 7) if number > 127 else head


# A section whose number is 0 is one that no engine reads: its length, then its name and what it holds.
def section(name, held):
    body = leb(len(name)) + name + held
    return b'\0' + leb(len(body)) + body


def main(module, name, file):
    with open(file, 'rb') as text:
        held = text.read().strip()
    with open(module, 'ab') as out:
        out.write(section(name.encode(), held))


if __name__ == '__main__':
    main(*sys.argv[1:])
