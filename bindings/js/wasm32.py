"""python3 wasm32.py FROM TO: code in LLVM's text, made for x86-64, as code for WebAssembly, whose addresses have 32 bits.

The code counts 8 bytes for an address in memory wherever it says a place in bytes. Where it reads or writes a struct as one
value, the machine's own layout says the places, and an address would have 4: such a value is read or written field by
field at the places of x86-64. What else depends on how long an address is, is refused.
"""
import re
import sys

LAYOUT = 'e-m:e-p:32:32-p10:8:8-p20:8:8-i64:64-i128:128-n32:64-S128-ni:1:10:20'
TARGET = 'wasm32-unknown-unknown'
# How long a plain value is on x86-64, where it stands at a multiple of its length.
LENGTHS = {'i1': 1, 'i8': 1, 'i16': 2, 'i32': 4, 'i64': 8, 'i128': 16, 'ptr': 8}
READ = re.compile(r'  (%\S+) = load (\{.*\}), ptr (\S+), align \d+')
WRITTEN = re.compile(r'  store (\{.*\}) (%\S+), ptr (\S+), align \d+')
# What asks the machine's layout where something stands.
BY_LAYOUT = re.compile(r'(@.* = .*\b(constant|global)|  %\S+ = (alloca|load|getelementptr)|  store) ')
# A struct or an array that has an address.
WITH_ADDRESS = re.compile(r'[\[{<][^\]}>]*\bptr\b')
NUMBER = re.compile(r'\b(ptrtoint|inttoptr)\b')
# The library's copy of a slice asks whether two addresses are near: their difference is the same with 32 bits as with 64.
COMPARED = re.compile(r'= ptrtoaddr ptr (%\S+) to i64')


class Refused(Exception):
    """What cannot be translated, in words."""


def places(struct):
    """Each field of a struct of plain values and where it stands on x86-64."""
    at, found = 0, []
    for field in (part.strip() for part in struct.strip('{} ').split(',')):
        if field not in LENGTHS:
            raise Refused(f'a field of the type {field} in {struct}')
        at = -(-at // LENGTHS[field]) * LENGTHS[field]
        found.append((field, at))
        at += LENGTHS[field]
    return found


# A value that is read as one, read field by field, with names that begin with its own.
def read(name, struct, source):
    made, value, found = [], 'poison', places(struct)
    for i, (field, at) in enumerate(found):
        whole = name if i + 1 == len(found) else f'{name}.to{i}'
        made += [f'  {name}.at{i} = getelementptr i8, ptr {source}, i64 {at}',
                 f'  {name}.field{i} = load {field}, ptr {name}.at{i}, align 1',
                 f'  {whole} = insertvalue {struct} {value}, {field} {name}.field{i}, {i}']
        value = whole
    return made


# A value that is written as one, written field by field. The line's number keeps the names apart where it is written twice.
def written(struct, value, target, number):
    made = []
    for i, (field, at) in enumerate(places(struct)):
        name = f'{value}.written{number}.{i}'
        made += [f'  {name} = extractvalue {struct} {value}, {i}',
                 f'  {name}.at = getelementptr i8, ptr {target}, i64 {at}',
                 f'  store {field} {name}, ptr {name}.at, align 1']
    return made


def translated(line, number):
    """The lines for one line of the code."""
    if line.startswith('target datalayout'):
        return [f'target datalayout = "{LAYOUT}"']
    if line.startswith('target triple'):
        return [f'target triple = "{TARGET}"']
    code = re.sub(r' "(probe-stack|target-cpu)"="(inline-asm|x86-64[-v0-9]*)"', '', line)
    if NUMBER.search(code.split(';')[0]):
        raise Refused(f'an address taken for a number: {code}')
    code = COMPARED.sub(r'= ptrtoint ptr \1 to i64', code)
    found = READ.match(code)
    if found and WITH_ADDRESS.search(found[2]):
        return read(found[1], found[2], found[3])
    found = WRITTEN.match(code)
    if found and WITH_ADDRESS.search(found[1]):
        return written(found[1], found[2], found[3], number)
    if BY_LAYOUT.match(code) and WITH_ADDRESS.search(code):
        raise Refused(f'a place that depends on the length of an address: {code}')
    return [code]


def main(source, target):
    with open(source, encoding='utf-8') as text:
        lines = text.read().splitlines()
    try:
        made = [one for number, line in enumerate(lines) for one in translated(line, number)]
    except Refused as why:
        sys.exit(f'wasm32.py: {why}')
    with open(target, 'w', encoding='utf-8') as text:
        text.write('\n'.join(made) + '\n')


if __name__ == '__main__':
    main(*sys.argv[1:])
