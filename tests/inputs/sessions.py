"""The runs of the program terms that are compared, from a seed: hundreds of
pairs of a master.bin and an input. Each run depends on the seed and its own
number alone.

python3 -m tests.inputs.sessions SEED NUMBER FOLDER writes one run's files.
"""

import os
import sys
from itertools import combinations, islice

from tests.inputs.runs import files, histories, lines
from tests.inputs.runs.case import CLOSED, LINK, PIECES, STORED, UNREADABLE, WHOLE, Case, Chance, with_file, write

# The runs of a whole set: it holds every family.
COUNT = 400

# 01, "March 2008 and its neighbours": the input of the example.
EXAMPLE = b'O AXA 2008-03-20\nR 2008-03-21\nC 2008-03-20\n'

# 02, note 2: "0 to 6". The days up to the third Friday of August 2008, the 15th,
# closed one after the other: an Italian month steps back to the Friday before, six
# days, another one to Monday, four. The last day of the week gets 15.
STEPS = (b'O ENI 2008-08-01\nC 2008-08-14\nC 2008-08-13\nC 2008-08-12\nC 2008-08-11\nC 2008-08-15\n'
         b'O AXA 2008-08-01\nC 2008-08-15\nC 2008-08-14\nC 2008-08-13\nC 2008-08-12\nC 2008-08-11\n')


# 02, note 3, on a file in which only 21 March 2008 is closed: the Fridays from 17
# March on, for an Italian option and for another; 1 May 2009 closed ends on 30
# April; 24, 11 and 16 at the cover's ends, where a monthly option is not asked 24.
WEEKS = (b'O AXAW 2008-03-17\nR 2008-03-28\nR 2008-03-29\nC 2008-04-11\nC 2008-04-10\nR 2008-04-10\n'
         b'O ENIW 2008-03-17\nR 2008-03-29\nC 2008-04-24\nR 2008-04-24\nC 2008-04-25\n'
         b'O AXAW 2009-04-20\nC 2009-05-01\nR 2009-05-01\n'
         b'O AXAW 2007-12-31\nO AXAW 2008-01-01\nO AXAW 2008-01-07\nO AXAW 2008-01-08\nO AXA 2008-01-01\n'
         b'O AXAW 2010-12-03\nR 2010-12-04\nO ENIW 2010-12-04\n')


# ---- Families: each a list of functions from random choices to a run ----

# 01's example, also in pieces, from a file and without the final line feed; every
# number of days stepped back; weekly options.
def examples():
    def example(commands, feed):
        name = f'the example of document 01, {feed}'
        return lambda chance: with_file(name, lines.EXAMPLE_FILE, commands, feed)

    return [example(EXAMPLE, WHOLE), example(EXAMPLE, PIECES), example(EXAMPLE, STORED),
            example(EXAMPLE[:-1], WHOLE), example(b'', CLOSED), example(b'', UNREADABLE),
            lambda chance: with_file('days stepped back', lines.FILE, STEPS),
            lambda chance: with_file('weekly options', lines.WEEKLY_FILE, WEEKS)]


# The shapes of an input. Short ones come in pieces too, as a pipe holds them whole.
def inputs():
    def fixed(name, commands, *feeds):
        return lambda chance: with_file(name, lines.FILE, commands, chance.choice((WHOLE, STORED, *feeds)))

    def made(maker):
        return lambda chance: fixed(maker.__name__.replace('_', ' '), maker(chance))(chance)

    return [*(fixed(f'input {commands!r}', commands, PIECES) for commands in lines.ENDS),
            *(fixed(f'every byte of {command!r}', lines.every_byte(command))
              for command in (lines.OPEN, lines.ROLL, lines.CLOSE)),
            *map(made, lines.RANDOM)]


# The states of master.bin that are no file of a legal size, and some of the files
# of cases.py.
def states():
    def made(master):
        what = f'to {master.data.decode()}' if master.place == LINK else f'of {len(master.data)} bytes'
        return lambda chance: Case(f'{master.place} {what}', master, files.STATE_COMMANDS)

    return [*map(made, files.states()), *[files.stored_file] * 12]


# The blocks of each file and the questions of its faults: none, one, two, or
# None for any bytes changed. Every legal size is there; the sizes come in an order
# in which each family has small and large ones.
def file_plan():
    faults = [*[()] * 24, *[(number,) for number in files.FAULTS] * 5,
              *list(combinations(files.FAULTS, 2)) * 2, *[None] * 16]
    return [(files.SIZES[37 * k % len(files.SIZES)], questions) for k, questions in enumerate(faults)]


# The files of the plan.
def sized_files():
    def made(blocks, questions):
        if questions is None:
            return lambda chance: files.hurt_file(chance, blocks)
        return lambda chance: files.sized_file(chance, blocks, questions)

    return [made(*file) for file in file_plan()]


# Histories of tables, on covers of each length.
def tables():
    def made(maker, years):
        return lambda chance: maker(chance, years)

    return [made(maker, years) for maker, count in histories.MAKERS
            for years in histories.COVERS for _ in range(count)]


# All makers of runs. There are further mixed histories where more are asked for.
def makers():
    yield from (*examples(), *inputs(), *states(), *sized_files(), *tables())
    while True:
        yield lambda chance: histories.short_mixed(chance, chance.choice(histories.COVERS))


# The runs of a seed, in order.
def cases(seed, count=COUNT):
    for number, maker in enumerate(islice(makers(), count)):
        yield maker(Chance(f'{seed} {number}'))


# ---- What the set must have ----

# 01, Questions: the refusals of open, roll and close. 10 can't come: the program
# holds no table that is not sound. Opens of every kind, by the count of months or
# Fridays listed; rolls and closes with which one left. 02, note 2: the days stepped
# back; 5 can't come, as a Friday steps back to Monday at most, and a Thursday that
# passes Monday to the Friday before. 02, note 3: those of Fridays.
WANTED = frozenset((b'O 4', b'O 6', b'O 7', b'O 8', b'O 12', b'O 15', b'R', b'C', b'R left', b'C left', b'BAD',
                    *(b'NO %d' % number for number in (*range(1, 17), 24) if number != 10),
                    *(b'back %d' % back for back in (0, 1, 2, 3, 4, 6)),
                    *(b'weekly back %d' % back for back in (0, 1, 2, 3, 4))))


# What a line says: a refusal, BAD, the kind of an accepted call, or the days that
# a maturity stepped back; a weekly one is named by a day. None for what follows the
# last line feed.
def answer_of(line):
    words = line.split(b' ')
    if words[0] in (b'NO', b'BAD'):
        return line
    if words[0] == b'O':
        return b'O ' + words[2]
    if words[0] in (b'R', b'C'):
        return words[0] if words[3] == b'0' else words[0] + b' left'
    if not line:
        return None
    return (b'back ' if len(words[1]) == len('2008-03') else b'weekly back ') + words[3]


# The answers of an output.
def answers_in(printed):
    return {answer_of(line) for line in printed.split(b'\n')} - {None}


# Writes a run's files into a folder: master.bin and input.
def put(case, folder):
    case.master.put(folder)
    write(os.path.join(folder, 'input'), case.commands)


# Writes one run of a seed.
def main(arguments):
    if len(arguments) != 3:
        print(__doc__, file=sys.stderr)
        return 2
    seed, number, folder = arguments
    case = next(islice(cases(seed, int(number) + 1), int(number), None))
    os.makedirs(folder)
    put(case, folder)
    print(f'{folder}: {case.name}')
    return 0


if __name__ == '__main__':
    sys.exit(main(sys.argv[1:]))
