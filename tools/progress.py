"""Shows what rt is at: reads rt's output from standard input while rt works, and
prints a line for each crate and each must-fail edit that is done, of how many.

rt ci 2>&1 | python3 tools/progress.py
rt ci NAME.. 2>&1 | python3 tools/progress.py NAME..
(cd crates/NAME && rt run 2>&1) | python3 tools/progress.py --new NAME..

A crate's own lines (its functions, its errors) are left out. rt's other lines are
printed as they are. With --new, which is for rt run, rt lib and rt check, a line is
printed only for a crate that is proved now, with the time so far and how many crates
there can still be, and for what went wrong: nothing where all was proved before.
"""

import glob
import os
import re
import sys
import time

# As a module of tests/unit this file is tools.progress, and the folder tools is not searched.
sys.path.append(os.path.dirname(os.path.abspath(__file__)))
import kit

ROOT = str(kit.ROOT)
CRATE = re.compile(r'rt: (\w+ (?:proved|NOT PROVED.*|is kept)\b)')
EDIT = re.compile(r'rt: must-fail ([^:]+?)(?:\.edit)?: (.*)')
REFUSED = re.compile(r'refused, as it must be(?: \((only [^,(:]*)[^)]*\))?(?:: .*)?$')
# What rt run, rt lib and rt check print of a crate: what they begin with, and the verdict.
BEGUN = re.compile(r'rt: chose --jobs \d+ for (\w+)$')
VERDICT = re.compile(r'logic=(proved|not-proved)\b')
WRONG = re.compile(r'rt: .*(FAILED|NOT PROVED|failed|did not build|mend these first|was killed|disk is full)')


# Some crates and all that they use; every crate where none is named.
def reached(names):
    return set(kit.reached(names, kit.listed()))


# The number of must-fail edits of some crates.
def edits(names):
    return sum(len(glob.glob(os.path.join(ROOT, 'crates', name, 'must-fail', '*.edit'))) for name in names)


# What became of an edit, in short where it was refused.
def outcome(text):
    return REFUSED.sub(lambda found: f'refused ({found[1].strip()})' if found[1] else 'refused', text)


# Seconds as minutes and seconds.
def minutes(seconds):
    return '%d:%02d' % divmod(int(seconds), 60)


# The lines to show for the lines of rt ci; clock tells the time.
def shown(lines, crate_count, edit_count, clock=time.monotonic):
    begun, proved, tried = clock(), 0, 0
    for line in lines:
        crate, edit = CRATE.match(line), EDIT.match(line)
        if crate:
            proved += 1
            yield f'{proved} of {crate_count} crates: {crate[1]}; {minutes(clock() - begun)} so far'
        elif edit:
            tried += 1
            yield f'{tried} of {edit_count} edits: {edit[1]} {outcome(edit[2])}'
        elif line.startswith('rt: '):
            yield line.rstrip('\n')


# The lines to show for the lines of rt run, rt lib or rt check, where only what is new is shown; clock tells the time.
def shown_new(lines, crate_count, clock=time.monotonic):
    begun, done, name = clock(), 0, ''
    for line in lines:
        start, verdict = BEGUN.match(line), VERDICT.match(line)
        if start:
            name = start[1]
        elif verdict and name:
            done += 1
            what = 'proved' if verdict[1] == 'proved' else 'NOT PROVED'
            yield f'{name} {what}; {minutes(clock() - begun)} so far, at most {crate_count - done} left'
        elif WRONG.match(line):
            yield line.rstrip('\n')


def main(arguments):
    sys.stdin.reconfigure(errors='replace')
    sys.stdout.reconfigure(errors='replace')
    new = '--new' in arguments
    wanted = reached([name for name in arguments if name != '--new'])
    lines = shown_new(sys.stdin, len(wanted)) if new else shown(sys.stdin, len(wanted), edits(wanted))
    for line in lines:
        print(line, flush=True)


if __name__ == '__main__':
    main(sys.argv[1:])
