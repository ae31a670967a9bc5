"""The sheet PROVED.txt: every number is counted in target/log (tools/built), in the gate's mark or in the folders of edits."""
import re
import textwrap
from typing import NamedTuple

from .checkout import PROGRAMS, Stop
from .machine import taken

AXIOMS = re.compile(r'^axioms (\w+): (.*?)(?:, \.\.\.)? \((\d+) of the \d+ declared\)$', re.M)
EDIT = re.compile(r'crates/(\w+)/must-fail/([^/]+)\.edit')
REFUSED = 'refused, as it must be'
PROVED, KEPT = 'proved', 'kept'  # by this run; by an earlier one on the same machine, of the same files
LIBRARY = 'scullpouch_c'  # the crate of the archive


class Proved(NamedTuple):
    """What the prover's log says of a crate."""
    functions: int  # 0 where the log has no number
    logic: str  # the sum of the logic by which it was proved, or ''
    axioms: list  # (library, the names that the log has, how many there are)
    said: bool  # whether the log has the proof, and not only that an earlier run made it


# The crates of crates.txt.
def crates(checkout):
    return re.findall(r'^(\w+)(?: [\w=+ ]+)?:', checkout.text('crates.txt'), re.M)


# What the log has of a crate's proof; None where it has none.
def log_of(checkout, crate):
    folder = checkout.root / 'target' / 'log'
    log, result = folder / f'{crate}.say', folder / f'{crate}.res'
    came = result.read_text().strip() if log.is_file() and result.is_file() else ''
    if came == KEPT:
        return Proved(0, '', [], False)
    if came != PROVED:
        return None
    text = log.read_text(encoding='utf-8')
    last = re.search(r'^logic=proved functions=(\d+) .*?sum=(\w+)', text, re.M)
    axioms = [(library, names.split(', '), int(count)) for library, names, count in AXIOMS.findall(text)]
    return last and Proved(int(last[1]), last[2], axioms, True)


def logs(checkout):
    found = {crate: log_of(checkout, crate) for crate in crates(checkout)}
    missing = [crate for crate, log in found.items() if not log]
    if checkout.mark and missing:
        raise Stop(f'target/log does not say that {missing[0]} is proved: run .ci/run again')
    return found


# The edits that the gate saw refused, and all that there are.
def edits(checkout):
    found = (EDIT.fullmatch(name) for name in checkout.files('crates'))
    there = {f'{edit[1]}/{edit[2]}' for edit in found if edit}
    refused = {name for name, said in checkout.mark.edits if said.startswith(REFUSED)} if checkout.mark else set()
    if checkout.mark and there - refused:
        raise Stop(f'target/passed does not say that the edit {min(there - refused)} was refused: run .ci/run again')
    return len(there & refused), len(there)


# The words of a document without its marks, nor links that are only there to be followed.
def plain(text):
    text = re.sub(r' \(\[details\]\([^)]*\)\)', '', text)
    return re.sub(r'\[([^\]]*)\]\([^)]*\)', r'\1', text).replace('`', '').replace('**', '')


# The lines of a list in a section of a document.
def bullets(text, heading):
    part = re.search(rf'^## {re.escape(heading)}\n(.*?)(?=^#|\Z)', text, re.M | re.S)
    if not part:
        raise Stop(f'no document has the section {heading!r}, which PROVED.txt quotes')
    return [plain(line) for line in re.findall(r'^- (.*)$', part[1], re.M)]


def wrapped(lines):
    return [textwrap.fill(line, 118, initial_indent='- ', subsequent_indent='  ', break_long_words=False, break_on_hyphens=False)
            for line in lines]


def head(checkout, found):
    kit = checkout.kit + ('' if checkout.mark else ' (as the checkout names it)')
    logic = sorted({log.logic for log in found.values() if log and log.said})
    doubt = '' if checkout.mark else ' on this commit: the numbers below are those of what target/ had, of whatever commit that was'
    return [f'Scullpouch {checkout.version}', '', f'{checkout.verdict.capitalize()}{doubt}.', '', f'commit: {checkout.commit}',
            f'kit: {kit}', f'logic of the proofs: {", ".join(logic) or "none"}']


def counts(checkout, found):
    proved = [log for log in found.values() if log]
    said = [log for log in proved if log.said]
    earlier = len(proved) - len(said)
    kept = f' in {len(said)} of them; {earlier} were proved by earlier runs of the same files on the same machine' if earlier else ''
    refused, there = edits(checkout)
    return [f'crates proved: {len(proved)} of {len(found)}', f'functions proved: {sum(log.functions for log in said)}{kept}',
            f'wrong programs (edits) that the prover refused: {refused} of {there}']


# What is assumed of a library: the names that the log has, and how many it leaves out.
def named(library, names, count):
    more = f' and {count - len(names)} more of {library}' if count > len(names) else ''
    return ', '.join(names) + more


def assumed(log):
    if not log or not log.said:
        return 'no log' if not log else 'proved by an earlier run, which named them'
    return '; '.join(named(*one) for one in log.axioms) or 'none'


def axioms(checkout, found):
    shared = checkout.built(f'staticlib/{checkout.shared_object}')
    called = sorted({name for program in PROGRAMS for name in taken(checkout.built(f'programs/{program}'))})
    lines = [f'{crate}: {assumed(found[crate])}' for crate in (*PROGRAMS, LIBRARY)]
    return ['C functions whose contracts are assumed, as the logs name them (scullpouch_c is the library for other languages):',
            *wrapped([*lines, f'what the built programs take of the C library: {", ".join(called)}',
                      f'what the shared object takes of it: {", ".join(sorted(taken(shared))) or "nothing"}'])]


PACKED = ('These packages: the command scullpouch, which is a shell script, the link of the shared object, and what is put where. '
          'They are tested.')


def text(checkout):
    found = logs(checkout)
    readme, reading = checkout.text('README.md'), checkout.text('docs/READING.md')
    where = '' if checkout.mark else ', where the gate passes'
    parts = (head(checkout, found), counts(checkout, found), axioms(checkout, found),
             [f'What is proved and what is not{where}:', *wrapped(bullets(readme, 'What is proved and what is not'))],
             ['What has to be believed besides:', *wrapped(bullets(reading, 'What has to be believed besides'))],
             ['Not proved either:', *wrapped([PACKED])])
    return '\n\n'.join('\n'.join(part) for part in parts) + '\n'
