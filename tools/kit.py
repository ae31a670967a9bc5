"""The crates of crates.txt, and what rattle is told of the crates below one, where a script calls rattle itself.

python3 tools/kit.py NAME    prints these words, a line each, of the crate NAME
"""
import subprocess
import sys
from pathlib import Path

ROOT = Path(__file__).resolve().parent.parent


# Each crate of crates.txt with those that it uses, libraries of the toolchain too.
def listed(root=ROOT):
    lines = (line.split('#')[0] for line in (root / 'crates.txt').read_text(encoding='utf-8').splitlines())
    parts = (line.partition(':') for line in lines if ':' in line)
    return {head.split()[0]: used.split() for head, _, used in parts}


# Some crates and all that they use; every crate where none is named.
def reached(names, uses):
    found, rest = [], list(names or uses)
    while rest:
        name = rest.pop()
        if name in uses and name not in found:
            found.append(name)
            rest += uses[name]
    return found


def folder():
    said = subprocess.run(['rt', 'doc'], capture_output=True, text=True, check=True).stdout
    return Path(said.strip()).parent


def rlib(name, root=ROOT):
    return root / 'crates' / name / 'out' / 'rlib' / f'{name}.rlib'


# Whether a library's folder was made after a time. rt removes it before it makes it anew, and moves it as it is.
def is_since(name, time, root=ROOT):
    return (rlib(name, root) / 'format').is_file() and rlib(name, root).stat().st_mtime >= time


# What rattle check and rattle build are told of a crate, which is a library or a program.
def words(name, uses, root=ROOT):
    kit, own = folder(), root / 'crates' / name / 'src'
    below = [one for one in reached([name], uses) if one != name]
    of_kit = ['std', *(one for one in uses[name] if one not in uses)]
    said = ['--crate-name', name, str(own / ('main.rt' if (own / 'main.rt').is_file() else 'lib.rt'))]
    for one in of_kit:
        said += ['--extern', f'{one}={kit}/rlibs/{one}.rlib']
    said += ['-L', f'dependency={kit}/rlibs']
    for one in uses[name]:
        if one in uses:
            said += ['--extern', f'{one}={rlib(one, root)}']
    for one in below:
        said += ['-L', f'dependency={rlib(one, root).parent}']
    said += ['--antt-project', f'{kit}/rattle/logic/antt-project.json', '--logic-built', f'{kit}/logic_built']
    return [*said, '--links', f'{name}=']


if __name__ == '__main__':
    print(*words(sys.argv[1], listed()), sep='\n')
