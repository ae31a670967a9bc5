"""The names that a row of docs/READING.md may use: functions, declarations, theorems and edits."""
import re
from dataclasses import dataclass
from pathlib import Path

FUNCTION = re.compile(r'^ *(?:pub(?:\(crate\))? )?(?:extern "C" )?(?:fn|const) (\w+)')
IMPL = re.compile(r'^impl(?:<[^>]*>)? (?:[^{]* for )?(\w+)')
DECLARED = re.compile(r'^(?:pub )?(struct|enum) (\w+)')
THEOREM = re.compile(r'^ *(?:(?:unfoldable|abbrev|opaque) )?(?:pub )?(?:record |data )?([^\s:({]+)[^:]* :')


@dataclass
class Declaration:
    """A struct or an enum of a crate's code, as it stands there, with its comment."""
    crate: str
    name: str
    path: str
    comment: str
    lines: list

    @property
    def key(self):
        return (self.crate, self.name)


class Sources:
    """What stands in the crates, by name; each name with the file that has it."""

    def __init__(self, root):
        self.root = Path(root)
        self.crates = sorted(path.name for path in self.root.glob('crates/*') if path.is_dir())
        self.functions = {}
        self.declarations = {}
        self.theorems = {}
        self.edits = {}
        for crate in self.crates:
            self.read_code(crate)
            self.read_proofs(crate)
            for path in sorted(self.root.glob(f'crates/{crate}/must-fail/*.edit')):
                self.edits[(crate, path.stem)] = self.relative(path)

    def relative(self, path):
        return path.relative_to(self.root).as_posix()

    def is_file(self, name):
        return (self.root / name).is_file()

    def read_code(self, crate):
        for path in sorted(self.root.glob(f'crates/{crate}/src/**/*.rt')):
            owner = ''
            lines = path.read_text(encoding='utf-8').split('\n')
            for number, line in enumerate(lines):
                impl, function, declared = IMPL.match(line), FUNCTION.match(line), DECLARED.match(line)
                if impl:
                    owner = impl.group(1) + '::'
                elif line.startswith('}'):
                    owner = ''
                elif function:
                    self.functions.setdefault((crate, owner + function.group(1)), self.relative(path))
                elif declared:
                    self.declare(crate, path, lines, number, ' '.join(declared.groups()))

    def declare(self, crate, path, lines, number, name):
        end = number
        while not lines[end].startswith('}') and not lines[end].endswith(('}', ';')):
            end += 1
        last = number
        while lines[last - 1].startswith('#['):
            last -= 1
        above = last
        while above > 0 and lines[above - 1].startswith('//'):
            above -= 1
        comment = ' '.join(line[2:].strip() for line in lines[above:last])
        self.declarations[(crate, name)] = Declaration(crate, name, self.relative(path), comment, lines[number:end + 1])
        self.functions.setdefault((crate, name.split()[1]), self.relative(path))

    def read_proofs(self, crate):
        for path in sorted(self.root.glob(f'crates/{crate}/proofs/*.antt')):
            names = self.theorems.setdefault((crate, path.stem), {})
            for line in path.read_text(encoding='utf-8').split('\n'):
                found = THEOREM.match(line)
                if found and not line.lstrip().startswith(('--', 'use ')):
                    names[found.group(1)] = self.relative(path)
