"""The names in a row's cells, looked up, and the home row of each definition."""
import re
from dataclasses import dataclass, field

from . import specs
from .sources import Declaration, Sources

TOKEN = re.compile(
    r'`(?P<crate>\w+)` (?P<inside>[A-Z]\w*)(?=: `)'
    r'|`(?P<only>\w+)`(?=: `)'
    r'|\b(?P<file>[A-Z]\w*)(?=: `)'
    r'|`(?P<name>[^`]+)`'
    r'|(?P<see>\bsee\b)')


def hint(others):
    """Where the name does stand, so that a row can be put right."""
    return f' ({" and ".join(dict.fromkeys(others))} has it)' if others else ''


@dataclass
class Named:
    """A name of a cell: what it stands for, and whether the cell only mentions it."""
    text: str
    what: object
    mention: bool = False


@dataclass
class Field:
    """A field of a record, or a case of a data type."""
    definition: specs.Definition
    name: str


@dataclass
class Linked:
    """A name that stands for a file of the repository."""
    path: str


@dataclass
class Cell:
    """A cell in pieces: texts and names, in order."""
    pieces: list = field(default_factory=list)

    @property
    def names(self):
        return [piece for piece in self.pieces if isinstance(piece, Named)]


class Names:
    """All that a row may name, and the faults of the rows that were looked up."""

    def __init__(self, root):
        self.sources = Sources(root)
        self.definitions = specs.all_definitions(root)
        self.by_key = {each.key: each for each in self.definitions}
        self.files = {(each.crate, each.file) for each in self.definitions}
        self.faults = []
        self.where = ''

    def fault(self, text):
        self.faults.append(f'{self.where}: {text}')

    def cell(self, row, column, find):
        """The pieces of a cell; `find` looks a name up in a crate and a file."""
        cell, crate, file, mention, at, record = Cell(), '', '', False, 0, ''
        text = row.cells[column]
        for token in TOKEN.finditer(text):
            cell.pieces.append(text[at:token.start()])
            at = token.end()
            if token['crate'] or token['only']:
                crate, file = token['crate'] or token['only'], token['inside'] or ''
                self.known_crate(crate)
                cell.pieces.append(token.group())
            elif token['file']:
                file = token['file']
                cell.pieces.append(file)
            elif token['see']:
                mention = True
                cell.pieces.append('see')
            else:
                what = self.common(token['name']) or find(row, crate, file, token['name'], record)
                record = token['name'] if isinstance(what, specs.Definition) and what.is_record else record
                cell.pieces.append(Named(token['name'], what, mention) if what else token.group())
        cell.pieces.append(text[at:])
        return cell

    def known_crate(self, crate):
        if crate not in self.sources.crates:
            self.fault(f'there is no crate `{crate}`')

    def common(self, name):
        """What may be named in every column: a file of the repository."""
        if '/' not in name:
            return None
        if not self.sources.is_file(name):
            self.fault(f'the repository has no file `{name}`')
        return Linked(name)

    def definition(self, row, crate, file, name, record):
        """A definition, a field of one, or a declaration of the code."""
        if name.startswith(('struct ', 'enum ')):
            found = self.sources.declarations.get((crate, name))
            return found or self.fault(f'no `{name}` in the code of `{crate}`')
        if not file and name in self.sources.crates:
            return Linked(f'crates/{name}')
        if not file:
            return self.fault(f'definition `{name}` stands without its crate and file')
        found = self.by_key.get((crate, file, name)) or self.field(crate, file, name, record)
        others = [each.path for each in self.definitions if each.name == name or name in each.fields]
        return found or self.fault(f'definition `{name}` does not exist in crates/{crate}/specs/{file}.antt{hint(others)}')

    def field(self, crate, file, name, record):
        owners = [each for each in self.definitions if (each.crate, each.file) == (crate, file) and name in each.fields]
        preferred = [each for each in owners if each.name == record] or owners
        if len(preferred) > 1:
            self.fault(f'field `{name}` is one of {" and ".join(each.name for each in preferred)}: name the record before it')
        return Field(preferred[0], name) if preferred else None

    def function(self, row, crate, file, name, record):
        """A function, method, constant or declaration; without a crate, of one of the row's crates."""
        if name in self.sources.crates:
            return Linked(f'crates/{name}')
        plain = name.removeprefix('struct ').removeprefix('enum ')
        first, _, rest = plain.partition('::')
        places = [(first, rest)] if first in self.sources.crates and rest else [(each, plain) for each in row.crates]
        for place in places:
            if place in self.sources.functions:
                return Linked(self.sources.functions[place])
        crates = ' and '.join(sorted({f'`{place[0]}`' for place in places})) or 'any crate that the row names'
        others = [path for (_, each), path in self.sources.functions.items() if each == (rest or plain)]
        return self.fault(f'function `{name}` does not exist in {crates}{hint(others)}')

    def theorem(self, row, crate, file, name, record):
        """A theorem of a file of proofs, or a definition or field of the file of specs with that name."""
        for each in [crate] if crate else row.crates:
            if name in self.sources.theorems.get((each, file), {}):
                return Linked(self.sources.theorems[(each, file)][name])
            found = self.by_key.get((each, file, name)) or (each, file) in self.files and self.field(each, file, name, record)
            if found:
                return found
        if name in self.sources.crates:
            return Linked(f'crates/{name}')
        crates = ' or '.join([crate] if crate else row.crates)
        others = [found[name] for found in self.sources.theorems.values() if name in found]
        return self.fault(f'theorem `{name}` does not exist in {file or "a file"} of {crates or "any crate that the row names"}{hint(others)}')

    def edit(self, row, crate, file, name, record):
        """An edit that must fail."""
        if (crate, name) in self.sources.edits:
            return Linked(self.sources.edits[(crate, name)])
        others = [path for (_, each), path in self.sources.edits.items() if each == name]
        return self.fault(f'edit `{name}` does not exist in crates/{crate or "?"}/must-fail{hint(others)}')

    def look_up(self, row, reading):
        """Gives a row the pieces of its cells, and the crates that its definition column names."""
        self.where = f'{reading}, line {row.line}'
        row.crates = []
        row.found = {'definition': self.cell(row, 'definition', self.definition)}
        row.crates = list(dict.fromkeys(found for found in re.findall(r'`(\w+)`', row.cells['definition']) if found in self.sources.crates))
        for column in ('function', 'theorem', 'edit'):
            row.found[column] = self.cell(row, column, getattr(self, column))


class Homes:
    """The row at which each definition and declaration stands, and each field that has a row of its own."""

    def __init__(self, pages):
        self.rows = {}
        self.fields = {}
        for row in (row for page in pages for row in page.rows):
            for named in row.found['definition'].names:
                if isinstance(named.what, (specs.Definition, Declaration)) and not named.mention:
                    self.rows.setdefault(named.what.key, row)
        for row in (row for page in pages for row in page.rows):
            for named in row.found['definition'].names:
                self.take_field(row, named)

    def take_field(self, row, named):
        if not isinstance(named.what, Field) or named.mention:
            return
        home = self.rows.get(named.what.definition.key)
        if home is not None and home.page is row.page and home is not row:
            self.fields.setdefault((named.what.definition.key, named.what.name), row)

    def of(self, what):
        """The row to which a name leads."""
        if isinstance(what, Field):
            return self.fields.get((what.definition.key, what.name)) or self.rows.get(what.definition.key)
        return self.rows.get(what.key)
