"""The definitions of crates/*/specs, as they stand there, each with its comment."""
import re
from dataclasses import dataclass, field
from pathlib import Path

DEFINITION = re.compile(r'^( *)(?:(?:unfoldable |abbrev )pub |pub (?:record|data) )(\S+)')
FIELD = re.compile(r'^ +(?:pub )?((?:[^\s:]+ )*[^\s:]+) :')
COMMENT = re.compile(r'^ *-- ?(.*)$')


@dataclass
class Part:
    """Some lines of a definition, and the comment over them."""
    comment: str
    lines: list
    names: list = field(default_factory=list)


@dataclass
class Definition:
    """A definition: its first part has the comment over it, the others the comments within it."""
    crate: str
    file: str
    name: str
    parts: list
    is_record: bool

    @property
    def fields(self):
        return [name for part in self.parts for name in part.names]

    @property
    def path(self):
        return f'crates/{self.crate}/specs/{self.file}.antt'

    @property
    def key(self):
        return (self.crate, self.file, self.name)


def comment_of(line):
    found = COMMENT.match(line)
    return found.group(1).strip() if found else None


def blocks_of(text):
    """The runs of lines of a file that begin with a comment or a definition, up to the next one."""
    block = []
    for line in text.split('\n'):
        starts = DEFINITION.match(line) and not inside(block, line)
        if starts or not line.strip():
            comments = trailing_comments(block) if starts else []
            if len(comments) < len(block):
                yield block[:len(block) - len(comments)]
            block = comments
        if line.strip():
            block.append(line)
    if block:
        yield block


def inside(block, line):
    """A line that begins a definition is a field where it stands deeper than the definition of its block."""
    first = next((DEFINITION.match(each) for each in block if DEFINITION.match(each)), None)
    return first is not None and len(DEFINITION.match(line).group(1)) > len(first.group(1))


def trailing_comments(block):
    count = 0
    while count < len(block) and comment_of(block[len(block) - 1 - count]) is not None:
        count += 1
    return block[len(block) - count:]


def names_in(line, is_record):
    """The fields that a line of a record declares, or the cases that one of a data type does."""
    found = FIELD.match(line)
    if not is_record or not found:
        return []
    names = found.group(1).split()
    return [] if '→' in names or '(' in found.group(1) else names


def parts_of(lines, is_record):
    """The lines under each comment; the margin of the first line is taken off."""
    margin = len(lines[0]) - len(lines[0].lstrip()) if lines else 0
    parts = [Part('', [])]
    for line in lines:
        comment = comment_of(line)
        if comment is None:
            parts[-1].lines.append(line[margin:])
            parts[-1].names += names_in(line, is_record) if parts[-1].lines[:-1] or len(parts) > 1 else []
        elif parts[-1].lines:
            parts.append(Part(comment, []))
        else:
            parts[-1].comment = (parts[-1].comment + ' ' + comment).strip()
    return parts


def definitions_in(path, crate):
    """The definitions of a file; a block without one is the head of the file or of a module."""
    for block in blocks_of(path.read_text(encoding='utf-8')):
        start = next((DEFINITION.match(line) for line in block if DEFINITION.match(line)), None)
        if start is None:
            continue
        lines = [line for line in block if not line.startswith(('use ', 'module '))]
        is_record = any(re.match(r'^ *pub (record|data) ', line) for line in lines)
        yield Definition(crate, path.stem, start.group(2), parts_of(lines, is_record), is_record)


def all_definitions(root):
    """Every definition of crates/*/specs, in the order of crates, files and lines."""
    found = []
    for path in sorted(Path(root).glob('crates/*/specs/*.antt')):
        if path.stem != 'Lib':
            found += definitions_in(path, path.parts[-3])
    return found


def stray_blocks(root):
    """Lines of the specs that are neither a definition nor the head of a file or module: a line for each."""
    for path in sorted(Path(root).glob('crates/*/specs/*.antt')):
        for block in blocks_of(path.read_text(encoding='utf-8')):
            stray = [line for line in block if not re.match(r'^ *(--|use |module |pub mod )', line)]
            if stray and not any(DEFINITION.match(line) for line in block):
                yield f'{path.relative_to(root).as_posix()}: no definition that the reading edition knows: {stray[0].strip()}'


def library_words(root):
    """The words that the specs use from the toolchain's libraries, each with the first file that does."""
    words, crates = {}, {path.name for path in Path(root).glob('crates/*')}
    for path in sorted(Path(root).glob('crates/*/specs/*.antt')):
        for library, names in re.findall(r'^use Rattle\.(\w+)\.\S+\{([^}]*)\}', path.read_text(encoding='utf-8'), re.MULTILINE):
            for name in names.split(',') if library not in crates else ():
                words.setdefault(name.strip().strip('◌'), path.relative_to(root).as_posix())
    return words
