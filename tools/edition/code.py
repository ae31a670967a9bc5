"""The lines of a definition as HTML, in which the name of another definition leads to its row."""
import re
from html import escape
from pathlib import Path

USE = re.compile(r'^use Rattle\.(\w+)\.specs\.([A-Z]\w*)\.\{([^}]*)\}')
DECLARED = re.compile(r'^use Rattle\.(\w+)\.specs\.declared\.(\w+)\.\{\w+\}')
FOR_PROVER = re.compile(r'^((?:unfoldable |abbrev )?pub) ')
WORD = re.compile(r"(?<![\w'.-])[A-Za-z][\w']*(?:-\w+)*(?! =)(?![\w'-])")


class Scope:
    """The names that a file of specs may use, each with what it stands for there."""

    def __init__(self, names, crate, file):
        self.known = {}
        text = (Path(names.sources.root) / f'crates/{crate}/specs/{file}.antt').read_text(encoding='utf-8')
        for line in text.split('\n'):
            self.take_use(names, line)
        self.known.update({each.name: each for each in names.definitions if (each.crate, each.file) == (crate, file)})

    def take_use(self, names, line):
        used, declared = USE.match(line), DECLARED.match(line)
        if used:
            for name in used[3].split(','):
                found = names.by_key.get((used[1], used[2], name.strip()))
                self.known.update({name.strip(): found} if found else {})
        elif declared:
            for kind in ('struct', 'enum'):
                found = names.sources.declarations.get((declared[1], f'{kind} {declared[2]}'))
                self.known.update({declared[2]: found} if found else {})


def linked(line, own, scope, address):
    """A line with the names of other definitions as links; `address` gives the place of each."""
    done, at = [], 0
    for word in WORD.finditer(line):
        what = scope.known.get(word.group()) if word.group() != own else None
        place = address(what) if what is not None else None
        if place:
            done.append(escape(line[at:word.start()], quote=False))
            done.append(f'<a href="{place}">{word.group()}</a>')
            at = word.end()
    return ''.join(done) + escape(line[at:], quote=False)


def lines_html(lines, link):
    """Each line a paragraph, whose class is the depth at which it stands."""
    shown = []
    for line in lines:
        depth = len(line) - len(line.lstrip(' '))
        shown.append(f'<p class="i{depth}">' if depth else '<p>')
        shown.append(FOR_PROVER.sub(r'<i>\1</i> ', link(line.strip())) + '</p>')
    return '<div class="c">' + ''.join(shown) + '</div>'
