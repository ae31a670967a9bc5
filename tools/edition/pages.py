"""The pages of the reading edition as HTML."""
import base64
import hashlib
import re
from html import escape
from itertools import groupby

from . import days
from .code import Scope, lines_html, linked
from .names import Field, Linked, Named
from .rows import Plain, Row
from .sources import Declaration
from .specs import Definition, names_in

FOLDER = 'docs/reading'
STYLE = 'reading.css'
SCRIPT = 'ticks.js'
NAMES = 'names.html'
NAMES_TITLE = 'Names and their rows'
LINK = f'<link rel="stylesheet" href="{STYLE}">\n<script src="{SCRIPT}" defer></script>'
BOX = '<input type="checkbox">'
TICKS = '<p class="ticks"></p>\n'
PICTURE = re.compile(r'!\[([^\]]+)\]\(([^)]+)\)')
TITLE = 'Scullpouch: the reading edition'
QUESTION = re.compile(r"(?:^|; |'; )(\d{1,2})(?=: '| '|, of )")
DOCUMENTS = {'Document 01': 'document 01', 'Document 02': 'document 02'}


def slug(title):
    return re.sub(r'[^a-z0-9]+', '-', title.lower()).strip('-')


def file_of(page):
    return 'index.html' if page.part == 'The first page' else slug(page.title) + '.html'


def inline(text):
    """A text with what stands in back quotes as code, and with its links."""
    parts = re.split(r'`([^`]+)`', text)
    shown = ''.join(f'<code>{escape(part, quote=False)}</code>' if place % 2 else escape(part, quote=False)
                    for place, part in enumerate(parts))
    return re.sub(r'\[([^\]]+)\]\(([^)]+)\)', lambda link: f'<a href="{from_page(link[2])}">{link[1]}</a>', shown)


def from_page(target):
    """A link of docs/READING.md as it is on a page of docs/reading."""
    return target.removeprefix('reading/') if target.startswith('reading/') else '../' + target


def shown_picture(item):
    """A line that is a picture, as HTML; None for another."""
    found = PICTURE.fullmatch(item)
    return f'<p class="picture"><img src="{from_page(found[2])}" alt="{escape(found[1])}"></p>\n' if found else None


def said(text, boxed):
    """A text as a paragraph, with a box to tick where it is a sentence of a paper."""
    if not text:
        return ''
    return f'<p><label>{BOX} {inline(text)}</label></p>' if boxed and text.startswith("'") else f'<p>{inline(text)}</p>'


def plain(html):
    """The words of a sentence, however it is quoted."""
    return re.sub(r"<[^>]*>|[':\s]", '', html)


def questions_in(comment):
    return [number for number in QUESTION.findall(comment) if 1 <= int(number) <= 31]


class Press:
    """Makes the pages of a book."""

    def __init__(self, book):
        self.book = book
        self.homes = book.homes
        self.scopes = {}
        self.said = set()
        names = [each.name for each in book.names.definitions]
        self.double = {name for name in names if names.count(name) > 1}

    # places and links

    def anchor(self, what):
        """The mark at which a definition, a field or a declaration stands on its page."""
        if isinstance(what, Field):
            return f'{self.anchor(what.definition)}.{what.name}'
        if isinstance(what, Declaration):
            return f'{what.crate}-{slug(what.name)}'
        return f'{what.crate}-{what.name}' if what.name in self.double else what.name

    def address(self, what, page):
        """Where a name leads, from a page."""
        if isinstance(what, Linked):
            return f'../../{what.path}'
        home = self.homes.of(what)
        if home is None:
            return None
        shown = what
        if isinstance(what, Field) and (what.definition.key, what.name) not in self.homes.fields:
            shown = what.definition
        return ('' if file_of(home.page) == file_of(page) else file_of(home.page)) + '#' + self.anchor(shown)

    def other_row(self, piece, row):
        """The row where a name of a cell stands, if that is another."""
        home = None if isinstance(piece.what, Linked) else self.homes.of(piece.what)
        return home if home is not row else None

    def named(self, piece, after, row):
        """A name of a cell: a link, and the number of the row where it stands, unless the name after it has the same."""
        code = f'<code>{escape(piece.text, quote=False)}</code>'
        place = self.address(piece.what, row.page)
        home = self.other_row(piece, row)
        same = after is not None and self.other_row(after, row) is home
        return (f'<a href="{place}">{code}</a>' if place else code) + (f' (row {home.label})' if home is not None and not same else '')

    def pieces(self, pieces, row):
        """Texts and names as HTML."""
        shown = []
        for place, piece in enumerate(pieces):
            after = next((each for each in pieces[place + 1:] if isinstance(each, Named)), None)
            shown.append(inline(piece) if isinstance(piece, str) else self.named(piece, after, row))
        return ''.join(shown).strip()

    # definitions

    def code(self, lines, definition, page):
        key = (definition.crate, definition.file)
        if key not in self.scopes:
            self.scopes[key] = Scope(self.book.names, *key)
        return lines_html(lines, lambda line: linked(line, definition.name, self.scopes[key], lambda what: self.address(what, page)))

    def pairs_of(self, definition, row):
        """A definition at its home: each of its parts with its comment; fields with a row of their own are left out."""
        pairs = []
        for place, part in enumerate(definition.parts):
            shown = [lines for names, lines in grouped(part, definition) if not any((definition.key, name) in self.homes.fields for name in names)]
            lines = [line for group in shown for line in group]
            if lines:
                mark = self.anchor(definition) if place == 0 else None
                pairs.append(self.pair(part.comment, lines, definition, row.page, mark, boxed=place > 0))
        return pairs

    def field_pair(self, fields, row):
        """Fields of one part that have a row of their own, with the part's comment where the page has not yet said it."""
        definition, part = fields[0].definition, part_with(fields[0])
        again = (definition.key, part.comment)
        comment = '' if again in self.said else part.comment
        self.said.add(again)
        lines = {name: group for names, group in grouped(part, definition) for name in names}
        code = ''.join(self.code(lines[each.name], definition, row.page).replace('<div class="c"', f'<div class="c" id="{self.anchor(each)}"')
                       for each in fields)
        return None, said(comment, False), code

    def pair(self, comment, lines, definition, page, mark, boxed=False):
        """Left a comment with its place, right the lines under it; a sentence within a definition has a box."""
        source = f'<a href="../../{definition.path}">{definition.crate}, {definition.file}</a>' if mark else ''
        asked = ''.join(f', question {number}' for number in questions_in(comment)) if source else ''
        left = said(comment, boxed) + (f'<p class="from">{source}{asked}</p>' if source else '')
        dates = days.written_in(lines)
        right = self.code(lines, definition, page) + ('<p class="days">' + '; '.join(dates) + '</p>' if dates else '')
        return mark, left, right

    def declared_pair(self, what):
        left = said(what.comment, False) + f'<p class="from"><a href="../../{what.path}">{what.crate}, the code</a></p>'
        return self.anchor(what), left, lines_html(what.lines, lambda line: escape(line, quote=False))

    # rows

    def pairs(self, row):
        """What stands in a row: definitions whose home it is, and fields that have it as their own."""
        pairs, seen = [], set()
        for part, group in groupby((named.what for named in row.found['definition'].names), lambda what: self.own_part(what, row)):
            group = list(group)
            if part is not None:
                pairs.append(self.field_pair(group, row))
                continue
            for what in group:
                if isinstance(what, (Definition, Declaration)) and self.homes.of(what) is row and what.key not in seen:
                    seen.add(what.key)
                    pairs += [self.declared_pair(what)] if isinstance(what, Declaration) else self.pairs_of(what, row)
        return pairs

    def own_part(self, what, row):
        """Of a field that has the row as its own: the record and the place of its part there."""
        if not isinstance(what, Field) or self.homes.fields.get((what.definition.key, what.name)) is not row:
            return None
        return what.definition.key, what.definition.parts.index(part_with(what))

    def note(self, row):
        """What the definition cell says beside the definitions that stand in the row."""
        kept = [clause for clause in clauses(row.found['definition'].pieces) if not self.is_list(clause, row)]
        shown = '; '.join(self.pieces(clause, row) for clause in kept)
        return f'<p class="note">{shown}</p>' if shown else ''

    def is_list(self, clause, row):
        """A clause that only names what stands in the row."""
        words = ''.join(piece if isinstance(piece, str) else '' for piece in clause)
        names = [piece for piece in clause if isinstance(piece, Named)]
        free = re.sub(r'`\w+`( [A-Z]\w*)?: ?|[A-Z]\w*: ?|[,\s]|\band\b', '', words)
        own = all(not isinstance(piece.what, Linked) and self.homes.of(piece.what) is row and not piece.mention for piece in names)
        return not free and own

    def sentences(self, row):
        text = row.cells['sentence']
        parts = re.split(r"(?<='); (?=')", text)
        return ''.join(said(part, True).replace('<p>', '<p class="s">', 1) for part in parts)

    def place(self, row):
        """Document, heading and question of a row."""
        page = row.page
        if page.part == 'The first page':
            return f'<p class="place"><b>{row.label}</b></p>'
        asked = re.findall(r"(?:^|'; )'?(?:Checks: )?(\d{1,2})(?:,[^':]*)?[: ][^\d]", row.cells['sentence']) if re.search('^Questions|^Note', page.title) else []
        numbers = ''.join(f', question {number}' for number in asked if 1 <= int(number) <= 31)
        document = DOCUMENTS.get(page.part)
        return f'<p class="place"><b>{row.label}</b> {document + ", " if document else ""}{escape(page.title)}{numbers}</p>'

    def under(self, row):
        """Function, theorem and edit, closed until opened."""
        lists = ''.join(f'<dt>{column}</dt><dd>{self.pieces(row.found[column].pieces, row)}</dd>'
                        for column in ('function', 'theorem', 'edit') if row.cells[column])
        return f'<details><summary>function, theorem, edit</summary><dl>{lists}</dl></details>' if lists else ''

    def row(self, row):
        pairs = self.pairs(row)
        head = self.place(row) + self.sentences(row)
        if pairs:
            mark, left, right = pairs[0]
            if plain(left.partition('</p>')[0]) == plain(self.sentences(row)):
                left = left.partition('</p>')[2]
            pairs = [(mark, head + left, self.note(row) + right)] + pairs[1:]
        else:
            pairs = [(None, head, self.note(row))]
        shown = ''.join(f'<div class="pair"{f" id={chr(34)}{mark}{chr(34)}" if mark else ""}><div class="l">{left}</div><div class="r">{right}</div></div>\n'
                        for mark, left, right in pairs)
        return f'<section id="r{row.label}">\n{self.with_ticks(shown, row)}{self.under(row)}</section>\n'

    def with_ticks(self, shown, row):
        """The boxes of a row, each with the name under which its tick is kept."""
        name = tick_name(row)
        count = iter(range(1, shown.count(BOX) + 1))
        return re.sub(re.escape(BOX), lambda box: f'{BOX[:-1]} data-tick="{name}-{next(count)}">', shown)

    # pages

    def items(self, page):
        shown, listed = [], []
        for item in page.items + ['']:
            if isinstance(item, str) and item.startswith('- '):
                listed.append(f'<li>{inline(item[2:])}</li>')
                continue
            if listed:
                shown.append('<ul>' + '\n'.join(listed) + '</ul>\n')
                listed = []
            if isinstance(item, Row):
                shown.append(self.row(item))
            elif isinstance(item, Plain):
                shown.append(plain_table(item))
            elif item:
                shown.append(shown_picture(item) or f'<p class="text">{inline(item)}</p>\n')
        return ''.join(shown)

    def body(self, page):
        self.said = set()
        kind = DOCUMENTS.get(page.part, '')
        head = f'<h1>{page.number}. {escape(page.title)}</h1>\n' + (f'<p class="text">{kind.capitalize()}</p>\n' if kind else '')
        return head + self.items(page)

    def picture_inside(self, found):
        """A picture's file within the page, for the edition in one file."""
        file = self.book.root / 'docs' / found[1]
        return f'src="data:image/svg+xml;base64,{base64.b64encode(file.read_bytes()).decode("ascii")}"'

    def page(self, page):
        place = self.book.pages.index(page)
        before = self.book.pages[place - 1] if place else None
        after = self.book.pages[place + 1] if place + 1 < len(self.book.pages) else None
        turns = ['<a href="index.html">first page</a>']
        turns += [f'<a href="{file_of(before)}">before: {escape(before.title)}</a>'] if before else []
        turns += [f'<a href="{file_of(after)}">after: {escape(after.title)}</a>'] if after else []
        turns += [f'<a href="{NAMES}">names</a>']
        nav = f'<nav>{" ".join(turns)}</nav>\n'
        return whole(f'{page.title} – {TITLE}', LINK, nav + self.body(page) + TICKS + nav)

    def contents(self):
        shown, part = ['<h2>Contents</h2>\n'], None
        for page in self.book.pages:
            if page.part != part:
                shown.append(('</ol>\n' if part else '') + f'<h3>{escape(page.part)}</h3>\n<ol start="{page.number}">\n')
                part = page.part
            count = f'{len(page.rows)} rows' if len(page.rows) != 1 else '1 row'
            shown.append(f'<li><a href="{file_of(page)}">{escape(page.title)}</a>, {count}</li>\n')
        return ''.join(shown) + f'</ol>\n<p><a href="{NAMES}">{NAMES_TITLE}</a></p>\n'

    def names_body(self):
        """Every definition and declaration by its name, with the row where it stands."""
        found = self.book.names.definitions + [each for each in self.book.names.sources.declarations.values() if each.key in self.homes.rows]
        lines = []
        for what in sorted(found, key=lambda each: (each.name.split()[-1].lower(), each.crate)):
            row = self.homes.rows[what.key]
            crate = f' ({what.crate})' if what.name in self.double else ''
            lines.append(f'<li><a href="{file_of(row.page)}#{self.anchor(what)}">{what.name}</a>{crate} {row.label}</li>\n')
        return f'<h1>{NAMES_TITLE}</h1>\n<ul class="names">\n' + ''.join(lines) + '</ul>\n'

    def first_body(self):
        shown = [f'<h1>{TITLE}</h1>\n']
        for place, page in enumerate(self.book.first):
            shown.append(f'<h2>{escape(page.title)}</h2>\n{self.items(page)}')
            if place == 0:
                shown.append(self.contents())
        return ''.join(shown)

    def all(self):
        """Every page by the name of its file."""
        made = {'index.html': whole(TITLE, LINK, self.first_body() + TICKS)}
        for page in self.book.pages:
            made[file_of(page)] = self.page(page)
        made[NAMES] = whole(f'{NAMES_TITLE} – {TITLE}', LINK, '<nav><a href="index.html">first page</a></nav>\n' + self.names_body())
        return made

    def one_file(self, style, script):
        """All pages as one, with the style sheet, the script and the pictures in it, for a print of the whole."""
        bodies = [self.first_body()] + [self.body(page) for page in self.book.pages] + [self.names_body()]
        body = re.sub(r'href="[^"#]+#', 'href="#', ''.join(bodies))
        body = re.sub(r'<a href="[^"#]+">(.*?)</a>', r'\1', body)
        body = re.sub(r'src="\.\./(pictures/[^"]+)"', self.picture_inside, body)
        return whole(TITLE, f'<style>\n{style}</style>', f'{body}{TICKS}<script>\n{script}</script>\n')


def tick_name(row):
    """A name of what stands in a row: another where its page, its sentence or the text of a definition that it names is another."""
    text = [row.page.title, row.cells['sentence']] + [line for named in row.found['definition'].names for line in text_of(named.what)]
    return hashlib.sha256('\n'.join(text).encode('utf-8')).hexdigest()[:16]


def text_of(what):
    """The lines of a definition or declaration with their comments, or the name of a file."""
    if isinstance(what, Field):
        return [what.name] + text_of(what.definition)
    if isinstance(what, Definition):
        return [line for part in what.parts for line in [part.comment] + part.lines]
    return [what.comment] + what.lines if isinstance(what, Declaration) else [what.path]


def part_with(field):
    return next(part for part in field.definition.parts if field.name in part.names)


def grouped(part, definition):
    """The lines of a part by the fields that they declare; lines before the first field have none."""
    groups = []
    for line in part.lines:
        names = names_in(line, definition.is_record)
        if names or not groups:
            groups.append((names, [line]))
        else:
            groups[-1][1].append(line)
    return groups


def clauses(pieces):
    """The clauses of a cell, parted by semicolons."""
    parted = [[]]
    for piece in pieces:
        if isinstance(piece, str):
            first, *rest = re.split(r'; ', piece)
            parted[-1].append(first)
            parted += [[each] for each in rest]
        else:
            parted[-1].append(piece)
    return [clause for clause in parted if any(not isinstance(piece, str) or piece.strip() for piece in clause)]


def plain_table(table):
    head = ''.join(f'<th>{inline(cell)}</th>' for cell in table.head)
    rows = ''.join('<tr>' + ''.join(f'<td>{inline(cell)}</td>' for cell in cells) + '</tr>\n' for cells in table.rows)
    return f'<table>\n<tr>{head}</tr>\n{rows}</table>\n'


def whole(title, style, body):
    return (f'<!DOCTYPE html>\n<html lang="en">\n<head>\n<meta charset="utf-8">\n'
            f'<meta name="viewport" content="width=device-width, initial-scale=1">\n<title>{escape(title)}</title>\n'
            f'{style}\n</head>\n<body>\n{body}</body>\n</html>\n')
