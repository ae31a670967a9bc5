"""docs/READING.md with its names looked up: the pages, and all faults of it."""
import re
from pathlib import Path

from .names import Homes, Linked, Names
from .rows import Plain, Reader
from .specs import library_words, stray_blocks

READING = 'docs/READING.md'


class Book:
    """The pages in order, each with its rows and a number."""

    def __init__(self, root):
        reader = Reader(READING, (Path(root) / READING).read_text(encoding='utf-8'))
        self.root = Path(root)
        self.names = Names(root)
        self.first = [page for page in reader.pages if page.part == 'The first page']
        self.pages = [page for page in reader.pages if page.part != 'The first page']
        self.number()
        for row in (row for page in self.all_pages() for row in page.rows):
            self.names.look_up(row, READING)
        self.homes = Homes(self.all_pages())
        self.faults = reader.faults + self.names.faults + list(self.without_a_row())
        self.faults += list(self.not_explained()) + list(stray_blocks(root))

    def all_pages(self):
        return self.first + self.pages

    def number(self):
        """Pages count from 1, rows from 1 on each page; the rows of the first page are counted as one page, 0."""
        for number, page in enumerate(self.pages, start=1):
            page.number = number
            for place, row in enumerate(page.rows, start=1):
                row.number = place
        for place, row in enumerate((row for page in self.first for row in page.rows), start=1):
            row.number = place

    def without_a_row(self):
        """The definitions and the edits that no row names."""
        for each in self.names.definitions:
            if each.key not in self.homes.rows:
                yield f'{each.path}: definition `{each.name}` has no row in {READING}'
        named = {piece.what.path for page in self.all_pages() for row in page.rows
                 for piece in row.found['edit'].names if isinstance(piece.what, Linked)}
        for path in self.names.sources.edits.values():
            if path not in named:
                yield f'{path}: the edit has no row in {READING}'

    def not_explained(self):
        """The words of the prover's libraries that a definition uses and the first page does not explain."""
        tables = [item for page in self.first for item in page.items if isinstance(item, Plain)]
        explained = {word for table in tables for cells in table.rows for code in re.findall(r'`([^`]+)`', cells[0]) for word in code.split()}
        for word, path in library_words(self.root).items():
            if word not in explained:
                yield f'{path}: `{word}` is used, and the notation in {READING} does not explain it'
