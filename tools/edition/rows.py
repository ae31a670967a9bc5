"""docs/READING.md: its parts, pages, tables and rows, before any name is looked up."""
import re
from dataclasses import dataclass, field

COLUMNS = ['sentence', 'definition', 'function', 'theorem', 'edit']


@dataclass
class Row:
    """A row of five columns, with its place: line in the file, page and number on the page."""
    line: int
    cells: dict
    page: object = None
    number: int = 0

    @property
    def label(self):
        return f'{self.page.number}.{self.number}'


@dataclass
class Plain:
    """A table of other columns."""
    head: list
    rows: list


@dataclass
class Page:
    """A heading of a paper, with its text and tables in order."""
    part: str
    title: str
    number: int = 0
    items: list = field(default_factory=list)

    @property
    def rows(self):
        return [item for item in self.items if isinstance(item, Row)]


def is_rule(line):
    return re.fullmatch(r'\|[-| :]+\|', line.strip()) is not None


def split_row(line):
    """The cells of a line of a table; a stroke after a backslash belongs to its cell."""
    inner = line.strip()
    inner = inner[1:-1] if inner.endswith('|') and not inner.endswith('\\|') else inner[1:]
    return [cell.strip().replace('\\|', '|') for cell in re.split(r'(?<!\\)\|', inner)]


class Reader:
    """Goes through the lines of docs/READING.md; faults are lines that name what is wrong."""

    def __init__(self, name, text):
        self.name = name
        self.pages = []
        self.faults = []
        self.head = None
        self.plain = None
        self.part = ''
        for number, line in enumerate(text.split('\n'), start=1):
            self.take(number, line)

    def take(self, number, line):
        if line.startswith('# '):
            self.part = line[2:].strip()
            self.head = None
        elif line.startswith('## '):
            if line[3:].strip() in [page.title for page in self.pages]:
                self.faults.append(f'{self.name}, line {number}: a second page {line[3:].strip()}')
            self.pages.append(Page(self.part, line[3:].strip()))
            self.head = None
        elif line.startswith('|'):
            self.take_table(number, line)
        else:
            self.head = None
            self.take_text(line)

    def take_text(self, line):
        if not line.strip() or not self.pages:
            return
        self.pages[-1].items.append(line.strip())

    def take_table(self, number, line):
        if not self.pages:
            self.faults.append(f'{self.name}, line {number}: a table before the first heading')
        elif self.head is None:
            self.head = split_row(line)
            self.plain = None if self.head == COLUMNS else Plain(self.head, [])
            if self.plain:
                self.pages[-1].items.append(self.plain)
        elif not is_rule(line):
            self.take_row(number, split_row(line))

    def take_row(self, number, cells):
        if len(cells) != len(self.head):
            self.faults.append(f'{self.name}, line {number}: {len(cells)} cells, not {len(self.head)}')
        elif self.plain:
            self.plain.rows.append(cells)
        else:
            self.pages[-1].items.append(Row(number, dict(zip(COLUMNS, cells)), self.pages[-1]))
