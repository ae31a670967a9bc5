"""A drawing as SVG: its own ground, light and dark, and a title and a description for those who hear it read."""
import textwrap
from html import escape

FONT = "'DejaVu Sans', Verdana, Arial, sans-serif"

# The ground, words, weak words, lines, and five colours of cells with the colour of the words in them.
LIGHT = {'ground': '#ffffff', 'word': '#1b1f24', 'weak': '#57606a', 'line': '#8c959f', 'empty': '#eef1f4', 'stop': '#ffd8d3',
         'one': '#0b5cad', 'two': '#1a7f37', 'three': '#9a6700', 'four': '#8250df', 'in': '#ffffff', 'mark': '#b3261e'}
DARK = {'ground': '#161b22', 'word': '#f0f3f6', 'weak': '#b7bdc8', 'line': '#7a828e', 'empty': '#2b323b', 'stop': '#6e2a26',
        'one': '#9fcbff', 'two': '#8ddb8c', 'three': '#f2cc60', 'four': '#d8b9ff', 'in': '#10151c', 'mark': '#ffb1a8'}


def rules(colours):
    """The classes of a drawing in some colours."""
    shown = [f'.ground{{fill:{colours["ground"]};stroke:{colours["line"]}}}', f'text{{fill:{colours["word"]}}}',
             f'.weak{{fill:{colours["weak"]}}}', f'.mark{{fill:{colours["mark"]}}}', f'.in{{fill:{colours["in"]}}}',
             f'.line{{stroke:{colours["line"]};fill:none}}', f'.arrow{{stroke:{colours["mark"]};fill:none;stroke-width:2.5}}',
             f'.head{{fill:{colours["mark"]}}}', f'.ring{{stroke:{colours["mark"]};fill:none;stroke-width:2.5}}']
    shown += [f'.{name}{{fill:{colours[name]}}}' for name in ('empty', 'stop', 'one', 'two', 'three', 'four')]
    return ''.join(shown)


def lines_of(words, width, size):
    """The words in lines that are no wider than this in a wide font, 0.6 of its size a character."""
    return textwrap.wrap(words, int(width / (0.6 * size)))


class Drawing:
    """Shapes and texts, one after the other. Texts stay where they are put; tests/unit/pictures.py holds them apart."""

    def __init__(self, width, height, title, description):
        self.width, self.height = width, height
        self.title, self.description = title, description
        self.shapes = []

    def rectangle(self, x, y, width, height, kind, corner=3):
        self.shapes.append(f'<rect class="{kind}" x="{x:g}" y="{y:g}" width="{width:g}" height="{height:g}" rx="{corner:g}"/>')

    def line(self, *points, kind='line'):
        self.shapes.append(f'<polyline class="{kind}" points="{" ".join(f"{x:g},{y:g}" for x, y in points)}"/>')

    def tip(self, x, y):
        """The tip of an arrow that points down."""
        self.shapes.append(f'<polygon class="head" points="{x:g},{y:g} {x - 5.5:g},{y - 9:g} {x + 5.5:g},{y - 9:g}"/>')

    def text(self, x, y, words, size=14, kind='', anchor='start', bold=False):
        marks = f' class="{kind}"' if kind else ''
        marks += f' text-anchor="{anchor}"' if anchor != 'start' else ''
        marks += ' font-weight="bold"' if bold else ''
        self.shapes.append(f'<text x="{x:g}" y="{y:g}" font-size="{size:g}"{marks}>{escape(words, quote=False)}</text>')

    def paragraph(self, x, y, words, size=12.5, between=20):
        """A text in lines that fit from x to the right edge in a wide font; the place of the line after it."""
        for line in lines_of(words, self.width - 2 * x, size):
            self.text(x, y, line, size)
            y += between
        return y

    def svg(self):
        """The file: light, and dark where the reader's machine is."""
        body = '\n'.join(self.shapes)
        return (f'<svg xmlns="http://www.w3.org/2000/svg" viewBox="0 0 {self.width} {self.height}" width="{self.width}" height="{self.height}"'
                f' role="img" aria-labelledby="title description" font-family="{FONT}">\n'
                f'<title id="title">{escape(self.title, quote=False)}</title>\n'
                f'<desc id="description">{escape(self.description, quote=False)}</desc>\n'
                f'<style>{rules(LIGHT)}@media (prefers-color-scheme:dark){{{rules(DARK)}}}</style>\n'
                f'<rect class="ground" x="0.5" y="0.5" width="{self.width - 1}" height="{self.height - 1}" rx="6"/>\n{body}\n</svg>\n')
