"""The man pages of the installed programs, made of the texts that they print for --help."""
import re

SECTIONS = {'Reads': 'INPUT', 'Writes': 'OUTPUT', 'Example': 'EXAMPLE', 'Status': 'EXIT STATUS'}
LABEL = re.compile(r'(\w+):\s+(.*)')


def help_text(root, name):
    """What `scullpouch NAME --help` prints."""
    return (root / 'docs' / 'help' / f'{name}.txt').read_text(encoding='ascii')


def escaped(text):
    """A text as roff takes it: no line begins with a command, and hyphens are those of a terminal."""
    lines = text.replace('\\', '\\e').replace('-', '\\-').split('\n')
    return '\n'.join('\\&' + line if line[:1] in ('.', "'") else line for line in lines)


def taken_apart(text):
    """The line of usage, what the program is for, and its parts by their labels, each as it stands in the text."""
    usage, rest = text.split('\n', 1)
    about, parts, label = [], {}, None
    for line in rest.strip('\n').split('\n'):
        found = LABEL.fullmatch(line)
        if found and found[1] in SECTIONS:
            label = found[1]
            parts[label] = [found[2]]
        elif label:
            parts[label].append(line.strip())
        else:
            about.append(line)
    return usage.removeprefix('usage: '), '\n'.join(about).strip('\n'), parts


def summary(about):
    """The first sentence of what a program is for, without its point, beginning with a small letter."""
    sentence = re.match(r'(.*?)\.(?:\s|$)', about, re.S)[1].replace('\n', ' ')
    return sentence[0].lower() + sentence[1:]


def page(name, text, version):
    """The page scullpouch-NAME(1)."""
    usage, about, parts = taken_apart(text)
    made = [f'.TH SCULLPOUCH\\-{name.upper()} 1 "" "scullpouch {version}" "Scullpouch"',
            '.nh', '.SH NAME', escaped(f'scullpouch-{name} - {summary(about)}'),
            '.SH SYNOPSIS', '.nf', escaped(usage), '.fi',
            '.SH DESCRIPTION', '.nf', escaped(about), '.fi']
    for label, heading in SECTIONS.items():
        made += [f'.SH {heading}', *(['.nf'] if label == 'Example' else []), escaped('\n'.join(parts[label])),
                 *(['.fi'] if label == 'Example' else [])]
    made += ['.SH SEE ALSO', escaped('scullpouch(1), and the documents of the package: OPERATIONS.md has every program, REFUSALS.md every number.')]
    return '\n'.join(made) + '\n'


def command_page(programs, texts, version):
    """The page scullpouch(1), of the command with the programs as its words."""
    made = ['.TH SCULLPOUCH 1 "" "scullpouch ' + version + '" "Scullpouch"',
            '.nh', '.SH NAME', escaped('scullpouch - contract terms of stock futures and stock options'),
            '.SH SYNOPSIS', '.nf', escaped('scullpouch PROGRAM [WORD ..]\nscullpouch --help\nscullpouch --version'), '.fi', '.SH PROGRAMS']
    for name in programs:
        made += ['.TP', escaped(f'scullpouch {name}'), escaped(summary(taken_apart(texts[name])[1]))]
    made += ['.SH EXIT STATUS', '0 all well; 1 something was refused, bad or differs; 2 input or output failed, or wrong arguments.',
             '.SH SEE ALSO', ', '.join(escaped(f'scullpouch-{name}(1)') for name in programs)]
    return '\n'.join(made) + '\n'
