#!/usr/bin/env python3
"""Writes the table and the picture of the crates into docs/ARCHITECTURE.md, between their markers.

    tools/crates.py            write the page
    tools/crates.py --check    write nothing; fail where the page is not what would be written

What a crate holds and stands on is in crates.txt, its public functions are in its src/. The picture leaves out what
follows: a crate stands on all that those stand on that it stands on. Libraries of the toolchain are not drawn.
"""
import re
from collections import namedtuple

import marked
from named import ROOT, crate_functions, read_files

PAGE = 'docs/ARCHITECTURE.md'
TABLE = ('<!-- crates: written by tools/crates.py -->\n', '<!-- /crates -->\n')
PICTURE = ('<!-- picture: written by tools/crates.py -->\n', '<!-- /picture -->\n')

Crate = namedtuple('Crate', 'needs holds')


def parse(text):
    """The crates of crates.txt by name, in order, whatever stands behind a name, as `staticlib`; what they need besides is
    the toolchain's."""
    lines = re.findall(r'^(\w+)\b[^:#\n]*:([^#\n]*)(?:# *(.*))?$', text, re.M)
    names = {name for name, _, _ in lines}
    return {name: Crate([need for need in needs.split() if need in names], holds) for name, needs, holds in lines}


# The table.

def calls(files, crate):
    names = [name.removeprefix(f'{crate}::') for name in crate_functions(files, crate)]
    return ', '.join(f'`{name}`' for name in names) or 'none'


def table(crates, files):
    rows = [f'| `{name}` | {crate.holds} | {calls(files, name)} |\n' for name, crate in crates.items()]
    return '| crate | holds | public calls |\n|---|---|---|\n' + ''.join(rows)


# The picture.

def below(crates, name):
    """All that a crate stands on."""
    return set(crates[name].needs).union(*(below(crates, need) for need in crates[name].needs))


def level(crates, name):
    return 1 + max((level(crates, need) for need in crates[name].needs), default=0)


def arrows(crates, name):
    """What a crate stands on, but for what others of these stand on."""
    needs = crates[name].needs
    return [need for need in needs if not any(need in below(crates, other) for other in needs)]


def level_lines(crates, number):
    """The crates of a level: those that stand on nothing in one line, each other in a line of its own."""
    names = [name for name in crates if level(crates, name) == number]
    if number == 1:
        return [', '.join(names)]
    width = max(map(len, crates))
    return [f'{name:{width}} <- {", ".join(arrows(crates, name))}' for name in names]


def picture(crates):
    highest = max(level(crates, name) for name in crates)
    levels = [level_lines(crates, number) for number in range(1, highest + 1)]
    return '\n' + ''.join(f'    {number:<4}' + '\n        '.join(lines) + '\n'
                          for number, lines in enumerate(levels, 1)) + '\n'


def blocks(crates, files):
    return {PAGE: [(TABLE, table(crates, files)), (PICTURE, picture(crates))]}


if __name__ == '__main__':
    marked.run(blocks(parse((ROOT / 'crates.txt').read_text()), read_files()), 'tools/crates.py', __doc__)
