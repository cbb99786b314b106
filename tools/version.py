#!/usr/bin/env python3
"""Writes the version of rust/Cargo.toml into the C header, between its markers, and into the titles of the manual
pages.

    tools/version.py            write the files
    tools/version.py --check    write nothing; fail where a file is not what would be written, or where the version
                                stands anywhere else
"""
import os
import re
import sys

import marked
from marked import ROOT

SOURCE = 'rust/Cargo.toml'
HEADER = 'include/ondristela.h'
PAGES = 'man/'
MARKERS = ('/* version: written by tools/version.py from rust/Cargo.toml */\n', '/* end of version */\n')

# The header is written here, the lock file by cargo, the changelog tells which version brought what, and a patch that is
# set aside changes some of these.
WRITTEN = {SOURCE, HEADER, 'rust/Cargo.lock', 'docs/CHANGELOG.md', 'docs/set-aside.patch'}
PASSED_OVER = {'.git', 'target', 'out', '__pycache__'}


def version(text):
    """The version in the text of rust/Cargo.toml."""
    found = re.findall(r'^version = "(.*)"$', text, re.M)
    if len(found) != 1 or not re.fullmatch(r'\d+\.\d+\.\d+', found[0]):
        sys.exit(f'{SOURCE} does not have one line version = "..", with three numbers')
    return found[0]


def block(number):
    return f'#define ONDRISTELA_VERSION "{number}"\n'


def titled(path, text, number):
    """A manual page with the version in its title, behind the program's name."""
    text, count = re.subn(r'^(\.TH .*"\w+ )\d+\.\d+\.\d+"', rf'\g<1>{number}"', text, flags=re.M)
    if count != 1:
        sys.exit(f'{path} does not have one line .TH with "NAME VERSION"')
    return text


def by_hand(texts, number):
    """A sentence for each place in the texts, by path, that has the version by hand or sets one."""
    pattern = re.compile(rf'(?<![\d.]){re.escape(number)}(?!\.?\d)')
    for path, text in sorted(texts.items()):
        for line_number, line in enumerate(text.split('\n'), 1):
            if path in WRITTEN or path.startswith(PAGES) and line.startswith('.TH '):
                continue
            if pattern.search(line):
                yield f'{path}:{line_number}: the version stands here by hand; its place is {SOURCE}'
            elif path.endswith('/Cargo.toml') and re.match(r'version\s*=', line):
                yield f'{path}:{line_number}: write version.workspace = true; the place of the version is {SOURCE}'


def read_files():
    """The texts of the repository by path; files that are no text are left out."""
    texts = {}
    for folder, folders, names in os.walk(ROOT):
        folders[:] = [name for name in folders if name not in PASSED_OVER]
        for name in names:
            path = os.path.join(folder, name)
            try:
                with open(path, encoding='utf-8') as file:
                    texts[os.path.relpath(path, ROOT)] = file.read()
            except UnicodeDecodeError:
                pass
    return texts


def main():
    texts = read_files()
    number = version(texts[SOURCE])
    found = list(by_hand(texts, number)) if sys.argv[1:] == ['--check'] else []
    for sentence in found:
        print(sentence)
    if found:
        sys.exit(1)
    files = marked.written({HEADER: [(MARKERS, block(number))]})
    files |= {path: titled(path, text, number) for path, text in texts.items() if path.startswith(PAGES)}
    marked.put(files, 'tools/version.py', __doc__)


if __name__ == '__main__':
    main()
