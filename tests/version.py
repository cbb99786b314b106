#!/usr/bin/env python3
"""Tries tools/version.py: the places where a version may stand, and those where the check must tell of it.

    tests/version.py
"""
import sys
from pathlib import Path

sys.dont_write_bytecode = True
sys.path.insert(0, str(Path(__file__).resolve().parent.parent / 'tools'))
from version import HEADER, PAGES, SOURCE, by_hand, read_files, titled, version  # noqa: E402

# A file, a line for it, and whether the check must tell of the line.
LINES = [
    ('README.md', 'Ondristela VERSION', True),
    ('man/volmap.1', '.B VERSION', True),
    ('install/ondristela.pc.in', 'Version: VERSION', True),
    ('rust/volumes/src/main.rs', 'const TEXT: &str = "volumes VERSION";', True),
    ('rust/volumes/Cargo.toml', 'version = "VERSION"', True),
    ('rust/volumes/Cargo.toml', 'version = "99.0.0"', True),
    ('rust/volumes/Cargo.toml', 'version.workspace = true', False),
    ('README.md', 'version 1VERSION, VERSION.1 and VERSION1', False),
    ('rust/Cargo.lock', 'version = "VERSION"', False),
    ('docs/CHANGELOG.md', '## VERSION', False),
    ('man/volmap.1', '.TH VOLMAP 1 "" "volmap VERSION"', False),
]


def problems(texts):
    number = version(texts[SOURCE])
    yield from by_hand(texts, number)
    if f'#define ONDRISTELA_VERSION "{number}"\n' not in texts[HEADER]:
        yield f'{HEADER} does not have the version'
    for path, text in texts.items():
        if path.startswith(PAGES) and titled(path, text, '99.0.0').count('99.0.0"') != 1:
            yield f'{path}: tools/version.py does not write the version into its title'
    for path, line, wrong in LINES:
        told = list(by_hand({path: line.replace('VERSION', number)}, number))
        if bool(told) != wrong:
            yield f'{path}: {line}: tools/version.py {"does not tell of it" if wrong else "tells of it"}'


def main():
    if sys.argv[1:]:
        sys.exit(__doc__)
    found = list(problems(read_files()))
    for sentence in found:
        print(sentence)
    if found:
        sys.exit(1)
    print('version: every wrong place that was tried was told of')


if __name__ == '__main__':
    main()
