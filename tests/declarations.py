#!/usr/bin/env python3
"""Tries tools/declarations.py: spoils the declarations in memory, one place at a time, and fails where the
check does not tell of it.

    tests/declarations.py
"""
import re
import sys
from pathlib import Path

sys.dont_write_bytecode = True
sys.path.insert(0, str(Path(__file__).resolve().parent.parent / 'tools'))
from declarations import (HEADER, LAYOUT, NUMBERS, KEYS, RATTLE, RUST, problems, read_files,  # noqa: E402
                          uncommented)

# The parts of each file that declare something.
DECLARED = {
    RATTLE: r'#\[unsafe\(no_mangle\)\]\npub extern "C" fn \w+\([^)]*\)[^\n]*',
    HEADER: r'\n(?:uint\d+_t|void) ondristela_\w+\([^)]*\);|\nstruct \w+ \{[^}]*\n\};',
    RUST: r'\n +pub fn [^\n]*;|\npub fn \w+\([^)]*\)[^\n]*|\npub type [^\n]*|library::\w+\([^;}]*\)',
    NUMBERS: r'\n(?:pub )?const [^\n]*|\n {8}layout\.\w+,|\n +let \[[^\n]*;|\n +numbers\[\w*\.\.[^\n]*;',
    KEYS: r'\n +\*range = [^\n]*',
    LAYOUT: r'\npub struct Layout \{[^}]*\n\}',
}

# What an edit is, what it takes away and what it puts there.
ALL = [('declaration dropped', r'(?s)\A.+\Z', ''), ('type changed', r'\b(u|uint)\d+', r'\g<1>128')]
SIGNATURE = ALL + [
    ('function renamed', r'(?<=fn )\w+|ondristela_\w+(?=\()', r'\g<0>_again'),
    ('length changed', r'(; |\[)(\d+)\]', r'\g<1>1\2]'),
    ('argument dropped', r'(?<=[(,])[^,()]*\w[^,()]*(?=[,)])', ''),
    ('arguments exchanged', r'(?<=[(,])([^,()]*\w[^,()]*),([^,()]*\w[^,()]*)(?=[,)])', r'\2,\1'),
    ('last arguments exchanged', r'(?<=[(,])([^,()]*\w[^,()]*),([^,()]*\w[^,()]*)(?=,?\s*\))', r'\2,\1'),
]
ARROW = [
    ('argument renamed', r'\b\w+(?=: )', r'\g<0>_again'),
    ('answer dropped', r' -> \w+', ''),
    ('reference made mutable', r'&(?!mut)', '&mut '),
    ('reference made const', r'&mut ', '&'),
]
EDITS = {
    RATTLE: SIGNATURE + ARROW + [('length of another name', r'\b[A-Z]+_SIZE\b', r'\g<0>_AGAIN')],
    HEADER: SIGNATURE + [
        ('argument or field renamed', r'\w+(?=[,;)\[])', r'\g<0>_again'),
        ('fields exchanged', r'\n( +[^\n();]*;[^\n]*)\n( +[^\n();]*;[^\n]*)', r'\n\2\n\1'),
        ('length of another type', 'size_t', 'uint64_t'),
        ('defined in the header', r'(?s)\A\n((?:uint\d+_t|void) ondristela_.*);\Z', r'\nstatic inline \1\n{\n}'),
        ('answer given', r'\bvoid\b', 'uint64_t'),
        ('const dropped', r'\bconst ', ''),
        ('const added', r'(?<!const )((?:struct \w+|uint\d+_t) (?:\*|\w+\[))', r'const \1'),
    ],
    RUST: SIGNATURE + ARROW + [
        ('length of another type', 'usize', 'u64'),
        ('pointer made mutable', r'\*const', '*mut'),
        ('pointer made const', r'\*mut', '*const'),
        ('other slice passed', r'\w+(?=\.as_|\.len)', r'\g<0>_again'),
    ],
    NUMBERS: ALL + [
        ('constant changed', r'\d+(?=;)', r'1\g<0>'),
        ('index changed', r'(?<=numbers\[)\w+', r'\g<0>9'),
        ('another number given', r'layout\.\w+|\b(?:protected|first|end)\b|u64::from\([^)]*\)', 'another'),
        ('numbers exchanged', r'(?<=[\[ ])(\w+), (\w+)(?=[,\]])', r'\2, \1'),
    ],
    KEYS: ALL + [('numbers exchanged', r'\[([^,]+), ([^\]]+)\]', r'[\2, \1]')],
    LAYOUT: ALL + [('field renamed', r'\w+(?=: )', r'\g<0>_again')],
}


def spoilt(text, declared, pattern, replacement):
    """The text with one edit, for each place in a declaration where it can be made, and the line."""
    for part in re.finditer(declared, text):
        for match in re.finditer(pattern, part[0]):
            start, end = part.start() + match.start(), part.start() + match.end()
            yield text[:start] + match.expand(replacement) + text[end:], text.count('\n', 0, start) + 1


def unnoticed(texts):
    """A sentence for each edit that the check lets pass, and for each that was tried nowhere."""
    for path, edits in EDITS.items():
        for name, pattern, replacement in edits:
            tried = list(spoilt(texts[path], DECLARED[path], pattern, replacement))
            if not tried:
                yield f'{path}: {name}: there is nowhere to try it'
            for text, line in tried:
                if not problems({**texts, path: text}):
                    yield f'{path}:{line}: {name}: tools/declarations.py does not tell of it'


def main():
    if sys.argv[1:]:
        sys.exit(__doc__)
    texts = {path: uncommented(text) for path, text in read_files().items()}
    found = problems(texts) or list(unnoticed(texts))
    for sentence in found:
        print(sentence)
    if found:
        sys.exit(1)
    print('declarations: every wrong one that was tried was told of')


if __name__ == '__main__':
    main()
