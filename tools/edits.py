#!/usr/bin/env python3
"""Reports a must-fail edit that no longer fits: an `old:` text that does not stand just once in its file, and what else
would make rt call it a BAD EDIT, as far as texts show it.

    tools/edits.py [ROOT]

`rt` reports these too, but only when it comes to the edit, and `rt ci` passes all the same. A text that an earlier pair
of the same edit wrote counts. Whether the new text can be compiled and read is rt's to say.
"""
import re
import sys
from pathlib import Path

ROOT = Path(sys.argv[1]) if sys.argv[1:] else Path(__file__).resolve().parent.parent


def problems(edit):
    """A sentence for each text of an edit that is not found once, and for what else cannot be applied."""
    texts, before = {}, {}
    found = list(line_problems(edit, texts, before))
    return found if found or texts != before else [f'{edit.relative_to(ROOT)}: it changes nothing']


def line_problems(edit, texts, before):
    """The same, line by line; leaves the texts of the edit's files, and what they were before."""
    name = old = ''
    place = edit.relative_to(ROOT)
    for number, line in enumerate(edit.read_text().splitlines(), 1):
        if line.startswith('file: '):
            name = line[len('file: '):]
            path = edit.parent.parent / name
            if not re.match(r'(?:src|specs|proofs)/', name) or not path.is_file():
                yield f'{place}:{number}: there is no file {name}'
                return
            if name not in texts:
                texts[name] = before[name] = path.read_text()
        elif line.startswith('old: ') and name:
            old = line[len('old: '):]
            if texts[name].count(old) != 1:
                yield f'{place}:{number}: stands {texts[name].count(old)} times in {name}'
        elif line.startswith('new:') and old:
            texts[name] = texts[name].replace(old, line[len('new:'):].removeprefix(' '), 1)
            old = ''
        elif line.strip() and not line.startswith('#'):
            yield f'{place}:{number}: this line is not read'


def main():
    edits = sorted(ROOT.glob('crates/*/must-fail/*.edit'))
    found = [problem for edit in edits for problem in problems(edit)]
    found += [f'{path.relative_to(ROOT)}: an edit stands right in must-fail/, and its name ends in .edit'
              for path in sorted(ROOT.glob('crates/*/must-fail/**/*')) if path not in edits]
    print('\n'.join(found) or f'edits: all {len(edits)} fit the code')
    sys.exit(1 if found else 0)


main()
