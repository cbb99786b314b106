#!/usr/bin/env python3
"""Makes the inputs and expected outputs of the programs `vectors` and `volmap`.

The rules of docs/RULES.md are written out a second time in the folder vectors, from their text and not from the
Rattle code, with zlib's CRC-32. Each case but the generated ones says by hand which answer they give it, and that
is held to what is computed here before any file is written.

    tests/make_vectors.py            write the files
    tests/make_vectors.py --check    write nothing; fail where a file is not what would be written
"""
import sys

from vectors.checks import checks
from vectors.ciphers import ciphers
from vectors.headers import ROOT
from vectors.maps import maps
from vectors.openings import openings
from vectors.records import program_files
from vectors.sectors import sectors
from vectors.views import views
from vectors.writings import writings


def differing(files):
    """The paths that do not have what they should, and those in tests/volmap that should not be there."""
    wrong = [path for path, content in files.items()
             if not (ROOT / path).is_file() or (ROOT / path).read_bytes() != content]
    there = sorted(str(path.relative_to(ROOT)) for path in (ROOT / 'tests/volmap').glob('*'))
    return wrong + [path for path in there if path not in files]


def main():
    files = {**program_files([*checks(), *openings(), *writings(), *sectors(), *ciphers(), *views()]), **maps()}
    if sys.argv[1:] == ['--check']:
        wrong = differing(files)
        for path in wrong:
            print(f'{path} is not what tests/make_vectors.py writes')
        sys.exit(1 if wrong else 0)
    if sys.argv[1:]:
        sys.exit(__doc__)
    for path, content in files.items():
        (ROOT / path).parent.mkdir(parents=True, exist_ok=True)
        (ROOT / path).write_bytes(content)


if __name__ == '__main__':
    main()
