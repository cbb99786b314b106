#!/usr/bin/env python3
"""Tries tools/edits.py on a crate with edits of its own: one that fits, and one for each way in which it may not."""
import subprocess
import sys
import tempfile
from pathlib import Path

ROOT = Path(__file__).resolve().parent.parent
SOURCE = 'fn one() { 1 }\nfn two() { 2 }\nfn other() { 2 }\n'
FITS = 'file: src/lib.rt\nold: { 1 }\nnew: { 3 }\nold: { 3 }\nnew: { 4 }\n'
WRONG = {
    'not_there': ('file: src/lib.rt\nold: { 5 }\nnew: { 6 }\n', ':2: stands 0 times in src/lib.rt'),
    'twice': ('file: src/lib.rt\nold: { 2 }\nnew: { 3 }\n', ':2: stands 2 times in src/lib.rt'),
    'gone': ('file: src/lib.rt\nold: { 1 }\nnew: { 3 }\nold: { 1 }\nnew: { 4 }\n', ':4: stands 0 times in src/lib.rt'),
    'no_file': ('file: src/gone.rt\nold: { 1 }\nnew: { 3 }\n', ':1: there is no file src/gone.rt'),
    'elsewhere': ('file: must-fail/fits.edit\nold: { 1 }\nnew: { 5 }\n', ':1: there is no file must-fail/fits.edit'),
    'same': ('# what\nfile: src/lib.rt\nold: { 1 }\nnew: { 1 }\n', ': it changes nothing'),
    'no_pair': ('# what\nfile: src/lib.rt\n', ': it changes nothing'),
    'second_line': ('file: src/lib.rt\nold: { 1 }\nnew: { 3\n}\n', ':4: this line is not read'),
}


def said(folder):
    run = subprocess.run([ROOT / 'tools/edits.py', folder], capture_output=True, text=True)
    return run.returncode, run.stdout


def main():
    with tempfile.TemporaryDirectory() as folder:
        crate = Path(folder, 'crates/low')
        (crate / 'src').mkdir(parents=True)
        (crate / 'must-fail').mkdir()
        (crate / 'src/lib.rt').write_text(SOURCE)
        (crate / 'must-fail/fits.edit').write_text(FITS)
        if said(folder) != (0, 'edits: all 1 fit the code\n'):
            sys.exit(f'edits: an edit that fits: {said(folder)}')
        for name, (text, sentence) in WRONG.items():
            path = crate / f'must-fail/{name}.edit'
            path.write_text(text)
            if said(folder) != (1, f'crates/low/must-fail/{name}.edit{sentence}\n'):
                sys.exit(f'edits: {name}: {said(folder)}')
            path.unlink()
    print('edits: every wrong one that was tried was told of')


main()
