#!/usr/bin/env python3
"""Whether every must-fail edit was refused at each call that it stands beside in docs/CLAIMS.md.

    tools/refused.py LOG [--jobs N]    after `rt ci`, whose output LOG is: fails with a sentence for each call that is not
    tools/refused.py CRATE/EDIT..      tries these edits, and prints what the prover says of each

An edit may make one mistake in several calls, and `rt` counts it as refused where a single one is. Of what the prover
says of an edit rt prints the first place alone, and keeps nothing. That settles the call which that place is in. For the
others the edit is tried again, with `rt check` over a copy of the crate and of those below it: there each function has a
line. What the prover says then is kept in target/refused/CRATE/EDIT.log, with a digest of the copy and the toolchain, and
is taken from there where neither changed.
"""
import argparse
import hashlib
import os
import re
import shutil
import subprocess
import sys
import tempfile
from concurrent.futures import ThreadPoolExecutor
from pathlib import Path

from claims import PAGE
from crates import below, parse
from named import ROOT, names_in, rows

KEPT = 'target/refused'
PARTS = ('src', 'specs', 'proofs')
# What a check takes at most, in GB: so many are run side by side.
MEMORY = 4
# So often a check is begun that comes to no verdict.
TRIES = 3


def calls_and_edits(page):
    """Each call with each of its edits, as `crate::name` and `crate/edit`."""
    for row in rows(page):
        if row.heads[0] == 'call':
            call = row.cells[0].strip('`')
            crate = call.partition('::')[0]
            yield from ((call, f'{crate}/{name.text.removeprefix(f"{crate}/")}') for name in names_in(row.cells[-1]))


# What rt says of an edit.

def refusals(log):
    """The first place that rt gives of each edit that was refused, by `crate/edit`: a file with a line, or ''."""
    line = r'^rt: must-fail (\w+/[\w.-]+)\.edit: refused, as it must be(?:: (?:note: )?(?:\./)?([\w./+-]+:\d+):\d+:)?'
    return dict(re.findall(line, log, re.M))


def function_at(source, line):
    """The function in whose lines a line of a source file is, a method with its type before it."""
    owner = found = ''
    for text in source.split('\n')[:line]:
        if match := re.match(r'impl(?:<[^>]*>)? (?:.* for )?(\w+)', text):
            owner, found = f'{match[1]}::', ''
        elif match := re.match(r'( *)(?:#\[.*\] *)?(?:(?:pub(?:\(\w+\))?|const|unsafe|extern "C") )*fn (\w+)', text):
            found = f'{owner if match[1] else ""}{match[2]}'
        elif text.startswith('}'):
            owner = found = ''
    return found


def call_at(edit, place, read_source):
    """The call that a place is in, as `crate::name`: in its body, or in the files of its proof; or None."""
    crate = edit.partition('/')[0]
    if match := re.fullmatch(r'(src/([\w/]+)\.rt):(\d+)', place):
        module = '' if match[2] == 'lib' else f'{match[2].replace("/", "::")}::'
        name = function_at(read_source(f'crates/{crate}/{match[1]}'), int(match[3]))
        return f'{crate}::{module}{name}' if name else None
    if match := re.fullmatch(r'proofs/([\w/]+)/(?:Answers|Invariants|Proof)\.antt:\d+', place):
        return f'{crate}::{match[1].replace("/", "::")}'
    return None


def is_verdict(said):
    """Whether a check came to the edited crate: an edit is never in a library below it, so that these are always built."""
    return re.search(r'^logic=', said, re.M) is not None and not re.search(r'^rt: the library \w+ did not build', said, re.M)


def is_refused(call, said):
    return re.search(rf'^fn {re.escape(call)}: (not proved|no proof)', said, re.M) is not None


def open_pairs(page, log, read_source):
    """Of each edit that was refused, the calls that what rt says does not settle; and a sentence for each that was not."""
    places, wanted, found = refusals(log), {}, []
    for call, edit in calls_and_edits(page):
        if edit not in places:
            found.append(f'{edit}: it was not tried, or not refused')
        elif call_at(edit, places[edit], read_source) != call:
            wanted.setdefault(edit, []).append(call)
    return wanted, list(dict.fromkeys(found))


# The tries.

def edited(edit, root):
    """Makes the edit in the crate's folder below a root. tools/edits.py sees to it that each text is there once."""
    crate, _, name = edit.partition('/')
    path = old = None
    for line in (ROOT / f'crates/{crate}/must-fail/{name}.edit').read_text().split('\n'):
        if line.startswith('file: '):
            path = root / 'crates' / crate / line[len('file: '):].strip()
        elif line.startswith('old: '):
            old = line[len('old: '):]
        elif line.startswith('new:'):
            path.write_text(path.read_text().replace(old, line[len('new:'):].removeprefix(' ')))


def copy_crates(crates, crate, root):
    """A repository of a crate and those below it, with the libraries that are built of these."""
    names = sorted(below(crates, crate)) + [crate]
    lines = (ROOT / 'crates.txt').read_text().split('\n')
    (root / 'crates.txt').write_text('\n'.join(line for line in lines if re.match(r'\w*', line)[0] in names) + '\n')
    if (ROOT / 'HANDLES').exists():
        shutil.copy(ROOT / 'HANDLES', root)
    for name in names:
        for part in (*PARTS, *(['out/rlib'] if name != crate else [])):
            if (ROOT / 'crates' / name / part).is_dir():
                shutil.copytree(ROOT / 'crates' / name / part, root / 'crates' / name / part)


def digest(root, toolchain):
    """A digest of the texts of a copy, and of the toolchain."""
    found = hashlib.sha256(toolchain.encode())
    paths = [path for part in PARTS for path in root.glob(f'crates/*/{part}/**/*') if path.is_file()]
    for path in sorted([*paths, root / 'crates.txt']):
        found.update(f'\n{path.relative_to(root)} {hashlib.sha256(path.read_bytes()).hexdigest()}'.encode())
    return found.hexdigest()


def tried(edit, root, toolchain):
    """What the prover says of an edit, over a copy that is left as it was."""
    crate = edit.partition('/')[0]
    folder, kept = root / 'crates' / crate, ROOT / KEPT / f'{edit}.log'
    texts = {path: path.read_text() for part in PARTS for path in (folder / part).rglob('*') if path.is_file()}
    edited(edit, root)
    try:
        head = f'{digest(root, toolchain)}\n'
        if kept.exists() and kept.read_text().startswith(head):
            return kept.read_text()[len(head):]
        for _ in range(TRIES):
            said = subprocess.run(['rt', 'check', '--jobs', '1'], cwd=folder, stdin=subprocess.DEVNULL,
                                  stdout=subprocess.PIPE, stderr=subprocess.STDOUT, text=True, errors='replace').stdout
            if is_verdict(said):
                break
        # A check that comes to no verdict is tried again the next time.
        if is_verdict(said):
            kept.parent.mkdir(parents=True, exist_ok=True)
            kept.write_text(head + said)
        return said
    finally:
        for path, text in texts.items():
            if path.read_text() != text:
                path.write_text(text)


def try_edits(edits, jobs):
    """What the prover says of each edit. Those of one crate are tried one after the other, over one copy."""
    crates = parse((ROOT / 'crates.txt').read_text())
    toolchain = subprocess.run(['rt', 'version'], check=True, capture_output=True, text=True).stdout
    by_crate = {}
    for edit in edits:
        by_crate.setdefault(edit.partition('/')[0], []).append(edit)

    def of_crate(crate):
        with tempfile.TemporaryDirectory() as folder:
            root = Path(folder)
            copy_crates(crates, crate, root)
            return {edit: tried(edit, root, toolchain) for edit in by_crate[crate]}
    said = {}
    with ThreadPoolExecutor(jobs) as pool:
        for found in pool.map(of_crate, sorted(by_crate, key=lambda crate: -len(by_crate[crate]))):
            said.update(found)
    return said


def problems(wanted, said):
    """A sentence for each of these calls that an edit beside it leaves proved; `said` has what the prover says of the edits."""
    for edit, calls in wanted.items():
        yield from (f'{edit}: {call} is not refused' for call in calls if not is_refused(call, said[edit]))


def default_jobs():
    room = re.search(r'^MemAvailable: +(\d+) kB', Path('/proc/meminfo').read_text(), re.M)
    return max(1, min(os.cpu_count(), int(room[1]) // 2 ** 20 // MEMORY if room else 1))


def main():
    parser = argparse.ArgumentParser(description=__doc__, formatter_class=argparse.RawDescriptionHelpFormatter)
    parser.add_argument('words', nargs='+', metavar='LOG or CRATE/EDIT')
    parser.add_argument('--jobs', type=int, default=default_jobs())
    given = parser.parse_args()
    if all(re.fullmatch(r'\w+/[\w-]+', word) and (ROOT / f'crates/{word.replace("/", "/must-fail/")}.edit').exists()
           for word in given.words):
        for edit, said in try_edits(given.words, given.jobs).items():
            print(f'== {edit}\n{said}', end='')
        return
    if len(given.words) > 1:
        sys.exit(__doc__)
    page, log = (ROOT / PAGE).read_text(), Path(given.words[0]).read_text()
    wanted, found = open_pairs(page, log, lambda path: (ROOT / path).read_text())
    found += problems(wanted, try_edits(wanted, given.jobs))
    print('\n'.join(found) or f'refused: every edit at each call that it stands beside in {PAGE}; tried again: {len(wanted)}')
    sys.exit(1 if found else 0)


if __name__ == '__main__':
    main()
