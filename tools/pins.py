#!/usr/bin/env python3
"""Which definitions do the claims pin down? Changes them one place at a time, leaves the code out, and proves the claims.

    tools/pins.py [--crates A,B] [--sort everywhere|at-one] [--jobs N] [--out FILE] [--base DIR]

Copies the crates without any function but those whose contracts are the claims: definitions, laws and claims are left. A
change of a definition (changes.py) is refused where a claim, or a law that claims are proved by, no longer is; a survivor
is one under which every claim is still proved as it stands. So the claims do not say what that definition is, or the
change means the same. A refusal tells less: a proof may only have lost its shape. Changes that antt cannot read are
counted apart.

It takes hours for all crates: run it by hand, over the crates that are new or changed, before a landing. FILE gets the
table and the survivors as they come; docs/pins.md has the last result. DIR keeps the copy that is proved first, for other
runs on the same sources.
"""
import argparse
import os
import re
import shutil
import subprocess
import sys
import tempfile
import time
from collections import Counter, defaultdict, namedtuple
from concurrent.futures import ThreadPoolExecutor
from pathlib import Path
from queue import Queue

from changes import all_changes
from named import CLAIMING

ROOT = Path(__file__).resolve().parent.parent
TOPS = ('guarantees', 'worked_cases')
# The files of a function's proof.
PROOFS = ('Invariants.antt', 'Answers.antt', 'Proof.antt')
# What the claims, and the laws that they are proved by, are said in: no contract cites it.
LAWS = {'model', 'header_laws', 'field_laws', 'mix_laws', 'cipher_laws'}

Place = namedtuple('Place', 'crate path change')
Result = namedtuple('Result', 'place verdict by')


# The crates, and their order.

def read_crates(root):
    rows = re.findall(r'^(\w+)\b[^:#\n]*:([^#\n]*)', (root / 'crates.txt').read_text(), re.M)
    return {name: rest.split() for name, rest in rows}


def below(crates, tops):
    """The tops and all that they stand on, each behind what it stands on."""
    order = []

    def visit(name):
        if name in crates and name not in order:
            for other in crates[name]:
                visit(other)
            order.append(name)
    for top in tops:
        visit(top)
    return order


def above(crates, order, name):
    """A crate and what stands on it, those first that take least, but each behind what it stands on."""
    found = {name}
    for other in order:
        if found & set(crates[other]):
            found.add(other)
    return [other for other in order if other in found]


# The copy without code.

def without_functions(text):
    """A source file with its types and constants alone."""
    text = re.sub(r'^(?:pub )?(?:(?:extern "C" )?fn|impl)\b.*?(?:^\}|\{\})\n', '\n', text, flags=re.M | re.S)
    # Attributes of what is gone, and imports that only its clauses and bodies need.
    text = re.sub(r'^#\[[^\n]*\]\n(?=(?://[^\n]*\n)*\n)', '', text, flags=re.M)
    gone = r'use \w+::(?:[a-z_]+|\{[a-z_, ]+\});' if re.search(r'\bghost \w+:', text) else r'(?:ghost use |use \w+::[a-z_]+;)'
    return re.sub(rf'^{gone}.*\n', '', text, flags=re.M)


def copy_without_code(folder, order):
    for name in order:
        source, target = ROOT / 'crates' / name, folder / 'crates' / name
        shutil.copytree(source, target, ignore=shutil.ignore_patterns('must-fail', 'out'))
        if name in TOPS:
            continue
        for path in target.glob('src/**/*.rt'):
            path.write_text(without_functions(path.read_text()))
        for proof in {path.parent for name in PROOFS for path in target.glob(f'proofs/**/{name}')}:
            shutil.rmtree(proof)
    (folder / 'crates.txt').write_text(''.join(f'{name}: {" ".join(read_crates(ROOT)[name])}\n' for name in order))


# The prover: `rt lib` of a crate at a time, so that the first refusal ends a try.

class Prover:
    def __init__(self, crates):
        self.crates = crates

    def build(self, folder, name):
        """Proves a crate; what the prover says."""
        run = subprocess.run(['rt', 'lib', '--jobs', '1'], cwd=folder / 'crates' / name, stdin=subprocess.DEVNULL,
                             capture_output=True, text=True)
        return run.stdout + run.stderr


def is_proved(said):
    return re.search(r'^logic=proved', said, re.M) is not None


def is_unread(said):
    """Whether the first error is in a definition, and so no proof's."""
    error = re.search(r'^(?:note: )?(\S+?):\d+:\d+:(?: error)?', said, re.M)
    return error is None or re.search(r'(^|/)specs/', error[1]) is not None


# The tries.

def link_or_copy(source, target):
    """What was proved is never written over, but replaced; the rest is copied."""
    (os.link if source.endswith('.oantt') else shutil.copy2)(source, target)


def copy_built(source, target):
    """What rt left in a crate's folder out/."""
    shutil.rmtree(target, ignore_errors=True)
    shutil.copytree(source, target, symlinks=True, copy_function=link_or_copy)


def places(folder, names, sort):
    for name in names:
        for path in sorted((folder / 'crates' / name / 'specs').glob('*.antt')):
            for change in all_changes(path.read_text(), name):
                if sort in (None, 'at-one' if change.at_one else 'everywhere'):
                    yield Place(name, path.relative_to(folder), change)


def tried(prover, folder, pristine, order, place):
    """The verdict on one change, and the crate that refuses it. Leaves the folder as it was."""
    path, kept = folder / place.path, (folder / place.path).read_text()
    path.write_text(place.change.text)
    built = []
    try:
        for name in above(prover.crates, order, place.crate):
            built.append(name)
            said = prover.build(folder, name)
            if not is_proved(said):
                return Result(place, 'unread' if is_unread(said) else 'refused', name)
        return Result(place, 'survived', '')
    finally:
        path.write_text(kept)
        for name in built:
            copy_built(pristine / f'crates/{name}/out', folder / f'crates/{name}/out')


def by_cost(crates, order, seconds):
    """The order with the quicker crates first, as far as each stays behind what it stands on."""
    left, found = list(order), []
    while left:
        ready = [name for name in left if not set(crates[name]) & set(left)]
        found.append(min(ready, key=lambda name: float(seconds[name])))
        left.remove(found[-1])
    return found


def make_base(prover, pristine, order):
    """Proves the crates without code, and keeps the seconds of each."""
    copy_without_code(pristine, order)
    with open(pristine / 'seconds', 'w') as seconds:
        for name in order:
            began = time.time()
            said = prover.build(pristine, name)
            if not is_proved(said):
                sys.exit(f'{name} is not proved without code:\n{said[-1500:]}')
            print(name, time.time() - began, file=seconds)


def run(names, sort, jobs, base, report):
    crates = read_crates(ROOT)
    order = below(crates, TOPS)
    prover = Prover({name: crates[name] for name in order})
    with tempfile.TemporaryDirectory(dir=base) as room:
        pristine = Path(base or room, 'pristine')
        if not (pristine / 'seconds').exists():
            make_base(prover, pristine, order)
        seconds = dict(line.split() for line in (pristine / 'seconds').read_text().splitlines())
        order = by_cost(crates, order, seconds)
        folders = Queue()
        for number in range(jobs):
            folder = Path(room, f'job{number}')
            shutil.copytree(pristine, folder, symlinks=True, copy_function=link_or_copy)
            folders.put(folder)

        def one(place):
            folder = folders.get()
            try:
                return tried(prover, folder, pristine, order, place)
            finally:
                folders.put(folder)
        wanted = names or [name for name in order if name not in LAWS | set(CLAIMING)]
        with ThreadPoolExecutor(jobs) as pool:
            for result in pool.map(one, places(pristine, wanted, sort)):
                report(result)


# The report.

def survivor(result):
    change = result.place.change
    return f'{result.place.path}:{change.line}: {change.old[:160]}  =>  {change.new[:200]}'


def table(results):
    """By crate and sort of change: how many were refused by a claim, by a law below, survived, and were not read."""
    counts = defaultdict(Counter)
    for result in results:
        kind = 'claim' if result.verdict == 'refused' and result.by in CLAIMING else result.verdict
        counts[result.place.crate, result.place.change.at_one][kind] += 1
    head = '| crate | changed | refused by a claim | refused by a law below | survived | not read |\n|---|---|---|---|---|---|\n'
    return head + ''.join(
        f'| {crate} | {"at one argument" if at_one else "everywhere"} | {count["claim"]} | {count["refused"]} | '
        f'{count["survived"]} | {count["unread"]} |\n' for (crate, at_one), count in sorted(counts.items()))


def main():
    parser = argparse.ArgumentParser(description=__doc__, formatter_class=argparse.RawDescriptionHelpFormatter)
    parser.add_argument('--crates', default='')
    parser.add_argument('--sort', choices=('everywhere', 'at-one'))
    parser.add_argument('--jobs', type=int, default=os.cpu_count())
    parser.add_argument('--out', type=Path)
    parser.add_argument('--base', type=Path)
    words = parser.parse_args()
    results = []

    def report(result):
        results.append(result)
        if result.verdict == 'survived':
            print(survivor(result), flush=True)
        if words.out:
            survivors = ''.join(f'- `{survivor(item)}`\n' for item in results if item.verdict == 'survived')
            words.out.write_text(f'{table(results)}\n{survivors}')
    run([name for name in words.crates.split(',') if name], words.sort, words.jobs, words.base, report)
    print(table(results), end='')


if __name__ == '__main__':
    main()
