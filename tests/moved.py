#!/usr/bin/env python3
"""Tries tools/moved.py: on a made-up repository in which each thing moved that can, and on this one, where each line
of a definition, contract and proof is changed in memory and must be told of.

    tests/moved.py
"""
import re
import sys
from pathlib import Path

sys.dont_write_bytecode = True
sys.path.insert(0, str(Path(__file__).resolve().parent.parent / 'tools'))
from moved import all_items, compare_files, contracts, definitions, present_files, report  # noqa: E402

OLD = {
    'crates/low/specs/Bytes.antt': '''\
-- Bytes. Assumes nothing.
use Rattle.std.specs.Prelude.{ℕ}

-- stays, though its comment does not
unfoldable pub kept : ℕ → ℕ
kept zero = 0
kept (suc n) =
    n

abbrev pub changed : ℕ
changed = 1

abbrev pub gone : ℕ
gone = 2

-- two in a section
module _ (n : ℕ) where
  unfoldable pub part : ℕ
  part = n

  -- a record
  pub record Sound : Type 0 where
    -- a field
    pub field : n ≡ 0

abbrev pub old_name : ℕ → ℕ
old_name n = n + old_name 3
''',
    'crates/low/src/lib.rt': '''\
ghost use Rattle.std.specs.Prelude.{◌≡◌};

pub const SIZE: usize = 512;

pub struct Pair {
    pub first: u64,
    pub second: u64, // the second
}

impl Model for Pair {
    ghost Value = { ℕ };

    ghost view = { λ p. p.first };
}

// The first.
pub fn first(a: u64) -> u64
    requires low { 0 ≤ a }
    requires high { a ≤ 9 }
    ensures { result ≡ a }
{
    second(a)
}

impl Pair {
    pub fn second(
        self,
        a: u64,
    ) -> u64
        ensures { result ≡ a }
    {
        a
    }
}

fn helper() {
}
''',
    'crates/low/proofs/Laws.antt': 'use A.{a}\n\n-- a law\nlaw : a ≡ a\nlaw = refl\n',
    'crates/low/proofs/Other.antt': 'use A.{a}\n\nother : a ≡ a\nother = refl\n',
    'crates/low/proofs/first/Proof.antt': 'returns : a ≡ a\nreturns = refl\n',
    'crates/low/proofs/Pair/second/Answers.antt': 'pub returns : goal.returns\nreturns c = search rules\n',
    'crates/low/proofs/Pair/second/Invariants.antt': 'pub invariant-loop-i : goal.invariant-loop-i\ninvariant-loop-i l = l.a ≤ 9\n',
    'crates/low/proofs/helper/Answers.antt': 'pub returns : goal.returns\nreturns c = refl\n',
    'crates/low/proofs/Imports.antt': 'use A.{a}\nsame : a ≡ a\n',
    'crates/high/specs/Lib.antt': 'pub mod Rules\n',
}

# What is edited: a file, what it has and what stands there then.
EDITS = [
    ('crates/low/specs/Bytes.antt', '-- stays, though its comment does not', '-- stays'),
    ('crates/low/specs/Bytes.antt', 'kept (suc n) =\n    n', 'kept (suc n) = n'),
    ('crates/low/specs/Bytes.antt', 'changed = 1', 'changed = 2'),
    ('crates/low/specs/Bytes.antt', 'abbrev pub gone : ℕ\ngone = 2\n', 'abbrev pub new : ℕ → ℕ\nnew n = 2\n'),
    ('crates/low/specs/Bytes.antt', '  unfoldable pub part : ℕ\n  part = n\n', ''),
    ('crates/low/specs/Bytes.antt', '    pub field : n ≡ 0', '    pub field : n ≡ 1'),
    ('crates/low/specs/Bytes.antt', 'old_name', 'new_name'),
    ('crates/low/src/lib.rt', 'usize = 512', 'usize = 1024'),
    ('crates/low/src/lib.rt', '        ensures { result ≡ a }\n', ''),
    ('crates/low/src/lib.rt', '// The first.', '// The first of two.'),
    ('crates/low/src/lib.rt', 'second(a)', 'third(a)'),
    ('crates/low/src/lib.rt', 'fn helper() {', 'fn helped() -> u64 {'),
    ('crates/low/src/lib.rt', 'p.first }', 'p.second }'),
    ('crates/low/proofs/Pair/second/Invariants.antt', 'l.a ≤ 9', 'l.a ≤ 8'),
    ('crates/low/proofs/Imports.antt', 'use A', 'use B'),
]

# .. and what stands at another place then. Today's files of the proof of a function are compared with its older one.
LEFT = {'crates/low/proofs/Laws.antt', 'crates/low/proofs/Other.antt', 'crates/low/proofs/first/Proof.antt',
        'crates/low/proofs/helper/Answers.antt'}
MOVED = {
    'crates/low/proofs/first/Answers.antt': 'pub returns : goal.returns\nreturns c = cc\n',
    'crates/high/specs/Rules.antt': 'module _ (n : ℕ) where\n  -- moved\n  unfoldable pub part : ℕ\n  part = n\n',
    'crates/high/proofs/Laws.antt': 'use B.{a}\n\nlaw : a ≡ a\nlaw = refl\n',
    'crates/high/proofs/Other.antt': 'other : a ≡ a\nother = cc\n',
}

# What must be told, all of it.
TOLD = '''\
**Definitions**

- changed: low: `Sound`, `changed`
- new: low: `new`
- gone: low: `gone`
- moved: low/Bytes.antt to high/Rules.antt: `part`
- renamed: `old_name` of low to `new_name`
- stayed, letter by letter: 1 of 6 (high 0 of 1, low 1 of 5)
- among these: low: `kept`

**Types and constants**

- changed: low: `Model for Pair::view`, `SIZE`
- stayed, letter by letter: 2 of 4 (low 2 of 4)

**Public contracts**

- changed: low: `Pair::second`
- stayed, letter by letter: 1 of 2 (low 1 of 2)

**Private contracts**

- new: low: `helped`
- gone: low: `helper`
- stayed, letter by letter: 0 of 1 (low 0 of 1)

**Proofs**

- changed: low: `Pair/second`, `first`
- changed in comments and `use` lines alone: low: `Imports.antt`
- gone: low: `helper`
- moved: low to high: `Laws.antt`, `Other.antt` (and changed)
- stayed, letter by letter: 0 of 5 (high 0 of 2, low 0 of 3)
'''

def edited(files):
    files = {path: text for path, text in files.items() if path not in LEFT}
    for path, old, new in EDITS:
        assert old in files[path], old
        files[path] = files[path].replace(old, new)
    return {**files, **MOVED}


def made_up_problems():
    told = report(OLD, edited(OLD), 'kept')
    if told != TOLD:
        yield f'of the made-up repository it tells\n{told}'


def missed(files):
    """What a plain search finds more of than the reading of whole files."""
    for path, text in files.items():
        if '/specs/' in path:
            there = set(re.findall(r'^ *(?:(?:abbrev|unfoldable) pub|pub record|pub data) ([^\s:]+)', text, re.M))
            yield from (f'{path}: it misses `{name}`' for name in there - set(definitions(text)))
        elif '/src/' in path:
            there = re.findall(r'^[^/\n]*\bfn \w+', text, re.M)
            if len(there) != len(contracts(text)):
                yield f'{path}: it reads {len(contracts(text))} of {len(there)} functions'


def changed_lines(path, text):
    """The file with one line changed, for each that is more than a comment or names an import."""
    lines = text.split('\n')
    for number, line in enumerate(lines):
        if line.strip() and not re.match(r' *(--|use |pub use |pub mod )', line):
            yield f'{path}:{number + 1}', '\n'.join([*lines[:number], f'{line} changed', *lines[number + 1:]])


def unnoticed(files):
    """Changed lines of specs that it does not tell of."""
    for path, text in files.items():
        for place, other in changed_lines(path, text) if '/specs/' in path else ():
            changes = compare_files({path: text}, {path: other})['definitions']
            if not changes.changed and not changes.new:
                yield f'it does not tell of a change at {place}'


def unchanged_problems(files):
    """What it says of this repository and itself, where everything stayed."""
    for sort, changes in compare_files(files, dict(files)).items():
        if len(changes.stayed) != len(all_items(files)[sort]) or sum(map(len, changes)) != len(changes.stayed):
            yield f'not all {sort} stayed where nothing changed'


def main():
    if sys.argv[1:]:
        sys.exit(__doc__)
    files = present_files()
    found = [*made_up_problems(), *missed(files), *unnoticed(files), *unchanged_problems(files)]
    for sentence in found:
        print(f'tools/moved.py is wrong: {sentence}')
    if found:
        sys.exit(1)
    print('moved: everything that moved was told of')


if __name__ == '__main__':
    main()
