#!/usr/bin/env python3
"""Tries tools/changes.py on a made-up file of specs: each change that it must make, and none of what is no definition.

    tests/changes.py
"""
import re
import sys
from pathlib import Path

sys.dont_write_bytecode = True
sys.path.insert(0, str(Path(__file__).resolve().parent.parent / 'tools'))
from changes import all_changes  # noqa: E402

SPECS = '''\
-- Rules, 7 of them. Assumes nothing.
use Rattle.std.specs.Prelude.{ℕ, zero, suc, ◌+◌, Bool, ◌&&◌, List}
use Rattle.std.specs.Prelude.{eqb, leb, ◌==◌}
use Rattle.layout.specs.declared.Layout.{Layout}

-- a rule of two parts
unfoldable pub rule : Layout → ℕ → Bool
rule layout first = leb first 512 && eqb layout.kind 1

-- with the words of today
abbrev pub later : ℕ → Bool
later first = first == 7 && nat_lt first (9 / 2)

-- by cases, and with a list
unfoldable pub total : ℕ → List ℕ → ℕ
total zero list = 0
total (suc n) list =
    n + total n list
'''

EVERYWHERE = {
    'rule layout first = ltb first 512 && eqb layout.kind 1',
    'rule layout first = leb first 512 || eqb layout.kind 1',
    'rule layout first = leb first 513 && eqb layout.kind 1',
    'rule layout first = leb first 512 && eqb layout.kind 2',
    'rule layout first = eqb layout.kind 1',
    'later first = first == 8 && nat_lt first (9 / 2)',
    'later first = first == 7 || nat_lt first (9 / 2)',
    'later first = nat_lt first (9 / 2)',
    'later first = first == 7 && nat_le first (9 / 2)',
    'later first = first == 7 && nat_lt first (10 / 2)',
    'later first = first == 7 && nat_lt first (9 / 3)',
    'later first = first == 7 && nat_lt first (9 % 2)',
    'total zero list = 1',
    'n * total n list',
}
LATER = 'first == 7 && nat_lt first (9 / 2)'
RULE = 'leb first 512 && eqb layout.kind 1'
AT_ONE = {
    f'rule layout first = cond (eqb layout.candidate 1) (not ({RULE})) ({RULE})',
    f'rule layout first = cond (eqb first 1) (let other : ℕ = suc first in let first : ℕ = other in {RULE}) ({RULE})',
    f'later first = cond (eqb first 1) (let other : ℕ = suc first in let first : ℕ = other in {LATER}) ({LATER})',
    'total (suc n) list = cond (eqb (get_or list 0 0) 1) (let other : List ℕ = 0 ∷ drop 1 list in let list : List ℕ = other in n + total n list) (n + total n list)',
}
# Imports that a change needs and the file has not.
IMPORTS = [f'use Rattle.std.specs.Prelude.{{{name}}}\n' for name in ('cond', 'get_or', 'drop', '◌∷◌')]


def problems():
    changes = list(all_changes(SPECS, 'made_up'))
    for at_one, wanted in ((False, EVERYWHERE), (True, AT_ONE)):
        made = {change.new for change in changes if change.at_one == at_one}
        yield from (f'it does not make {new}' for new in wanted - made)
        yield from (f'it makes {new}' for new in made - wanted)
    texts = [change.text for change in changes]
    if len(set(texts)) != len(texts) or SPECS in texts:
        yield 'two changes are the same, or one is none'
    listed = next(change.text for change in changes if 'get_or list' in change.new)
    yield from (f'it does not write {line.strip()}' for line in IMPORTS if line not in listed)
    if len(re.findall(r'[{ ]eqb[,}]', listed)) != 1:
        yield 'it imports what is there'


def main():
    if sys.argv[1:]:
        sys.exit(__doc__)
    found = list(problems())
    for sentence in found:
        print(f'tools/changes.py is wrong: {sentence}')
    if found:
        sys.exit(1)
    print('changes: each was made')


if __name__ == '__main__':
    main()
