#!/usr/bin/env python3
"""Tries tools/refused.py on a made-up page, a made-up log of rt, and made-up words of the prover.

    tests/refused.py
"""
import sys
from pathlib import Path

sys.dont_write_bytecode = True
sys.path.insert(0, str(Path(__file__).resolve().parent.parent / 'tools'))
from refused import call_at, is_verdict, open_pairs, problems  # noqa: E402

PAGE = '''\
| call | answer equals | edits |
|---|---|---|
| `low::read` | `read_by` | `both_wrong`, `low/read_wrong`, `in_a_law` |
| `low::Part::write` | `written_by` | `both_wrong`, `untried`, `still_proved`, `bad`, `write_wrong` |
| `low::more::lay` | `laid` | `lay_wrong` |

| what | edits |
|---|---|
| of no call | `claimed` |
'''
SOURCES = {
    'crates/low/src/lib.rt': '''\
pub fn read(a: u64) -> u64
    ensures { result ≡ a }
{
    part(a)
}

impl Part {
    pub fn write(self) -> u64
    {
        0
    }
}

// Not the call.
fn part(a: u64) -> u64 {
    a
}
''',
    'crates/low/src/more.rt': '// Lays.\npub fn lay() {\n}\n',
}
LOG = '''\
rt: low proved
rt: must-fail low/both_wrong.edit: refused, as it must be: note: src/lib.rt:9:9: it is not proved that what the function ensures holds
rt: must-fail low/read_wrong.edit: refused, as it must be: ./proofs/read/Answers.antt:8:13: error: `returns`: expected type `a`
rt: must-fail low/in_a_law.edit: refused, as it must be (only by a limit of the prover, which gave no verdict): error
rt: must-fail low/write_wrong.edit: refused, as it must be: note: src/lib.rt:16:5: it is not proved that the sum fits
rt: must-fail low/lay_wrong.edit: refused, as it must be: src/more.rt:2:1: error: what
rt: must-fail low/still_proved.edit: NOT REFUSED: the crate is still proved with this edit
rt: must-fail low/bad.edit: BAD EDIT: an 'old:' text is in src/lib.rt 0 times, and not once
rt: ok; handles allowed: none; must-fail edits: 5 refused, 1 bad; every proof and must-fail edit was done in this run
6 passed, 1 failed
'''
# What rt's words do not settle, and what they say is wrong.
OPEN = {'low/both_wrong': ['low::read'], 'low/in_a_law': ['low::read'], 'low/write_wrong': ['low::Part::write']}
UNTRIED = [f'low/{edit}: it was not tried, or not refused' for edit in ('untried', 'still_proved', 'bad')]

PROVER = {'low/both_wrong': 'fn low::read: proved\nfn low::Part::write: no proof: expected one\n',
          'low/in_a_law': 'fn low::read_more: not proved\nfn low::read: not proved; it calls `low::part`, which is not proved\n',
          'low/write_wrong': 'fn low::Part::write: no proof: it calls `low::part`, which is not proved\nfn low::part: no proof\n'}
SAID = ['low/both_wrong: low::read is not refused']

# The call that a place is in.
PLACES = {
    'src/lib.rt:4': 'low::read', 'src/lib.rt:8': 'low::Part::write', 'src/lib.rt:16': 'low::part', 'src/lib.rt:6': None,
    'src/more.rt:2': 'low::more::lay', 'proofs/Part/write/Invariants.antt:1': 'low::Part::write',
    'proofs/Laws.antt:3': None, 'specs/Part.antt:2': None, '': None,
}

UNBUILT = 'logic=proved functions=2\nrt: the library below did not build, so nothing above it was checked\n'


def main():
    wanted, untried = open_pairs(PAGE, LOG, SOURCES.get)
    if (wanted, untried) != (OPEN, UNTRIED):
        sys.exit(f'of the made-up log it leaves open {wanted}, and says {untried}')
    said = list(problems(wanted, PROVER))
    if said != SAID:
        sys.exit(f"of the prover's made-up words it says {said}")
    for place, call in PLACES.items():
        if call_at('low/edit', place, SOURCES.get) != call:
            sys.exit(f'{place}: it takes it for {call_at("low/edit", place, SOURCES.get)}')
    if not is_verdict(PROVER['low/both_wrong'] + 'logic=not-proved\n') or is_verdict(UNBUILT) or is_verdict(''):
        sys.exit('a check that did not come to the crate is taken for a verdict')
    print('refused.py reports a call that an edit leaves proved')


main()
