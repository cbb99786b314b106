#!/usr/bin/env python3
"""Tries tools/seconds.py on made-up logs, of today's rt and of an older one: what it reads, keeps, and says of the growth.

    tests/seconds.py
"""
import sys
from pathlib import Path

sys.dont_write_bytecode = True
sys.path.insert(0, str(Path(__file__).resolve().parent.parent / 'tools'))
from seconds import kept_text, named_slow, read_kept, read_log, remarks, table  # noqa: E402

OLD_LOG = '''\
rt: low proved (11 s)
rt: high proved (20 s)
rt: must-fail low/one: refused, as it must be (first at specs/Bytes.antt:9:3; 12 s)
rt: must-fail low/two: refused, as it must be (13 s)
rt: tool ran as nobody, and wrote what its file 'stdout' has (0 s)
gate: 70 s
4 passed, 0 failed
'''
NEW_LOG = '''\
rt: low proved (5 s)
rt: middle proved (6 s)
rt: high proved (20 s)
rt: must-fail low/one: refused, as it must be (first at specs/Bytes.antt:9:3; 6 s)
gate: 40 s
'''
SECONDS = '''\
| seconds | check before | check after | edits before | edits after |
|---|---|---|---|---|
| low | 11 | 5 | 25 (2) | 6 (1) |
| middle |  | 6 |  |  |
| high | 20 | 20 |  |  |
| all | 31 | 31 | 25 (2) | 6 (1) |
| the whole gate | 70 | 40 |  |  |
'''

# A log of today's rt, which gives no seconds of a crate, and what is read of it beside the one before.
TODAY_LOG = '''\
== low
fn low::one: proved
rt: low proved
rt: middle is kept: an earlier run on this machine proved the same files over the same libraries
rt: low: trying its must-fail edits (2)
rt: must-fail low/one.edit: refused, as it must be: note: src/lib.rt:9:3: it is not proved that (12 s)
rt: must-fail low/two.edit: refused, as it must be (only by a limit of the prover): took more than 9 s)
rt: must-fail low/three.edit: BAD EDIT: it changes nothing
rt: tool: its tests are proved
rt: high proved
rt: tool ran, and wrote what its file stdout has
rt: ok; handles allowed: none; must-fail edits: 2 refused, 1 bad; done in this run: 3 of the 4 proofs (of crates and of their tests) and 1 of the 2 must-fail edits; the others are kept from earlier runs of the same files on this machine
gate: 50 s
4 passed, 0 failed
'''
TODAY = '''\
| seconds | check before | check after | edits before | edits after |
|---|---|---|---|---|
| low | 5 |  | 6 (1) | (2) |
| middle | 6 |  |  |  |
| high | 20 |  |  |  |
| all | 31 |  | 6 (1) | (2) |
| the whole gate | 40 | 50 |  |  |
'''
TODAY_KEPT = '''\
crate,check,edits,count
low,,,2
middle,,0,0
high,,0,0
,50,,
'''
SHARE = 'Done in the gate after: 3 of the 4 proofs and 1 of the 2 must-fail edits; the rest was kept from earlier runs.'

PAGE = '''\
`high` is a crate.
Crates with edits that take more than 8 s: `low` computes.

## Another part, of `middle`
'''

KEPT = '''\
crate,check,edits,count
low,5,6,1
middle,6,0,0
high,20,0,0
,40,,
'''


def problems():
    old, new = read_log(OLD_LOG), read_log(NEW_LOG)
    if table(old, new) != SECONDS:
        yield f'the table of the made-up logs is\n{table(old, new)}'
    if kept_text(new) != KEPT:
        yield f'of the later log it keeps\n{kept_text(new)}'
    if table(old, read_kept('# As of then.\n' + kept_text(new))) != SECONDS:
        yield 'what it keeps is not read as the log is'
    if read_kept(kept_text(read_log(''))).gate is not None:
        yield 'a log that ends early has a time for the gate'
    today = read_log(TODAY_LOG)
    if table(new, today) != TODAY:
        yield f"the table of today's made-up log is\n{table(new, today)}"
    if kept_text(today) != TODAY_KEPT or table(new, read_kept(kept_text(today))) != TODAY:
        yield f"of today's log it keeps\n{kept_text(today)}"
    if list(remarks(new, today, set()))[1:] != [SHARE]:
        yield f"of today's log it says {list(remarks(new, today, set()))}"
    if read_log(TODAY_LOG.replace('done in this run: 3 of', 'every proof and must-fail edit was done in this run; 3 of')).share != 'all':
        yield 'it does not see that all was done in a run'
    grown = list(remarks(new, old, set()))
    if not any('+30 s' in sentence for sentence in grown) or not any('low (11)' in sentence for sentence in grown):
        yield f'of what grew it says {grown}'
    if any('low' in sentence or 'high' in sentence for sentence in remarks(new, old, {'low'})):
        yield 'it tells of a crate that is named, or of one without edits'
    if named_slow(PAGE) != {'low'}:
        yield f'of the made-up page it takes {named_slow(PAGE)} as slow'


def main():
    if sys.argv[1:]:
        sys.exit(__doc__)
    found = list(problems())
    for sentence in found:
        print(f'tools/seconds.py is wrong: {sentence}')
    if found:
        sys.exit(1)
    print('seconds: the made-up logs were read and kept')


if __name__ == '__main__':
    main()
