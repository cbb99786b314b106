#!/usr/bin/env python3
"""Reports what a gate took from its log, by crate, beside an earlier one: the table of a change's note.

    tools/seconds.py LOG [EARLIER]    the table in Markdown, then what a reader should know of the growth
    tools/seconds.py LOG --keep       write LOG's figures to docs/seconds.csv, with a landing

A log is the output of .ci/run or `rt ci`. EARLIER is one too, or a file that --keep wrote; without it, the figures
of the last landing in docs/seconds.csv are taken. `rt ci` gives no seconds of a crate or an edit, so a log has the
crates, the edits of each and the wall time of the whole gate, and a cell that is not known is empty; what an older
rt wrote behind them is read too. How much of a gate was proved in it, and not kept from an earlier run, is told beside
its time. A request may add BUDGET seconds to the whole gate. Of an older log, a crate with edits took LIMIT seconds at
most, or docs/PROVING.md names it with the reason. The seconds of one crate are told by `rt check --stage-times FILE`.
"""
import csv
import io
import re
import sys
from collections import Counter, namedtuple
from pathlib import Path

ROOT = Path(__file__).resolve().parent.parent
KEPT = 'docs/seconds.csv'
PROVING = 'docs/PROVING.md'
BUDGET = 60
LIMIT = 8

# By crate: the seconds of its check, and of its edits together, None where they are not known; how many edits; those of
# the whole gate; and what rt says of the share of the work that was done in this run.
Seconds = namedtuple('Seconds', 'checks edits counts gate share')


# A log, and the file that is kept.

def number(text):
    return int(text) if text else None


def read_log(text):
    proved = r'\brt: (\w+) (?:proved(?: \((\d+) s\))?|is kept\b.*)$'
    checks = {name: number(seconds) for name, seconds in re.findall(proved, text, re.M)}
    edits, tried = {}, Counter()
    for name, edit, said in re.findall(r'\brt: must-fail (\w+)/([\w.-]+): refused(.*)$', text, re.M):
        seconds = None if edit.endswith('.edit') else re.search(r'(\d+) s\)$', said)
        edits[name] = edits.get(name, 0) + int(seconds[1]) if seconds else None
        tried[name] += 1
    gate = re.search(r'^gate: (\d+) s$', text, re.M)
    share = re.search(r'^rt: ok;.*; (?:done in this run: (.*?)(?: \(of crates.*?\)(.*?))?; the others|every)', text, re.M)
    return Seconds(checks, edits, tried, number(gate and gate[1]),
                   f'{share[1]}{share[2] or ""}' if share and share[1] else 'all' if share else '')


def shown(seconds):
    return '' if seconds is None else seconds


def kept_text(seconds):
    """A row for each crate, and one for the whole gate."""
    rows = [('crate', 'check', 'edits', 'count')]
    rows += [(name, shown(check), shown(seconds.edits.get(name, 0)), seconds.counts[name])
             for name, check in seconds.checks.items()]
    rows.append(('', shown(seconds.gate), '', ''))
    return ''.join(','.join(map(str, row)) + '\n' for row in rows)


def read_kept(text):
    *rows, gate = list(csv.DictReader(io.StringIO(re.sub(r'^#.*\n', '', text, flags=re.M))))
    return Seconds({row['crate']: number(row['check']) for row in rows},
                   {row['crate']: number(row['edits']) for row in rows},
                   Counter({row['crate']: int(row['count']) for row in rows}), number(gate['check']), '')


def read(path):
    text = Path(path).read_text()
    return read_kept(text) if re.match(r'(#.*\n)*crate,', text) else read_log(text)


# The table.

def edit_cell(seconds, count):
    return f'{shown(seconds)} ({count})'.strip()


def total(figures):
    """The sum, or None where not all are known."""
    return None if None in figures.values() else sum(figures.values())


def crate_cells(log, name):
    """A crate's check, and what its must-fail edits took together."""
    return shown(log.checks.get(name)), edit_cell(log.edits.get(name), log.counts[name]) if log.counts[name] else ''


def total_cells(log):
    return shown(total(log.checks)), edit_cell(total(log.edits), log.counts.total())


def table(old, new):
    """The seconds before and after; those of edits with their count behind them."""
    names = dict.fromkeys([*new.checks, *old.checks])
    rows = [(name, crate_cells(old, name), crate_cells(new, name)) for name in names]
    rows.append(('all', total_cells(old), total_cells(new)))
    if old.gate and new.gate:
        rows.append(('the whole gate', (old.gate, ''), (new.gate, '')))
    head = '| seconds | check before | check after | edits before | edits after |\n|---|---|---|---|---|\n'
    return head + ''.join(f'| {name} | {a} | {b} | {c} | {d} |\n' for name, (a, c), (b, d) in rows)


def remarks(old, new, named):
    """What grew too much: the gate, and crates with edits that are not named."""
    if old.gate and new.gate:
        yield f'The gate: {new.gate - old.gate:+} s. A request may add {BUDGET} s; {PROVING} has the exceptions.'
    for when, log in (('before', old), ('after', new)):
        if log.share not in ('', 'all'):
            yield f'Done in the gate {when}: {log.share}; the rest was kept from earlier runs.'
    slow = [f'{name} ({check})' for name, check in new.checks.items()
            if new.counts[name] and check is not None and check > LIMIT and name not in named]
    if slow:
        yield f'More than {LIMIT} s with edits, and not named in {PROVING}: {", ".join(slow)}.'


def named_slow(page):
    """The crates that PROVING.md names as slow: what stands in backticks behind the sentence that says so."""
    _, _, part = page.partition('Crates with edits that take more than')
    return set(re.findall(r'`(\w+)`', part.partition('\n## ')[0]))


def main():
    words = [word for word in sys.argv[1:] if word != '--keep']
    keep = '--keep' in sys.argv
    if not 1 <= len(words) <= 2 - keep:
        sys.exit(__doc__)
    new = read(words[0])
    if keep:
        (ROOT / KEPT).write_text(kept_text(new))
        return
    old = read(words[1] if words[1:] else ROOT / KEPT)
    print(table(old, new), end='')
    named = named_slow((ROOT / PROVING).read_text())
    print(''.join(f'\n{sentence}' for sentence in remarks(old, new, named)))


if __name__ == '__main__':
    main()
