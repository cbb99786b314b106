#!/usr/bin/env python3
"""Tries tools/claims.py: spoils docs/CLAIMS.md and docs/RULES.md in memory, one place at a time, and fails where the
check does not tell of it.

    tests/claims.py
"""
import re
import sys
from pathlib import Path

sys.dont_write_bytecode = True
sys.path.insert(0, str(Path(__file__).resolve().parent.parent / 'tools'))
import rules  # noqa: E402
from claims import BOUNDARY, PAGE, all_problems, called, claim_problems, is_call_row, problems  # noqa: E402
from named import CLAIMING, CLAIMS, ROOT, STATING, read_files, read_repository, rows  # noqa: E402

RECORD = 'pub record Claims : Type 0 where\n  -- a claim\n  pub stated : ℕ\n  pub forgotten : ℕ\n'


# Wrong pages: a name for what is wrong, and the page.

def misspelt(page, check, repository):
    """The names in backticks that are not told of where each has a letter too many: the first of a row, then all others."""
    names = list(re.finditer(r'`([^`\n]+)`', page))
    for spoilt in ({name.start() for name in names if page[:name.start()].endswith('\n| ')} ^ every
                   for every in (set(), {name.start() for name in names})):
        text = re.sub(r'`([^`\n]+)`', lambda name: f'`{name[1]}x`' if name.start() in spoilt else name[0], page)
        told = {(line, name) for line, sentence in check(text, repository) for name in re.findall(r'`([^`]+)`', sentence)}
        for name in names:
            line = page.count('\n', 0, name.start()) + 1
            if name.start() in spoilt and not any(at == line and other.endswith(f'{name[1]}x') for at, other in told):
                yield f'line {line}, {name[0]} misspelt'


def with_ends(page, ends):
    """The page with something at its end that must not be there."""
    for end in ends:
        yield end, f'{page}\n{end}\n'


def foreign(crates, repository):
    """An edit of other crates alone, and no other name."""
    edits = set().union(*(item.edits for item in repository.crates.values()))
    return min(edits.difference(*(repository.crates[crate].edits for crate in crates)) - repository.names)


def row_edits(row, repository):
    """Each line that a row of calls must not be."""
    text = f'| {" | ".join(row.cells)} |'
    first, equals, *_, edits = row.cells
    crate = called(row).split('::')[0]
    yield 'left out', ''
    yield 'with one edit', text.replace(edits, edits.split(',')[0])
    yield 'with an edit of another crate', text.replace(edits, f'{edits}, `{foreign([crate], repository)}`')
    yield 'with another definition', text.replace(f'| {equals} |', '| `gather` |')
    yield 'with no definition', text.replace(f'| {equals} |', '| what it should |')
    yield 'for a private function', text.replace(first, '`layout::starts_after_headers`')


def forward_edits(row):
    """Each line that a row of exported functions must not be."""
    first, other = row.cells
    yield 'left out', ''
    yield 'with another function', f'| {first} | `layout::is_sound` |'
    yield 'with a function that there is not', f'| {first} | `layout::nothing` |'
    yield 'for a function that is not exported', f'| `location` | {other} |'


def with_line(page, line, text):
    lines = page.split('\n')
    return '\n'.join(lines[:line - 1] + ([text] if text else []) + lines[line:])


def wrong_rows(page, repository):
    for row in filter(is_call_row, rows(page)):
        edits = row_edits(row, repository) if row.heads[0] == 'call' else forward_edits(row)
        for name, text in edits:
            yield f'the row of {row.cells[0]} {name}', with_line(page, row.line, text)


def wrong_claims(page, repository):
    """Pages that docs/CLAIMS.md must not be."""
    edit = foreign(STATING, repository)
    yield from wrong_rows(page, repository)
    yield from with_ends(page, [
        'All 12 edits are refused.', 'There are 1,200 proved functions.', 'The seven theorems.',
        '`Layout.nothing`', '`layout/nothing`', '`layout::nothing`', '`guarantees/specs/Nothing.antt`',
        f'`{edit}`', f'| edits |\n|---|\n| `{edit}` |', '| edits |\n|---|\n| `layout` |',
        '| field of `Layout` |\n|---|\n| `layout` |', 'One `name\nin two` lines.'])


def wrong_bullets(page):
    """Each rule with its file changed or left out, or without a claim."""
    for match in re.finditer(r' \(\w+/\w+/\w+\.\w+\)(?=[;,])', page):
        before, after = page[:match.start()], page[match.end():]
        yield f'{match[0]} exchanged at {match.start()}', f'{before} (view/specs/Lib.antt){after}'
        yield f'{match[0]} left out at {match.start()}', f'{before}{after}'
    for match in re.finditer(r'definition:[^:]*?(claim:)', page):
        yield f'no claim at {match.start(1)}', f'{page[:match.start(1)]}{page[match.end(1):]}'


def wrong_files(page):
    """The table of files with a row left out, or with another file's claim in it."""
    for row in rows(page):
        if row.heads[0] == 'file of claims':
            yield f'the row of {row.cells[0]} left out', with_line(page, row.line, '')
            yield f'the row of {row.cells[0]} with `magic_of`', with_line(page, row.line, f'| {row.cells[0]} | `magic_of` |')


def wrong_rules(page):
    """Pages that docs/RULES.md must not be."""
    yield from wrong_bullets(page)
    yield from wrong_files(page)
    yield from with_ends(page, [
        '- `Tells.vera_told`, `.nothing`', '- `Tells.vera_told`, `judge`, `.true_told`', '- `Tells.vera_told`\n- `.true_told`',
        '`Keeps nonesuch`', '`refused 2`', '`sum_wraps`', '| edit |\n|---|\n| `sum_wraps` |', '| edit |\n|---|\n| none |',
        '| claim |\n|---|\n| `magic_of` |',
        '| definition (layout/specs/Rules.antt) |\n|---|\n| `judge` |', '- definition: none; claim: `magic_of`',
        '- definition: `Tells.nothing` (layout/specs/Rules.antt); claim: `Tells`', 'One `name\nin two` lines.'])


# Code that the page does not tell of, or that must not be.

def with_function(files, contract):
    path = 'crates/layout/src/lib.rt'
    return {**files, path: f'{files[path]}\npub fn unheard()\n{contract}{{\n}}\n'}


def function_problems(page, files):
    """What the check gets wrong of a function that no row has, and of one with a `requires`."""
    for contract, sentence in (('', 'no row has'), ('    requires { Unit }\n', 'has a `requires`'),
                               ('    requires low { Unit }\n    requires high { Unit }\n', 'has a `requires`')):
        found = all_problems(page, read_repository(with_function(files, contract)))
        if not any(sentence in problem for _, problem in found):
            yield f'a public function of which it should say: {sentence}'


def clause_problems(files):
    """What the check gets wrong of a function one of whose clauses has the name of a definition, and does not cite it."""
    page = '| call | answer equals | edits |\n|---|---|---|\n| `layout::unheard` | `judge` | |\n'
    found = all_problems(page, read_repository(with_function(files, '    ensures judge { Unit }\n')))
    if not any('`judge` is not in the contract' in problem for _, problem in found):
        yield 'a definition of which a contract has no more than a clause of its name'


def wrong_forwards(text):
    """Sources of the boundary's functions in which one does not just hand on, or has another contract."""
    call = re.search(r'\w+::\w*read\(view, image, first, count, buffer, sector\)', text)[0]
    for name, old, new in (
            ('exchanges two parameters', call, call.replace('first, count', 'count, first')),
            ('passes a number', call, call.replace('first,', '0,')),
            ('calls another function', call, call.replace('read(', 'read_raw(')),
            ('does more than call', call, f'let answer = {call};\n    answer'),
            ('promises less', '{ host.new ≡ ', '{ host.new ≡ id '),
            ('has a premise', 'ensures { ReadCall ', 'ensures { first ≡ 0 → ReadCall '),
            ('has a clause of another name', '    ensures { ReadCall ', '    ensures after { ReadCall '),
            ('has its parameters in another order', 'first: u64,\n    count: u64,\n    buffer: &mut [u8],',
             'count: u64,\n    first: u64,\n    buffer: &mut [u8],')):
        assert old in text, old
        yield name, text.replace(old, new, 1)


def forward_problems(page, files):
    """What the check gets wrong of functions of the boundary that are not their callees letter by letter."""
    for crate in BOUNDARY:
        path = f'crates/{crate}/src/lib.rt'
        for name, text in wrong_forwards(files[path]):
            if not any(all_problems(page, read_repository({**files, path: text}))):
                yield f'a function of {crate} that {name}'
        unheard = f'{files[path]}\npub fn unheard() -> u64\n{{\n    layout::nothing()\n}}\n'
        if not any(all_problems(page, read_repository({**files, path: unheard}))):
            yield f'a function of {crate} that no row has'


def told(repository):
    """A page with a made-up record's fields and every edit of the crates of claims."""
    edits = [f'`{crate}/{edit}`' for crate in CLAIMING for edit in sorted(repository.crates[crate].edits)]
    rows_of = f'| `stated` | {", ".join(edits[1:])} |\n| `forgotten` | {edits[0]} |\n'
    return f'| field of `Claims` | edits |\n|---|---|\n{rows_of}'


def record_problems(repository):
    """What the check of a made-up record of all claims gets wrong."""
    page = told(repository)
    if any(claim_problems(page, repository)):
        yield 'a page with every claim and edit, which is not wrong'
    for part in re.findall('`[^`]+`', page):
        if part != '`Claims`' and not any(claim_problems(page.replace(part, ''), repository)):
            yield f'{part} left out'


def claims_unnoticed(page, files):
    repository = read_repository(files)
    yield from misspelt(page, all_problems, repository)
    for name, text in wrong_claims(page, repository):
        if not any(all_problems(text, repository)):
            yield name
    yield from function_problems(page, files)
    yield from clause_problems(files)
    yield from forward_problems(page, files)
    yield from record_problems(read_repository({**files, CLAIMS: RECORD}))


def rules_unnoticed(page, files):
    repository = read_repository(files)
    yield from misspelt(page, rules.all_problems, repository)
    for name, text in wrong_rules(page):
        if not any(rules.all_problems(text, repository)):
            yield name
    if any(rules.all_problems(f'{page}\n```\none `name\n```\n- `Tells.vera_told`,\n  `.true_told`\n', repository)):
        yield 'a fenced block and a `.field`, which are not wrong'


def main():
    if sys.argv[1:]:
        sys.exit(__doc__)
    files = read_files()
    found = problems(read_repository(files))
    for path, unnoticed in ((PAGE, claims_unnoticed), (rules.PAGE, rules_unnoticed)):
        page = (ROOT / path).read_text()
        found += [f'{path}: tools/claims.py is wrong on this: {name}' for name in unnoticed(page, files)]
    for sentence in found:
        print(sentence)
    if found:
        sys.exit(1)
    print('claims: every wrong page that was tried was told of')


if __name__ == '__main__':
    main()
