#!/usr/bin/env python3
"""Holds docs/CLAIMS.md and docs/RULES.md against the code: what they name exists, and what they must name is there.

    tools/claims.py    fail where a page is wrong, with a sentence for each place

named.py says what may stand in backticks; here, an edit of a crate that states claims may stand without its crate.
For RULES.md see rules.py, for CLAIMS.md here.

A table whose first head is "call" has a row for each public function: the function, as `crate::name`; what it
equals, where each name is one that its contract cites; and last its must-fail edits, at least two of its own
crate. No public function has a `requires`.

A table whose first head is "exported function" has a row for each function that the static library exports, and
beside it the function that it hands on to, by way of the library's function of the crate that Rattle crates call:
at each step contract, parameters and their order are the next one's letter by letter, and the body is the call with
these parameters. So the edits of that last function are enough for all.

In another table, a column that has "edit" or "edits" in its head has nothing but edits, and one that has
"field of `Record`" nothing but fields of that record and names with a dot or slash. Each field of the record
Claims stands in such a column, with an edit in one of its rows, and each edit of a crate of claims in a column
of edits or with its crate, as `guarantees/edit`.

No count of such things is written by hand.
"""
import re
import sys

import rules
from named import (CLAIMING, CLAIMS, ROOT, STATING, exists, is_claim_edit, is_edit, names_in, read_files,
                   read_repository, rows, unended_problems)

PAGE = 'docs/CLAIMS.md'
# The crate of the static library, and the one whose functions Rattle crates call in the place of its exports.
EXPORTING = 'ondristela_c'
BOUNDARY = ('ondristela', EXPORTING)

# What is not counted by hand.
COUNTED = ('edits functions calls theorems laws definitions records fields claims contracts proofs crates '
           'programs files tests checks cases openings layouts headers views makings reads writes '
           'interleavings refusals samples').split()
NUMERALS = ('three four five six seven eight nine ten eleven twelve thirteen fourteen fifteen sixteen '
            'seventeen eighteen nineteen twenty').split()


# The page.

def is_call_row(row):
    return row.heads[0] in ('call', 'exported function')


def cells_headed(page, pattern):
    """The cells, outside the tables of calls, of each column whose head matches, with the match."""
    for row in rows(page):
        for head, cell in zip(row.heads, row.cells):
            match = re.search(pattern, head)
            if match and not is_call_row(row):
                yield row.line, match, [name.text for name in names_in(cell)]


def edit_cells(page):
    return [(line, names) for line, _, names in cells_headed(page, r'\bedits?\b')]


def field_cells(page):
    """The fields that stand in columns headed with a record."""
    return [(line, match[1], [name for name in names if not re.search(r'[./]', name)])
            for line, match, names in cells_headed(page, r'\bfields? of `(\w+)`')]


# What is wrong: pairs of a line and a sentence.

def name_problems(page, repository):
    calls = {row.line: row for row in rows(page) if is_call_row(row)}
    for name in names_in(page):
        edits = name.line in calls and f'`{name.text}`' in calls[name.line].cells[-1]
        if not edits and not exists(name.text, repository) and not is_claim_edit(name.text, repository):
            yield name.line, f'`{name.text}` is nowhere in the code'
    for line, names in edit_cells(page):
        for name in names:
            if not is_claim_edit(name, repository):
                yield line, f'`{name}` is no must-fail edit of {", ".join(STATING)}'
    for line, record, names in field_cells(page):
        for name in names:
            if name not in repository.records.get(record, set()):
                yield line, f'`{name}` is no field of {record}'


def called(row):
    """The function of a row, as `crate::name`."""
    name = row.cells[0].strip('`')
    return f'{EXPORTING}::{name}' if row.heads[0] == 'exported function' else name


def row_problems(row, function, crate, repository):
    if len(row.cells) < 3:
        yield 'a row has a function, what it equals, and edits'
        return
    definitions = [name.text for name in names_in(row.cells[1])]
    if not definitions:
        yield f'no definition stands beside `{row.cells[0].strip("`")}`'
    for name in definitions:
        if name not in function.cited:
            yield f'`{name}` is not in the contract at {function.place}'
    edits = {name.text for name in names_in(row.cells[-1])}
    for edit in sorted(edits):
        if not is_edit(edit, crate, repository):
            yield f'`{edit}` is no must-fail edit of {crate}'
    if len({edit.removeprefix(f'{crate}/') for edit in edits} & repository.crates[crate].edits) < 2:
        yield f'fewer than two must-fail edits of {crate} stand beside {row.cells[0]}'


def handing_on(name, functions):
    """A function of the boundary and those of the boundary that it hands on to, in turn."""
    names = []
    while name in functions and functions[name][0] in BOUNDARY and name not in names:
        names.append(name)
        name = functions[name][1].hands_on
    return names


def forwarders(row, functions):
    """What a row of exported functions is about: the exported one, and the one that Rattle crates call in its place."""
    name = called(row)
    steps = handing_on(name, functions)
    return dict.fromkeys(steps + [other for crate in BOUNDARY if (other := f'{crate}::{name.partition("::")[2]}') in functions])


def forward_problems(row, name, functions):
    """What a function of the boundary is other than a call, step by step, of the function beside it, with its contract."""
    function, other = functions[name][1], row.cells[-1].strip('`')
    goal = functions.get(function.hands_on)
    if goal is None or goal[0] not in BOUNDARY and function.hands_on != other:
        yield f'the body at {function.place} is not the call of `{other}` with the parameters in their order'
    elif function.contract != goal[1].contract:
        yield f'the contract at {function.place} is not that of `{function.hands_on}`, letter by letter'
    elif goal[0] in BOUNDARY and goal[1].hands_on == name:
        yield f'the body at {function.place} comes back to itself'


def call_problems(page, repository):
    functions = {name: (crate, function) for crate, item in repository.crates.items()
                 for name, function in item.functions.items()}
    listed = set()
    for row in filter(is_call_row, rows(page)):
        name = called(row)
        listed.add(name)
        if name not in functions:
            yield row.line, f'{row.cells[0]} is no public function'
            continue
        crate, function = functions[name]
        if crate in BOUNDARY:
            listed.update(forwarders(row, functions))
            found = [sentence for other in forwarders(row, functions) for sentence in forward_problems(row, other, functions)]
        else:
            found = row_problems(row, function, crate, repository)
        yield from ((row.line, sentence) for sentence in found)
    end = page.count('\n') + 1
    for name, (_, function) in sorted(functions.items()):
        if name not in listed:
            yield end, f'no row has the public function `{name}`, at {function.place}'
        if function.requires:
            yield end, f'the public function `{name}`, at {function.place}, has a `requires`'


def tried_fields(page):
    """The fields of Claims that have an edit in one of their rows."""
    tried = {line for line, names in edit_cells(page) if names}
    return {name for line, record, names in field_cells(page) if record == 'Claims' and line in tried for name in names}


def claim_problems(page, repository):
    """What the page leaves out of the record of all claims, and of the edits that try it."""
    if repository.claims is None:
        return
    dotted = {name.text for name in names_in(page)}
    edits = {name for _, names in edit_cells(page) for name in names}
    end = page.count('\n') + 1
    for field in sorted(repository.claims - tried_fields(page)):
        yield end, f'no row has the field `{field}` of {CLAIMS} with a must-fail edit'
    own = {f'{crate}/{name}' for crate in STATING for name in edits} | edits | dotted
    for crate in CLAIMING:
        for edit in sorted(repository.crates[crate].edits if crate in repository.crates else ()):
            if f'{crate}/{edit}' not in own:
                yield end, f'the must-fail edit `{edit}` of {crate} is not on the page'


def count_problems(page):
    """Counts written by hand: a number, at most one word, and a thing that is counted."""
    prose = re.sub(r'`[^`\n]*`', '`', page)
    number = rf'\b(?<![\^,.-])(?:\d[\d,.]*|{"|".join(NUMERALS)})'
    for match in re.finditer(rf'{number}\s+(?:[\w-]+\s+)?(?:{"|".join(COUNTED)})\b', prose, re.I):
        phrase = ' '.join(match[0].split())
        yield prose.count('\n', 0, match.start()) + 1, f'"{phrase}" is a count written by hand'


def all_problems(page, repository):
    yield from unended_problems(page)
    yield from name_problems(page, repository)
    yield from call_problems(page, repository)
    yield from claim_problems(page, repository)
    yield from count_problems(page)


def page_problems(path, page, repository):
    """A sentence for each thing that is wrong on a page, with its place."""
    check = {PAGE: all_problems, rules.PAGE: rules.all_problems}[path]
    return [f'{path}:{line}: {sentence}' for line, sentence in sorted(set(check(page, repository)))]


def problems(repository):
    """The same for both pages."""
    return [sentence for path in (PAGE, rules.PAGE)
            for sentence in page_problems(path, (ROOT / path).read_text(), repository)]


def main():
    if sys.argv[1:]:
        sys.exit(__doc__)
    found = problems(read_repository(read_files()))
    for sentence in found:
        print(sentence)
    if found:
        sys.exit(1)
    print(f'claims: {PAGE} and {rules.PAGE} name what exists, and {PAGE} every public function')


if __name__ == '__main__':
    main()
