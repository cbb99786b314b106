"""Holds docs/RULES.md against the code: the part of claims.py for that page.

named.py says what may stand in backticks; here also one of WORDS.

A rule's bullet "definition: `a`, `b` (path); claim: `c`" has behind its definitions the file under crates/ that
declares them, and as claims what specs of a crate of claims declare, or a function of one. In a table the head of
a column is "definition (path)" or "claim". A column headed "edit" has one edit or more, with their crates, and nothing
else. The table headed "file of claims" has a row for every file of the specs that state claims, with names that the file declares.
"""
import re
from pathlib import Path

from named import (PLAIN, STATING, block_names, blocks, exists, is_declared, is_edit, names_in, rows,
                   unended_problems)

PAGE = 'docs/RULES.md'

# Words of the map program's output, and the bytes of the published check value.
WORDS = set('mark VERA TRUE version needs kind standard hidden host start size sectors first last'.split())
WORDS |= {'refused 1', 'refused N', '123456789'}


def is_claim(name, repository):
    """What specs of a crate of claims declare, or a public function of one."""
    stated, functions = repository.stated
    return name in PLAIN | functions or is_declared(name, stated, repository)


# What is wrong: pairs of a line and a sentence.

def name_problems(page, repository):
    for name in names_in(page):
        if name.text not in WORDS and not exists(name.text, repository):
            yield name.line, f'`{name.text}` is nowhere in the code'


def file_problems(names, path, repository):
    """Names that a file does not declare."""
    declared = repository.declared.get(path)
    for name in names:
        if declared is None:
            yield name.line, f'{path} is no file of definitions'
        elif not is_declared(name.text, declared, repository):
            yield name.line, f'`{name.text}` is not declared in {path}'


def definition_problems(line, text, repository):
    """Definitions, each group of them with its file behind it."""
    end = 0
    for match in re.finditer(r'(.*?)\(([\w/]+\.(?:antt|rt))\)', text, re.S):
        names = block_names(line + text.count('\n', 0, match.start()), match[1])
        yield from file_problems(names, f'crates/{match[2]}', repository)
        end = match.end()
    for name in block_names(line + text.count('\n', 0, end), text[end:]):
        yield name.line, f'no file stands behind the definition `{name.text}`'


def stated_problems(names, repository):
    for name in names:
        if not is_claim(name.text, repository):
            yield name.line, f'`{name.text}` is no claim'


def rule_problems(page, repository):
    """The bullets that give a rule's definitions and claims."""
    for line, text in blocks(page):
        if 'definition:' not in text:
            continue
        definitions, _, claims = text.partition('claim:')
        claim_line = line + definitions.count('\n')
        if not claims:
            yield line, 'no claim stands beside the definition'
        yield from definition_problems(line, definitions, repository)
        yield from stated_problems(block_names(claim_line, claims), repository)


def cell_problems(line, head, cell, repository):
    """A cell by the head of its column."""
    path = re.fullmatch(r'definition \((\S+)\)', head)
    if path:
        yield from file_problems(block_names(line, cell), f'crates/{path[1]}', repository)
    if head == 'claim':
        yield from stated_problems(block_names(line, cell), repository)
    if head == 'edit':
        if not any(block_names(line, cell)):
            yield line, 'no must-fail edit stands beside this'
        for name in block_names(line, cell):
            if not is_edit(name.text, None, repository):
                yield line, f'`{name.text}` is no must-fail edit, written with its crate'


def table_problems(page, repository):
    for row in rows(page):
        for head, cell in zip(row.heads, row.cells):
            yield from cell_problems(row.line, head, cell, repository)


def list_problems(page, repository):
    """The table of the files of claims."""
    specs = tuple(f'crates/{crate}/specs/' for crate in STATING)
    files = {path for path in repository.declared if path.startswith(specs) and Path(path).name != 'Lib.antt'}
    for row in rows(page):
        if row.heads[0] == 'file of claims':
            path = f'crates/{row.cells[0].strip("`")}'
            files.discard(path)
            yield from file_problems(block_names(row.line, row.cells[1]), path, repository)
    for path in sorted(files):
        yield page.count('\n') + 1, f'no row has the claims of {path}'


def all_problems(page, repository):
    yield from unended_problems(page)
    yield from name_problems(page, repository)
    yield from rule_problems(page, repository)
    yield from table_problems(page, repository)
    yield from list_problems(page, repository)
