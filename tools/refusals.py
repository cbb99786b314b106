#!/usr/bin/env python3
"""Writes the refusals of refusals.txt into the C header, the Rust crate and README, between their markers.

    tools/refusals.py            write the files
    tools/refusals.py --check    write nothing; fail where a file is not what would be written
"""
import re
import sys
import textwrap
from collections import namedtuple

import marked
from marked import ROOT

KEYS = ['number', 'constant', 'variant', 'sentence']
SECTOR_KEYS = ['told', 'sector']
WIDTH = 110

# A sector in Rust, by how often it is told: its type, how it is made of an optional one, and how it makes one.
RustSector = namedtuple('RustSector', 'type made optional')
RUST_SECTORS = {
    'always': RustSector('u64', 'sector: sector?', 'Some(sector)'),
    'sometimes': RustSector('Option<u64>', 'sector', 'sector'),
}

C_MARKERS = ('/* refusals: written by tools/refusals.py from refusals.txt */\n', '/* end of refusals */\n')
C_TEXT_MARKERS = ('    /* sentences: written by tools/refusals.py from refusals.txt */\n', '    /* end of sentences */\n')
README_MARKERS = ('<!-- refusals -->\n', '<!-- /refusals -->\n')


def parse(text):
    """The records of refusals.txt, in order, as dictionaries."""
    text = re.sub(r'^#.*\n', '', text, flags=re.M)
    return [parse_record(record) for record in re.split(r'\n{2,}', text.strip())]


def parse_record(text):
    joined = re.sub(r'\n\s+', ' ', text)
    parts = [line.partition(': ') for line in joined.split('\n')]
    record = {key: value for key, _, value in parts}
    if list(record) not in (KEYS, KEYS + SECTOR_KEYS) or not all(record.values()):
        sys.exit(f'refusals.txt: a record is not {", ".join(KEYS)}, then {", ".join(SECTOR_KEYS)} or nothing:\n{text}')
    if record.get('told', 'always') not in RUST_SECTORS:
        sys.exit(f'refusals.txt: told is neither {" nor ".join(RUST_SECTORS)}:\n{text}')
    # These would be read as syntax of C, Rust or Markdown.
    if re.search(r'["\\|<>]|\*/', joined):
        sys.exit(f'refusals.txt: one of " \\ | < > */ in:\n{text}')
    return record


def check_numbers(records):
    if [record['number'] for record in records] != [str(number) for number in range(1, len(records) + 1)]:
        sys.exit('refusals.txt: the numbers are not 1, 2, 3 and so on')


def tells_sector(record):
    return 'told' in record


def texts(record):
    """The sentence and, where there is one, which sector is told."""
    told = [f'the sector in the way is told: {record["sector"]}'] if tells_sector(record) else []
    return [record['sentence'], *told]


def sentence_case(text):
    return text[0].upper() + text[1:] + '.'


# The C header.

def c_constant(record):
    text = ' '.join(map(sentence_case, texts(record)))
    comment = '\n * '.join(textwrap.wrap(text, WIDTH - 6))
    return f'/* {comment} */\n#define ONDRISTELA_REFUSED_{record["constant"]} {record["number"]}\n'


def c_block(records):
    return '\n' + '\n'.join(c_constant(record) for record in records) + '\n'


def c_case(record):
    """A case of a switch over the numbers; a sentence that is too long for its line goes on in the next."""
    lines = textwrap.wrap(record['sentence'], WIDTH - 20)
    literal = (' "\n' + ' ' * 15 + '"').join(lines)
    return f'    case ONDRISTELA_REFUSED_{record["constant"]}:\n        return "{literal}";\n'


# README.

def readme_block(records):
    rows = [f'| {record["number"]} | {"; ".join(texts(record))} |\n' for record in records]
    return '| No. | Refused when |\n|---|---|\n' + ''.join(rows)


# The Rust crate, in rustfmt's layout.

def rust_doc(indent, text):
    lines = textwrap.wrap(sentence_case(text), WIDTH - 8 - indent)
    return ''.join(f'{" " * indent}/// {line}\n' for line in lines)


def rust_variant(record):
    return f'{rust_doc(4, record["sentence"])}    {record["variant"]}{rust_field(record)},\n'


def rust_field(record):
    """The sector of a variant, in braces."""
    if not tells_sector(record):
        return ''
    doc = rust_doc(8, f'the sector in the way: {record["sector"]}')
    return f' {{\n{doc}        sector: {rust_sector(record).type},\n    }}'


def rust_sector(record):
    return RUST_SECTORS[record['told']]


def rust_pattern(record):
    return f'Refusal::{record["variant"]}' + (' { .. }' if tells_sector(record) else '')


def rust_match(subject, arms):
    return f'        match {subject} {{\n{"".join(arms)}        }}\n'


def rust_number_arm(record):
    return f'            {rust_pattern(record)} => {record["number"]},\n'


def rust_refusal_arm(record):
    field = f' {{ {rust_sector(record).made} }}' if tells_sector(record) else ''
    return f'            {record["number"]} => Some(Refusal::{record["variant"]}{field}),\n'


def rust_sector_arm(record):
    return f'            Refusal::{record["variant"]} {{ sector }} => {rust_sector(record).optional},\n'


def rust_sentence_arm(record):
    """The string stands beside the arrow if it fits, else in a block below it."""
    arm = f'            {rust_pattern(record)} => '
    beside = f'{arm}"{record["sentence"]}",\n'
    if len(beside) <= WIDTH + 1:
        return beside
    lines = textwrap.wrap(record['sentence'], WIDTH - 20)
    literal = (' \\\n' + ' ' * 17).join(lines)
    return f'{arm}{{\n{" " * 16}"{literal}"\n            }}\n'


def rust_sectors(records):
    told = [rust_sector_arm(record) for record in records if tells_sector(record)]
    return rust_match('self', told + ['            _ => None,\n'])


def rust_refusals(records):
    return rust_match('number', [*map(rust_refusal_arm, records), '            _ => None,\n'])


# The files.

def rust_markers(indent, what):
    return f'{indent}// {what}: written by tools/refusals.py from refusals.txt\n', f'{indent}// end of {what}\n'


def blocks(records):
    """What stands between markers: for each file, pairs of the markers and what they hold."""
    return {
        'include/ondristela.h': [
            (C_MARKERS, c_block(records)),
            (C_TEXT_MARKERS, ''.join(map(c_case, records))),
        ],
        'README.md': [(README_MARKERS, readme_block(records))],
        'rust/src/refusal.rs': [
            (rust_markers(' ' * 4, 'variants'), ''.join(map(rust_variant, records))),
            (rust_markers(' ' * 8, 'numbers'), rust_match('self', map(rust_number_arm, records))),
            (rust_markers(' ' * 8, 'refusals'), rust_refusals(records)),
            (rust_markers(' ' * 8, 'sectors'), rust_sectors(records)),
            (rust_markers(' ' * 8, 'sentences'), rust_match('self', map(rust_sentence_arm, records))),
        ],
    }


def main():
    records = parse((ROOT / 'refusals.txt').read_text())
    check_numbers(records)
    marked.run(blocks(records), 'tools/refusals.py', __doc__)


if __name__ == '__main__':
    main()
