#!/usr/bin/env python3
"""Tells what moved in crates/ between a commit and the working tree, in Markdown for a note of docs/changes/.

    tools/moved.py REV [--stayed PATTERN]

    --stayed PATTERN    name what stayed, where `crate/name` matches: `.` for all, 'Refusal|^layout/' for some

The seconds of such a note are seconds.py's.

Compared are
- definitions: each declaration of specs/, with the heads of the sections that it stands in, without comments;
- types and constants: each struct, enum and const of src/, and each ghost item of an impl or a trait;
- contracts: each function of src/, from its attributes to its last `ensures`;
- proofs: each file of lemmas in proofs/, and of each function the files of its proof together (Invariants, Answers and
  Proof); a function whose proof the prover finds has none.
White space counts nowhere but in proofs. A definition, contract or proof of the same name in another file was moved,
and one of the same text under another name renamed. Of a moved proof, comments and `use` lines are passed over.
"""
import argparse
import io
import re
import subprocess
import tarfile
from collections import Counter, defaultdict, namedtuple
from pathlib import Path

ROOT = Path(__file__).resolve().parent.parent

# A thing that is compared, and its text: as it stands, and what of it must be the same where it was moved.
Item = namedtuple('Item', 'crate file name')
Text = namedtuple('Text', 'whole core')

Changes = namedtuple('Changes', 'changed touched new gone moved renamed stayed')


# The texts of crates/ by path.

def is_compared(path):
    return re.fullmatch(r'crates/\w+/(src/.*\.rt|(specs|proofs)/.*\.antt)', path) and Path(path).name != 'Lib.antt'


def committed_files(revision):
    archive = subprocess.run(['git', 'archive', revision, 'crates'], cwd=ROOT, check=True, stdout=subprocess.PIPE)
    with tarfile.open(fileobj=io.BytesIO(archive.stdout)) as members:
        return {member.name: members.extractfile(member).read().decode()
                for member in members if member.isfile() and is_compared(member.name)}


def present_files():
    paths = (str(path.relative_to(ROOT)) for folder in ('src', 'specs', 'proofs')
             for path in ROOT.glob(f'crates/*/{folder}/**/*.*'))
    return {path: (ROOT / path).read_text() for path in sorted(paths) if is_compared(path)}


# What stands in a file, by name.

def folded(text):
    return ' '.join(text.split())


def uncommented(text, mark):
    return re.sub(rf'(^| ){mark}( .*|$)', r'\1', text, flags=re.M)


def indent_of(line):
    return len(line) - len(line.lstrip())


def declared(line):
    """The name that a line of specs declares."""
    word = r'[^\s:(){}→=]+'
    kinds = r'(?:(?:abbrev|unfoldable|pub) )*'
    match = re.match(rf' *{kinds}(?:(?:record|data) (\S+)|({word}(?: {word})*) :(?=\s|$))', line)
    return match and (match[1] or match[2])


def definitions(text):
    """The declarations of a file of specs, each with what is indented below it and the equations beside it."""
    found, sections, name, depth = {}, [], None, 0
    for line in filter(str.strip, uncommented(text, '--').split('\n')):
        indent = indent_of(line)
        if name and indent > depth:
            found[name].append(line)
            continue
        sections = [section for section in sections if indent_of(section) < indent]
        if re.match(r' *module ', line):
            sections.append(line)
            name = None
        elif re.match(r'(pub )?(use|mod) ', line):
            name = None
        elif declared(line):
            name, depth = declared(line), indent
            found.setdefault(name, []).extend(sections + [line])
        elif name:
            found[name].append(line)
    return {name: folded(' '.join(lines)) for name, lines in found.items()}


def types(text):
    """The structs, enums and constants of a source file."""
    item = r'^(?:pub )?(?:(?:struct|enum) (\w+)(?:<[^>]*>)? \{.*?^\}|const (\w+):.*?;$)'
    found = {match[1] or match[2]: folded(match[0]) for match in re.finditer(item, uncommented(text, '//'), re.M | re.S)}
    return {**found, **ghosts(text)}


def ghosts(text):
    """The ghost items of impls and traits, as the view and the invariant of a model, with their type before them."""
    item = r'^(?:pub )?(?:impl|trait)\b(?P<head>[^\n]*)|^ +ghost (?P<name>\w+)[ :].*?;$'
    found, owner = {}, ''
    for match in re.finditer(item, uncommented(text, '//'), re.M | re.S):
        if match['name'] is None:
            owner = re.sub(r'<[^>]*>|\bwhere\b.*|\{.*', '', match['head']).strip()
        else:
            found[f'{owner}::{match["name"]}'] = folded(match[0])
    return found


def contracts(text):
    """The functions of a source file, methods with their type before them."""
    head = r'(?:#\[[^\n]*\]\n *)*(?:(?:pub|const|unsafe|extern "C") )*fn (?P<name>\w+)'
    function = rf'^(?P<indent> *)(?P<contract>{head}.*?)(?: \{{|\n(?P=indent)\{{\}}?)$'
    owner = r'^(?:impl(?:<[^>]*>)?(?: [^{\n]* for)?|(?:pub )?trait) (?P<owner>\w+)'
    found, before = {}, ''
    for match in re.finditer(f'{owner}|{function}', uncommented(text, '//'), re.M | re.S):
        if match['owner']:
            before = f'{match["owner"]}::'
        else:
            found[f'{before if match["indent"] else ""}{match["name"]}'] = folded(match['contract'])
    return found


def is_public(contract):
    return re.search(r'\bpub ', contract) is not None


def proof_core(text):
    return folded(re.sub(r'^use .*$', '', uncommented(text, '--'), flags=re.M))


def proof_name(file):
    """The function that a file is a part of the proof of, or the file of lemmas."""
    return re.sub(r'/(?:Invariants|Answers|Proof)\.antt$', '', file)


def proofs(files):
    """The proofs of functions and the files of lemmas."""
    found = {}
    for path, text in sorted(files.items()):
        _, crate, kind, file = path.split('/', 3)
        if kind == 'proofs':
            name = proof_name(file)
            whole, core = found.get(Item(crate, name, name), Text('', ''))
            found[Item(crate, name, name)] = Text(whole + text, core + proof_core(text))
    return found


def items_of(files, folder, read):
    """The items of each file in such a folder of a crate."""
    found = {}
    for path, text in files.items():
        _, crate, kind, file = path.split('/', 3)
        if kind == folder:
            found.update({Item(crate, file, name): value for name, value in read(file, text).items()})
    return found


def all_items(files):
    """The items of each sort."""
    functions = items_of(files, 'src', lambda _, text: contracts(text))
    sorts = {
        'definitions': items_of(files, 'specs', lambda _, text: definitions(text)),
        'types and constants': items_of(files, 'src', lambda _, text: types(text)),
        'public contracts': {item: text for item, text in functions.items() if is_public(text)},
        'private contracts': {item: text for item, text in functions.items() if not is_public(text)},
    }
    found = {sort: {item: Text(text, text) for item, text in items.items()} for sort, items in sorts.items()}
    return {**found, 'proofs': proofs(files)}


# What became of them.

def own_name(item):
    """The name that a text has for itself."""
    return re.split('::', item.name.removesuffix('.antt'))[-1].split('/')[-1]


def nameless(item, text):
    """The core of a text with its own name left open."""
    return re.sub(rf'(?<![\w-]){re.escape(own_name(item))}(?![\w-])', '·', text.core)


def paired(gone, new, key):
    """Pairs of what is gone and what is new with the same key, where each side has one."""
    sides = []
    for items in (gone, new):
        by_key = defaultdict(list)
        for item, text in items.items():
            by_key[key(item, text)].append(item)
        sides.append({value: found[0] for value, found in by_key.items() if len(found) == 1})
    return [(old, sides[1][value]) for value, old in sides[0].items() if value in sides[1]]


def without(items, taken):
    return {item: text for item, text in items.items() if item not in taken}


def compare(old, new):
    common = [item for item in new if item in old]
    gone, came, pairs = without(old, new), without(new, old), []
    for key in (lambda item, text: (item.name, text.core), nameless, lambda item, _: item.name):
        found = paired(gone, came, key)
        gone, came = without(gone, {a for a, _ in found}), without(came, {b for _, b in found})
        pairs += found
    return Changes(
        changed=[item for item in common if old[item].core != new[item].core],
        touched=[item for item in common if old[item].core == new[item].core and old[item].whole != new[item].whole],
        new=list(came),
        gone=list(gone),
        moved=[(a, b, old[a].core == new[b].core) for a, b in pairs if a.name == b.name],
        renamed=[(a, b) for a, b in pairs if a.name != b.name],
        stayed=[item for item in common if old[item].whole == new[item].whole])


def compare_files(old, new):
    """The changes of each sort."""
    before, after = all_items(old), all_items(new)
    return {sort: compare(before[sort], after[sort]) for sort in after}


# The report.

def quoted(names):
    return ', '.join(f'`{name}`' for name in names)


def by_crate(items):
    crates = defaultdict(list)
    for item in sorted(items):
        crates[item.crate].append(item.name)
    return '; '.join(f'{crate}: {quoted(sorted(names))}' for crate, names in crates.items())


def moves(pairs):
    """Moved items, those with the same way together. A file of proofs is its own name."""
    ways = defaultdict(list)
    for old, new, same in pairs:
        ends = [item.crate if item.name == item.file else f'{item.crate}/{item.file}' for item in (old, new)]
        ways[tuple(ends)].append(f'`{old.name}`{"" if same else " (and changed)"}')
    return '; '.join(f'{old} to {new}: {", ".join(sorted(names))}' for (old, new), names in sorted(ways.items()))


def renames(pairs):
    return ', '.join(f'`{old.name}` of {old.crate} to `{new.name}`' + f' of {new.crate}' * (old.crate != new.crate)
                     for old, new in sorted(pairs))


def counts(stayed, there):
    """How many of each crate's items stayed, and of how many where that is not all."""
    kept, all_of = (Counter(item.crate for item in items) for items in (stayed, there))
    return ', '.join(f'{crate} {kept[crate]}' + f' of {all_of[crate]}' * (kept[crate] < all_of[crate])
                     for crate in sorted(all_of))


def present(changes):
    """The items that there are now."""
    return (changes.changed + changes.touched + changes.new + changes.stayed
            + [pair[1] for pair in changes.moved + changes.renamed])


def sort_lines(sort, changes, pattern):
    yield f'**{sort.capitalize()}**'
    yield ''
    words = {
        'changed': by_crate(changes.changed),
        'changed in comments and `use` lines alone': by_crate(changes.touched),
        'new': by_crate(changes.new),
        'gone': by_crate(changes.gone),
        'moved': moves(changes.moved),
        'renamed': renames(changes.renamed),
    }
    yield from (f'- {word}: {text}' for word, text in words.items() if text)
    there = present(changes)
    yield f'- stayed, letter by letter: {len(changes.stayed)} of {len(there)} ({counts(changes.stayed, there)})'
    named = [item for item in changes.stayed if pattern and re.search(pattern, f'{item.crate}/{item.name}')]
    if named:
        yield f'- among these: {by_crate(named)}'
    yield ''


def report(old, new, pattern=None):
    lines = [line for sort, changes in compare_files(old, new).items() for line in sort_lines(sort, changes, pattern)]
    return '\n'.join(lines)


def main():
    parser = argparse.ArgumentParser(description=__doc__, formatter_class=argparse.RawDescriptionHelpFormatter)
    parser.add_argument('revision', metavar='REV')
    parser.add_argument('--stayed', metavar='PATTERN')
    words = parser.parse_args()
    print(report(committed_files(words.revision), present_files(), words.stayed))


if __name__ == '__main__':
    main()
