"""What the code declares, and what stands in backticks on a page: shared by claims.py and rules.py.

What stands in backticks is one of these, and ends in the line that it begins in:
- a path of the repository, or the end of one: `guarantees/specs/Opening.antt`, `specs/`;
- a crate, and `crate::name` for a function, type or constant of it;
- `crate/edit` for a must-fail edit;
- `Record.field`, for a record of specs or a struct, and right after one, in the same bullet or cell, `.field` for
  another of its fields;
- a name of specs, proofs or src: definition, record, field, constructor, theorem, function, type, constant; or
  a definition with an argument, as in `Keeps version`;
- one of PLAIN, or of the words that a page has besides.
Fenced blocks are passed over.
"""
import os
import re
from collections import namedtuple
from functools import lru_cache
from pathlib import Path

ROOT = Path(__file__).resolve().parent.parent
CLAIMS = 'crates/guarantees/specs/Claims.antt'
# The crates whose specs state the claims that the record Claims holds.
STATING = ('header_claims', 'access_claims', 'guarantees')
# .. and those that have what claims are said in, or cases; each must-fail edit of all these makes a claim wrong.
CLAIMING = (*STATING, 'model', 'worked_headers', 'worked_sectors', 'worked_cipher', 'worked_cases')

# Words of Rattle and C that may stand in backticks.
PLAIN = {'requires', '&mut', 'memmove'}

Function = namedtuple('Function', 'place cited requires contract hands_on')
Crate = namedtuple('Crate', 'edits names functions')
Repository = namedtuple('Repository', 'paths crates declared names records claims stated')
Row = namedtuple('Row', 'line heads cells')
Name = namedtuple('Name', 'line text')


# The repository, from its texts by path.

def crate_of(path):
    return path.split('/')[1] if path.startswith('crates/') else None


def spec_names(text):
    """What a file of specs or proofs declares: everything that a type follows."""
    declared = r'^ *(?:(?:abbrev|unfoldable|pub) )*(?:(?:record|data) (\S+)|((?:[^\s:(){}→=]+ )+):(?=\s))'
    return {name for match in re.finditer(declared, text, re.M) for name in (match[1] or match[2]).split()}


def spec_records(text):
    """The fields of each record."""
    blocks = re.finditer(r'^( *)pub record (\S+).*\n((?:\1  .*\n|\n)*)', text + '\n', re.M)
    return {match[2]: set(' '.join(re.findall(rf'^{match[1]}  pub ([^:(]+) :', match[3], re.M)).split())
            for match in blocks}


def source_names(text):
    return set(re.findall(r'(?:\b(?:fn|struct|enum|const|mod) |^ +pub (?=\w+:))(\w+)', text, re.M))


def source_structs(text):
    blocks = re.finditer(r'^pub struct (\w+) \{\n(.*?)^\}', text, re.M | re.S)
    return {match[1]: set(re.findall(r'^ +pub (\w+):', match[2], re.M)) for match in blocks}


def cited(contract, aliases):
    """The names in the `ensures` of a contract, as the specs have them. The name of a clause cites nothing."""
    _, _, promises = re.sub(r'\b(requires|ensures) \w+(?= \{)', r'\1', contract).partition('ensures')
    return {aliases.get(name, name) for name in re.findall(r'[^\s(){}\[\]«»⌜⌝.,;]+', promises)}


def in_one_line(contract):
    """A signature and its clauses as they would stand in one line."""
    return re.sub(r',? ?\)', ')', ' '.join(contract.split())).replace('( ', '(')


def parameters(contract):
    """The names of a signature's parameters, in their order."""
    return re.findall(r'(\w+): ', contract[:contract.index(')')])


def handed_on(rest, contract):
    """The function of another crate that the body calls with the parameters in their order, and does nothing else, or ''."""
    match = re.match(r'\s*\{\s+(\w+::\w+)\(([^;{}]*)\)\s+\}\n', rest[len(contract):])
    return match[1] if match and re.findall(r'[^\s,]+', match[2]) == parameters(contract) else ''


def public_functions(path, prefix, text):
    """The public functions of a source file, by the names that a caller uses. Methods are indented."""
    item = r'^impl(?:<[^>]*>)? (\w+)|^( *)pub (?:(?:const|unsafe|extern "C") )*fn (\w+)'
    aliases = {alias: name for name, alias in re.findall(r'([^\s{]+) as (\w+)[,}]', text)}
    found, owner = {}, ''
    for match in re.finditer(item, text, re.M):
        if match[1]:
            owner = f'{match[1]}::'
            continue
        name = f'{prefix}::{owner if match[2] else ""}{match[3]}'
        rest = text[match.end():]
        contract = re.split(r'\n\s*\{?\n', rest, maxsplit=1)[0]
        line = text.count('\n', 0, match.start()) + 1
        requires = bool(re.search(r'^\s+requires\b', contract, re.M))
        found[name] = Function(f'{path}:{line}', cited(contract, aliases), requires, in_one_line(contract),
                               handed_on(rest, contract))
    return found


def crate_functions(files, crate):
    """The public functions of a library crate: those of lib.rt, and of the modules that it makes public."""
    folder = f'crates/{crate}/src'
    library = files.get(f'{folder}/lib.rt', '')
    functions = public_functions(f'{folder}/lib.rt', crate, library)
    for module in re.findall(r'^pub mod (\w+);', library, re.M):
        path = f'{folder}/{module}.rt'
        functions.update(public_functions(path, f'{crate}::{module}', files.get(path, '')))
    return functions


def read_crate(files, crate, declared):
    own = [path for path in files if crate_of(path) == crate]
    edits = {Path(path).stem for path in own if re.fullmatch(r'crates/\w+/must-fail/\w+\.edit', path)}
    names = set().union(*(declared[path] for path in own if path.endswith('.rt')))
    return Crate(edits, names, crate_functions(files, crate))


def read_records(files):
    """The fields of the records of specs and the structs of src, by name."""
    records = {}
    for path, text in files.items():
        found = spec_records(text) if '/specs/' in path else source_structs(text)
        for name, fields in found.items():
            records.setdefault(name, set()).update(fields)
    return records


def read_declared(files):
    """What each file of specs, proofs and src declares."""
    readers = {'.antt': spec_names, '.rt': source_names}
    return {path: readers[Path(path).suffix](text) for path, text in files.items() if Path(path).suffix in readers}


def read_stated(crates, declared):
    """What the specs of the crates of claims declare, and the public functions of these crates."""
    there = [crate for crate in CLAIMING if crate in crates]
    specs = tuple(f'crates/{crate}/specs' for crate in there)
    names = set().union(*(names for path, names in declared.items() if path.startswith(specs)))
    return names, set().union(*(crates[crate].functions for crate in there))


def parts_of(path):
    """What may be written of a path: it or a folder of it, from any folder on."""
    parts = path.split('/')
    return {'/'.join(parts[start:end]) for end in range(1, len(parts) + 1) for start in range(end)}


def read_repository(files):
    declared = read_declared(files)
    crates = {crate: read_crate(files, crate, declared) for crate in {crate_of(path) for path in files} - {None}}
    claims = spec_records(files[CLAIMS]).get('Claims', set()) if CLAIMS in files else None
    paths = set().union(*map(parts_of, files))
    names = set().union(*declared.values(), crates)
    return Repository(paths, crates, declared, names, read_records(files), claims, read_stated(crates, declared))


def read_files():
    """Every file of the repository by its path, with the texts of code, specs and proofs."""
    files = {}
    for folder, folders, names in os.walk(ROOT):
        folders[:] = [name for name in folders if name not in ('.git', 'target', 'out', '__pycache__')]
        for path in (Path(folder) / name for name in names):
            files[str(path.relative_to(ROOT))] = path.read_text() if path.suffix in ('.rt', '.antt') else ''
    return files


# A page.

def lines_of(page):
    """The lines of a page with their numbers, those of fenced blocks left empty."""
    inside = False
    for line, text in enumerate(page.split('\n'), 1):
        fence = text.startswith('```')
        yield line, '' if fence or inside else text
        inside ^= fence


@lru_cache(2)
def rows(page):
    """The rows of every table, each with the heads of its columns."""
    return list(read_rows(page))


def read_rows(page):
    heads = None
    for line, text in lines_of(page):
        cells = [cell.strip() for cell in text.strip().strip('|').split('|')]
        if not text.startswith('|'):
            heads = None
        elif heads is None:
            heads = cells
        elif not re.fullmatch(r'[-:| ]+', text):
            yield Row(line, heads, cells)


def blocks(page):
    """What belongs together, a cell of a table, a bullet or a paragraph: its first line, and its text."""
    first, block = 1, []
    for line, text in lines_of(page):
        if text.startswith('|'):
            yield from ((line, cell) for cell in text.split('|'))
            continue
        if not text.strip() or re.match(r' *(-|\d+\.) ', text):
            yield first, '\n'.join(block)
            first, block = line, []
        block.append(text)
    yield first, '\n'.join(block)


def block_names(first, block):
    """The names in a bullet, cell or paragraph, a `.field` with its record before it."""
    record = ''
    for match in re.finditer(r'`([^`\n]+)`', block):
        name = record + match[1] if match[1].startswith('.') else match[1]
        dotted = re.fullmatch(r'(\w+)\.\w+', name)
        record = dotted[1] if dotted else ''
        yield Name(first + block.count('\n', 0, match.start()), name)


def names_in(text):
    """What stands in backticks."""
    for first, block in blocks(text):
        yield from block_names(first, block)


# What a name may be.

def is_path(name, paths):
    return re.search(r'[./]', name) and name.removesuffix('/') in paths


def is_edit(name, crate, repository):
    """An edit of the crate, or one that is written with its crate."""
    owner, _, edit = name.rpartition('/')
    owner = owner or crate
    return owner in repository.crates and edit in repository.crates[owner].edits


def is_claim_edit(name, repository):
    """An edit of a crate that states claims, which may stand without its crate, or one that is written with its crate."""
    return any(is_edit(name, crate, repository) for crate in STATING)


def is_in_crate(name, repository):
    crate, _, rest = name.partition('::')
    if crate not in repository.crates:
        return False
    return name in repository.crates[crate].functions or rest in repository.crates[crate].names


def is_field(name, repository):
    record, _, field = name.partition('.')
    return field in repository.records.get(record, set())


def is_declared(name, names, repository):
    """A name, a name with arguments, or a record with one of its fields, among the names."""
    record, _, field = name.partition('.')
    return set(name.split(' ')) <= names or record in names and is_field(name, repository)


def exists(name, repository):
    return (name in PLAIN or is_declared(name, repository.names, repository) or is_path(name, repository.paths)
            or is_edit(name, None, repository) or is_in_crate(name, repository))


def unended_problems(page):
    for line, text in lines_of(page):
        if text.count('`') % 2:
            yield line, 'what stands in backticks must end in its line'
