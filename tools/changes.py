"""Changes of the definitions in a file of specs, one place at a time: what pins.py tries.

Everywhere: a number is one more, an operator another one, a conjunct is left out. At one argument only: a definition has
the value of another argument, or another value, where a parameter has a certain value, and its own everywhere else. A
computed case sees the first sort and hardly ever the second.
"""
import re
from collections import namedtuple

# A change: the line that it is in, what stands there, and what is put in its place; and whether it is at one argument.
Change = namedtuple('Change', 'line old new at_one text')

OPERATORS = [('leb ', 'ltb '), ('ltb ', 'leb '), ('nat_le ', 'nat_lt '), ('nat_lt ', 'nat_le '), (' && ', ' || '), (' || ', ' && '), (' + ', ' * '), (' - ', ' + '),
             (' * ', ' + '), (' / ', ' % '), (' % ', ' / '), ('true', 'false'), ('false', 'true'), ('not (', '('),
             ('big_endian ', 'little_endian '), ('little_endian ', 'big_endian '), ('take ', 'drop '), ('drop ', 'take ')]

# Where the names that a change brings in come from.
PRELUDE = ('leb ltb eqb nat_le nat_lt ◌==◌ ◌&&◌ ◌||◌ true false not cond ◌+◌ ◌-◌ ◌*◌ ◌/◌ ◌%◌ suc take drop get_or [] ◌∷◌ '
           'List').split()
HOMES = {**dict.fromkeys(PRELUDE, 'Rattle.std.specs.Prelude'),
         'big_endian': 'Rattle.numbers.specs.Numbers', 'little_endian': 'Rattle.numbers.specs.Numbers'}

PASSED_OVER = re.compile(r'^\s*(--|use |pub mod|pub record|pub data|module)')


# Everywhere.

def is_stated(line):
    """A line that gives a value, and no signature or import."""
    before, equals, _ = line.partition('=')
    return not PASSED_OVER.match(line) and line.strip() and (equals or ' : ' not in before)


def line_changes(line):
    """The changes in one line: where each begins, what stands there and what comes there."""
    for old, new in OPERATORS:
        for match in re.finditer(r'(?<![\w-])' * old[0].isalpha() + re.escape(old), line):
            yield match.start(), old, new
    for match in re.finditer(r'(?<![\w.«])(0x[0-9A-Fa-f]+|\d+)(?![\w.])', line):
        yield match.start(), match[1], str(int(match[1], 0) + 1)
    for match in re.finditer(r'(?:(?:leb|ltb|eqb|nat_le|nat_lt) [^&|=]*?|(?:[\w.]+|\([^()]*\)) == (?:[\w.]+|\([^()]*\))) && ', line):
        yield match.start(), match[0], ''


def changes_everywhere(text):
    lines = text.split('\n')
    for number, line in enumerate(lines):
        for start, old, new in line_changes(line) if is_stated(line) else ():
            changed = line[:start] + new + line[start + len(old):]
            yield Change(number + 1, line.strip(), changed.strip(), False,
                         '\n'.join([*lines[:number], changed, *lines[number + 1:]]))


# At one argument.

def top_level(text, mark):
    """The parts of a text between marks that stand in no bracket."""
    parts, depth, start = [], 0, 0
    for at, letter in enumerate(text):
        depth += (letter in '({') - (letter in ')}')
        if depth == 0 and text.startswith(mark, at):
            parts.append(text[start:at])
            start = at + len(mark)
    return [part.strip() for part in (*parts, text[start:])]


def parameter_types(signature):
    """The types of the explicit parameters, and of the result; none where one is implicit or a type."""
    types = []
    for part in top_level(signature, '→'):
        named = re.fullmatch(r'\(([^:]+) : (.*)\)', part, re.S)
        types += [named[2]] * len(named[1].split()) if named else [part]
    return [] if any('{' in part or 'Type' in part for part in types) else [' '.join(part.split()) for part in types]


def other_value(kind, name):
    """A test of a parameter that one value in many passes, and another value of its type in the place of that one."""
    if kind == 'ℕ':
        yield f'eqb {name} 1', f'suc {name}'
        if re.search('(?i)size|start|end|host', name):
            yield f'eqb {name} 1048576', f'suc {name}'
    if kind == 'List ℕ':
        yield f'eqb (get_or {name} 0 0) 1', f'0 ∷ drop 1 {name}'
    if kind in ('Words', 'List (List ℕ)'):
        yield f'eqb (get_or (get_or {name} 0 []) 0 0) 1', f'[] ∷ drop 1 {name}'


def bodies_at_one(names, types, body):
    """The bodies of an equation with another value at one argument."""
    for name, kind in zip(names, types):
        if name in ('zero', 'true', 'false') or not re.search(rf'(?<![\w-]){re.escape(name)}(?![\w-])', body):
            continue
        for test, other in other_value(kind, name):
            yield f'cond ({test}) (let other : {kind} = {other} in let {name} : {kind} = other in {body}) ({body})'
        if kind == 'Layout' and types[-1] in ('ℕ', 'Bool'):
            changed = f'suc ({body})' if types[-1] == 'ℕ' else f'not ({body})'
            yield f'cond (eqb {name}.candidate 1) ({changed}) ({body})'


def equations(text):
    """The equations of definitions: their lines, indent, left side, parameter names, types and body."""
    declared = r'^( *)(?:unfoldable|abbrev) pub (\S+) : (.*(?:\n\1 +.*)*)\n((?:\1\S.*=.*(?:\n\1 +.*)*\n?)*)'
    for match in re.finditer(declared, text, re.M):
        indent, name, signature = match[1], match[2], match[3]
        types = parameter_types(signature)
        for equation in re.finditer(rf'^{indent}({re.escape(name)}(?: .*?)?) = ?((?:.*)(?:\n{indent} +.*)*)', match[4], re.M):
            names = [part for part in top_level(equation[1][len(name):].strip(), ' ') if part]
            if types and len(names) == len(types) - 1:
                yield match.start(4) + equation.start(), equation, names, types


def changes_at_one(text):
    for start, equation, names, types in equations(text):
        line = text.count('\n', 0, start) + 1
        for body in bodies_at_one(names, types, equation[2].strip()):
            new = f'{equation[1]} = {body}'
            changed = text[:start] + equation[0].replace(equation[0].lstrip(), new) + text[start + len(equation[0]):]
            yield Change(line, ' '.join(equation[0].split()), ' '.join(new.split()), True, changed)


# Imports.

def imported(text):
    """The names that the `use` lines bring in."""
    return set(re.findall(r'[^\s.{},]+(?=[,}\n])', '\n'.join(re.findall(r'^use .*$', text, re.M)) + '\n'))


def with_imports(text, crate):
    """The file with `use` lines for the names of HOMES that it needs and does not have."""
    stated = '\n'.join(line for line in text.split('\n') if not PASSED_OVER.match(line))
    there = imported(text) | set(re.findall(r'^ *(?:unfoldable|abbrev) pub (\S+) :', text, re.M))
    missing = [name for name in HOMES if name not in there and re.search(
        rf'(?<![\w-]){re.escape(name)}(?![\w-])' if name[0].isalpha() else re.escape(name.replace('◌', ' ')), stated)]
    uses = ''.join(f'use {HOMES[name]}.{{{name}}}\n' for name in missing if f'Rattle.{crate}.' not in HOMES[name])
    first = re.search(r'^use ', text, re.M)
    at = first.start() if first else len(text)
    return text[:at] + uses + text[at:]


def all_changes(text, crate):
    """Every change of a file, each with the imports that it needs."""
    for change in (*changes_everywhere(text), *changes_at_one(text)):
        yield change._replace(text=with_imports(change.text, crate))
