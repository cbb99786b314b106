#!/usr/bin/env python3
"""Holds the declarations of the exported functions against each other.

    tools/declarations.py    fail where include/ondristela.h or rust/src/raw.rs does not declare
                             what crates/ondristela_c/src/lib.rt exports

What Rattle declares is what is proved. C and Rust must have the same functions, answers and arguments, by
name and in order. A slice `image` is a pointer, to const where it is only read, and a length `image_size`. An
array is a pointer to as many numbers; C may write it as an array, as a struct of so many numbers or, for one
number, as a plain pointer. A struct has the numbers that a function of Rattle stores, by name and in order. A
length may be a constant of boundary_numbers. What the C header itself defines, as static inline, is not compared.
"""
import re
import sys
from collections import namedtuple
from functools import cache
from pathlib import Path

ROOT = Path(__file__).resolve().parent.parent
RATTLE = 'crates/ondristela_c/src/lib.rt'
NUMBERS = 'crates/boundary_numbers/src/lib.rt'
KEYS = 'crates/boundary_keys/src/lib.rt'
LAYOUT = 'crates/layout/src/lib.rt'
HEADER = 'include/ondristela.h'
RUST = 'rust/src/raw.rs'
FILES = [RATTLE, NUMBERS, KEYS, LAYOUT, HEADER, RUST]

# The function that gives the numbers of a struct, or stores them.
WRITERS = {
    'ondristela_layout': (NUMBERS, 'layout_numbers'),
    'ondristela_view': (NUMBERS, 'view_numbers'),
    'ondristela_range': (KEYS, 'give_keys'),
}

# The numbers that have another name in a struct than where they are stored; those of a protection by their places.
RENAMED = {
    'range[0]': 'protected_range',
    'range[1]': 'protected_first',
    'range[2]': 'protected_end',
    'KEYS_SIZE': 'size',
}

# The constants that say where a view has its own numbers, and what a struct calls these.
PLACES = {'PROTECTED': 'protected_range', 'FIRST': 'protected_first', 'END': 'protected_end', 'LOCK': 'locked'}

C_TYPES = {'uint8_t': 'u8', 'uint16_t': 'u16', 'uint32_t': 'u32', 'uint64_t': 'u64', 'size_t': 'usize'}

# Arguments are pairs of a name and a type in Rust's notation; a function that answers nothing answers ''.
Declaration = namedtuple('Declaration', 'place arguments answer')
Struct = namedtuple('Struct', 'place numbers')


# Texts.

@cache
def uncommented(text):
    """The text with comments taken out, every line where it was."""
    comment = r'/\*.*?\*/|//[^\n]*'
    return re.sub(comment, lambda match: '\n' * match[0].count('\n'), text, flags=re.S)


def place(path, text, index):
    return f'{path}:{text.count(chr(10), 0, index) + 1}'


def items(text):
    """What commas part, each in one line."""
    parts = [' '.join(part.split()) for part in text.split(',')]
    return [part for part in parts if part]


def rust_arguments(text):
    """Rattle's and Rust's notation: a name, a colon, a type."""
    return [tuple(item.split(': ', 1)) if ': ' in item else (item, '') for item in items(text)]


def strays(path, text, pattern, matches):
    """Places that look like a declaration and are not among those that were read."""
    for match in re.finditer(pattern, text):
        if not any(read.start() <= match.start() < read.end() for read in matches):
            yield f'{place(path, text, match.start())}: `{match[0]}` is not in a form that can be compared'


# Rattle.

def rattle_matches(text):
    signature = r'^#\[unsafe\(no_mangle\)\]\npub (extern "C" fn) (\w+)\(([^)]*)\)(?: -> ([^\n{]+))?'
    return list(re.finditer(signature, text, re.M))


@cache
def constants(text):
    """The constants of boundary_numbers: a number, or one above another constant."""
    found = {}
    for name, base, above in re.findall(r'^(?:pub )?const (\w+): usize = (\w+)(?: \+ (\d+))?;', text, re.M):
        if base.isdigit() or base in found:
            found[name] = int(found.get(base, base)) + int(above or 0)
    return found


def value(name, numbers):
    """A constant's number; a number, or a constant that is not there, as it is."""
    return str(constants(numbers).get(name, name))


@cache
def exported(text, numbers):
    """The exported functions by name, with lengths as numbers."""
    text = re.sub(r'(?<=; )\w+(?=\])', lambda length: value(length[0], numbers), text)
    return {match[2]: Declaration(place(RATTLE, text, match.start(1)), rust_arguments(match[3]),
                                  (match[4] or '').strip())
            for match in rattle_matches(text)}


def passed(arguments):
    """Arguments as C and Rust pass them."""
    for name, kind in arguments:
        reference = re.fullmatch(r'&(mut )?(?:\[(\w+)\]|(.*))', kind)
        if not reference:
            yield name, kind
            continue
        mutable, element, other = reference.groups()
        yield name, f'*{"mut" if mutable else "const"} {element or other}'
        if element:
            yield f'{name}_size', 'usize'


@cache
def raw(text, numbers):
    """The exported functions by name, as C and Rust must declare them."""
    return {name: item._replace(arguments=list(passed(item.arguments)))
            for name, item in exported(text, numbers).items()}


def body(path, text, function):
    """Where a function stands, and its body."""
    match = re.search(rf'^fn {function}\(.*?^{{$(.*?)^}}$', text, re.M | re.S)
    return (place(path, text, match.start()), match[1]) if match else (path, '')


def stored_name(expression):
    bare = re.sub(r'^u64::from\((.*)\)$', r'\1', expression).removesuffix(' as u64')
    name = re.split(r'\.|::', bare)[-1]
    return RENAMED.get(name, name)


def indexed(path, text, function):
    """What a function gives or stores, by index: as one array, or part by part from another function or an array."""
    where, code = body(path, text, function)
    array = re.search(r'^ +\*\w+ = \[(.*)\];$|^    \[$(.*?)^    \]$', code, re.M | re.S)
    found = dict(enumerate(items(array[1] or array[2]))) if array else {}
    taken = re.search(r'^ +let \[(.*)\] = protection_numbers\(', code, re.M)
    ranges = {name: f'range[{index}]' for index, name in enumerate(items(taken[1]))} if taken else {}
    for start, other, part in re.findall(r'^ +numbers\[(\w*)\.\.\w*\]\.copy_from_slice\(&(?:(\w+)\([^)]*\)|\[(.*)\])\);$', code, re.M):
        first = value(start or '0', text)
        given = indexed(path, text, other)[1] if other else dict(enumerate(items(part)))
        if first.isdigit():
            found |= {int(first) + index: ranges.get(expression, expression) for index, expression in given.items()}
    return where, found


def stored(texts, struct):
    """The names of a struct's numbers, in the order in which they are stored; none where an index is left out."""
    path, function = WRITERS[struct]
    where, found = indexed(path, texts[path], function)
    whole = all(index in found for index in range(len(found)))
    return Struct(where, [stored_name(found[index]) for index in range(len(found))] if whole else [])


def layout_fields(text):
    match = re.search(r'^pub struct Layout \{$(.*?)^\}$', text, re.M | re.S)
    if not match:
        return Struct(LAYOUT, [])
    return Struct(place(LAYOUT, text, match.start()), re.findall(r'pub (\w+): u64,', match[1]))


# C.

def structs(text):
    """The structs by name, with those inside them opened."""
    found = {}
    for match in re.finditer(r'^struct (\w+) \{$(.*?)^\};$', text, re.M | re.S):
        numbers = [name for field in match[2].split(';') for name in field_numbers(field.split(), found)]
        found[match[1]] = Struct(place(HEADER, text, match.start()), numbers)
    return found


def field_numbers(words, found):
    match words:
        case ['struct', struct, name] if struct == f'ondristela_{name}' and struct in found:
            return found[struct].numbers
        case ['uint64_t', name]:
            return [name]
    return [' '.join(words)] if words else []


def c_argument(text, known):
    """A C argument in Rust's notation."""
    match = re.fullmatch(r'(const )?(struct )?(\w+) (?:\* ?(\w+)|(\w+)(?:\[(\d+)\])?)', text)
    if not match:
        return text, 'a form that cannot be compared'
    const, struct, kind, pointer, name, length = match.groups()
    target = C_TYPES.get(kind, kind)
    if struct and kind in known:
        target = f'[u64; {len(known[kind].numbers)}]'
    if length:
        target = f'[{target}; {length}]'
    if pointer or length:
        return pointer or name, f'*{"const" if const else "mut"} {target}'
    return name, f'{const or ""}{target}'


def c_matches(text):
    return list(re.finditer(r'^(\w+) (ondristela_\w+)\(([^)]*)\);', text, re.M))


def inline_matches(text):
    """The functions that the header defines itself."""
    return list(re.finditer(r'^static inline [^;{}]*\)\n\{$.*?^\}$', text, re.M | re.S))


def c_functions(text):
    known = structs(text)
    return {match[2]: Declaration(place(HEADER, text, match.start()),
                                  [c_argument(item, known) for item in items(match[3]) if item != 'void'],
                                  C_TYPES.get(match[1], match[1]).removeprefix('void'))
            for match in c_matches(text)}


def number_for_array_of_one(declaration):
    """C writes a pointer to one number as it writes a pointer to the first of many."""
    arguments = [(name, re.sub(r'\[(\w+); 1\]', r'\1', kind)) for name, kind in declaration.arguments]
    return declaration._replace(arguments=arguments)


# Rust.

def opened_aliases(text):
    """The text with the type that each alias stands for in place of the alias."""
    for name, kind in re.findall(r'^pub type (\w+) = ([^;]+; \d+\]);', text, re.M):
        text = re.sub(rf'(?<!pub type )\b{name}\b', kind, text)
    return text


def extern_matches(text):
    return list(re.finditer(r'^ +pub (fn) (ondristela_\w+)\(([^)]*)\)(?: -> (\w+))?;', text, re.M))


def extern_functions(text):
    return {match[2]: Declaration(place(RUST, text, match.start(1)), rust_arguments(match[3]), match[4] or '')
            for match in extern_matches(text)}


def safe_matches(text):
    return list(re.finditer(r'^pub fn (\w+)\(([^)]*)\)(?: -> (\w+))? \{$(.*?)^\}$', text, re.M | re.S))


def safe_functions(text):
    """The safe functions, by the names of the exported ones."""
    return {f'ondristela_{match[1]}': Declaration(place(RUST, text, match.start()), rust_arguments(match[2]),
                                                  match[3] or '')
            for match in safe_matches(text)}


def safe_calls(text):
    """What each safe function passes on, as a declaration that has the passed expressions for names."""
    found = {}
    for match in safe_matches(text):
        call = re.search(r'library::(\w+)\((.*)\)', match[4], re.S)
        name, arguments = (call[1], items(call[2])) if call else ('', [])
        called = [] if name == f'ondristela_{match[1]}' else [(f'a call of `{name}`', '')]
        found[f'ondristela_{match[1]}'] = Declaration(place(RUST, text, match.start()),
                                                      called + [(item, '') for item in arguments], '')
    return found


def expected_call(declaration):
    """What a safe function must pass on."""
    expressions = []
    for name, kind in declaration.arguments:
        if re.fullmatch(r'&(mut )?\[\w+\]', kind):
            expressions += [f'{name}.as_{"mut_" if "mut " in kind else ""}ptr()', f'{name}.len()']
        else:
            expressions.append(name)
    return Declaration(declaration.place, [(expression, '') for expression in expressions], '')


# The comparison.

def shown(argument):
    name, kind = argument
    return f'`{name}: {kind}`' if kind else f'`{name}`'


def differences(function, declared, expected):
    """Where a declaration is not the expected one: its first argument that differs, and its answer."""
    if declared.answer != expected.answer:
        yield (f'{declared.place}: {function} answers `{declared.answer or "nothing"}`, '
               f'but `{expected.answer or "nothing"}` at {expected.place}')
    ends = [('no argument', '')]
    pairs = zip(declared.arguments + ends, expected.arguments + ends)
    for number, (one, other) in enumerate(pairs, 1):
        if one != other:
            yield (f'{declared.place}: argument {number} of {function} is {shown(one)}, '
                   f'but {shown(other)} by {expected.place}')
            return


def compared(path, declared, expected):
    """Where a file does not declare the expected functions."""
    for function in expected.keys() - declared.keys():
        yield f'{expected[function].place}: {function} is exported, but {path} does not declare it'
    for function in declared.keys() - expected.keys():
        yield f'{declared[function].place}: {function} is declared, but {RATTLE} does not export it'
    for function in expected.keys() & declared.keys():
        yield from differences(function, declared[function], expected[function])


def struct_problems(header, numbers, opening, layout):
    """Where a struct of the header does not have the numbers that Rattle stores."""
    texts = {NUMBERS: numbers, KEYS: opening}
    for name, struct in structs(header).items():
        if name not in WRITERS:
            yield f'{struct.place}: WRITERS of tools/declarations.py does not say what stores struct {name}'
            continue
        source = stored(texts, name)
        if struct.numbers != source.numbers:
            yield (f'{struct.place}: struct {name} has {", ".join(struct.numbers)}, '
                   f'but {WRITERS[name][1]} at {source.place} gives {", ".join(source.numbers) or "no list"}')
    view = stored(texts, 'ondristela_view')
    given = {number: str(index) for index, number in enumerate(view.numbers)}
    for constant, number in PLACES.items():
        if value(constant, numbers) != given.get(number):
            yield f'{view.place}: view_numbers does not give {number} at {constant}, where it is read'
    fields, source = layout_fields(layout), stored(texts, 'ondristela_layout')
    if sorted(fields.numbers) != sorted(source.numbers):
        yield f'{source.place}: layout_numbers does not give each field of Layout, at {fields.place}, once'


# The checks of a file are kept, since tests/declarations.py asks again and again with one other file changed.

@cache
def rattle_problems(rattle):
    return list(strays(RATTLE, rattle, r'#\[[^\n]*no_mangle|extern "C"', rattle_matches(rattle)))


@cache
def header_problems(header, rattle, numbers, opening, layout):
    declared = {name: number_for_array_of_one(item) for name, item in c_functions(header).items()}
    expected = {name: number_for_array_of_one(item) for name, item in raw(rattle, numbers).items()}
    return [*strays(HEADER, header, r'ondristela_\w+\s*\(', c_matches(header) + inline_matches(header)),
            *compared(HEADER, declared, expected),
            *struct_problems(header, numbers, opening, layout)]


@cache
def rust_problems(rust, rattle, numbers):
    rust = opened_aliases(rust)
    calls = {name: expected_call(item) for name, item in exported(rattle, numbers).items()}
    return [*strays(RUST, rust, r'\bfn \w+', extern_matches(rust) + safe_matches(rust)),
            *compared(RUST, extern_functions(rust), raw(rattle, numbers)),
            *compared(RUST, safe_functions(rust), exported(rattle, numbers)),
            *compared(RUST, safe_calls(rust), calls)]


def problems(texts):
    """A sentence for each thing that is wrong in the texts of FILES, by path."""
    rattle, numbers, opening, layout, header, rust = (uncommented(texts[path]) for path in FILES)
    return sorted({*rattle_problems(rattle), *header_problems(header, rattle, numbers, opening, layout),
                   *rust_problems(rust, rattle, numbers)})


def read_files():
    return {path: (ROOT / path).read_text() for path in FILES}


def main():
    if sys.argv[1:]:
        sys.exit(__doc__)
    found = problems(read_files())
    for sentence in found:
        print(sentence)
    if found:
        sys.exit(1)
    print(f'declarations: C and Rust declare what {RATTLE} exports')


if __name__ == '__main__':
    main()
