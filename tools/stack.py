#!/usr/bin/env python3
"""Writes into docs/PERFORMANCE.md, between its markers, how many bytes of stack each exported function takes.

    tools/stack.py            write the page
    tools/stack.py --check    write nothing; fail where the page is not what would be written

Fails where a read or a write takes 1 KiB or more. The bytes are those of the library as built, told by objdump: what a
function pushes and reserves on its deepest path, its own return address and those of its calls among them, and what
it keeps below the stack pointer. What a function of the C library takes besides its return address is not counted.
"""
import re
import subprocess
import sys
from collections import namedtuple

import marked

LIBRARY = 'target/staticlib/libondristela.a'
EXPORTED = 'crates/ondristela_c/src/lib.rt'
PAGE = 'docs/PERFORMANCE.md'
MARKERS = ('<!-- stack: written by tools/stack.py -->\n', '<!-- /stack -->\n')
LIMIT = 1024
LIMITED = ('ondristela_read', 'ondristela_write')
WORD = 8
ENDS = ('ret', 'ud2', 'hlt')

# Words before an instruction's name.
PREFIXES = r'(?:(?:bnd|notrack|repz?|repnz|lock|data16|cs|ds) )*'

# An instruction: its address, and the name of the function that it calls or jumps to, where that is not this one.
Instruction = namedtuple('Instruction', 'address name operands other')


class Untold(Exception):
    """Code whose use of the stack is not told."""


# What objdump says.

def parse(text):
    """The instructions of each function, by name."""
    functions = {}
    for block in re.split(r'\n(?=[0-9a-f]+ <.+>:\n)', text):
        if header := re.match(r'([0-9a-f]+) <(.+)>:\n', block):
            functions[header[2]] = list(instructions(header[2], block))
    return functions


def instructions(function, block):
    """A line for each instruction, and behind it one for a place that the linker is to fill in."""
    line = rf'^ *([0-9a-f]+):\t{PREFIXES}(\S+) *([^\n]*)(?:\n\t+[0-9a-f]+: R_X86_64_\w+\t(\S+))?'
    for address, name, operands, filled in re.findall(line, block, re.M):
        yield Instruction(int(address, 16), name, operands, goal(function, name, operands, filled))


def goal(function, name, operands, filled):
    """The function that an instruction calls or jumps to: the linker's, or the one that objdump names; the whole text
    where it is not the start of one."""
    if name != 'call' and not name.startswith('j'):
        return ''
    if filled:
        return filled.removesuffix('-0x4').removeprefix('.text.')
    target = re.search(r'<(.+?)(?:\+0x[0-9a-f]+)?>$', operands)
    return target[1] if target and (target[1] != function or name == 'call') else ''


# What an instruction does.

def signed(text):
    number = int(text, 16)
    return number - 2 ** 64 if number >= 2 ** 63 else number


def growth(instruction):
    """By how much an instruction makes the stack deeper."""
    _, name, operands, _ = instruction
    if name in ('push', 'pop'):
        return WORD if name == 'push' else -WORD
    if moved := re.fullmatch(r'\$(0x[0-9a-f]+),%rsp', operands):
        if name in ('sub', 'add'):
            return signed(moved[1]) if name == 'sub' else -signed(moved[1])
    if name in ('enter', 'leave') or name not in ('cmp', 'test') and re.search(r'(^|,)%[re]?spl?$', operands):
        raise Untold(f'{name} {operands}')
    return 0


def below(instruction):
    """How far below the stack pointer an instruction reaches."""
    return max((int(size, 16) for size in re.findall(r'-(0x[0-9a-f]+)\(%rsp', instruction.operands)), default=0)


def goes_to(instruction, following):
    """The addresses in the same function that may come next."""
    _, name, operands, other = instruction
    if name in ENDS:
        return []
    if operands.startswith('*') and (name == 'call' or name.startswith('j')) or re.search(r'[+-]0x', other):
        raise Untold(f'{name} {operands}')
    if name.startswith('j'):
        near = [] if other else [int(operands.split()[0], 16)]
        return near if name == 'jmp' else near + [following]
    return [following]


# The deepest path.

def depth(functions, name, callers=()):
    """The bytes that a function takes, its return address among them; of one that is not here, that alone."""
    if name not in functions:
        return WORD
    if name in callers:
        raise Untold(f'{name}, which comes back to itself')
    callers = (*callers, name)
    code = functions[name]
    following = {one.address: other.address for one, other in zip(code, code[1:])}
    by_address = {one.address: one for one in code}
    found, deepest, to_do = {}, WORD, [(code[0].address, WORD)]
    while to_do:
        address, before = to_do.pop()
        if found.setdefault(address, before) != before:
            raise Untold(f'a loop of {name} in which the stack grows')
        instruction = by_address[address]
        deepest = max(deepest, before + below(instruction), before + beyond(functions, instruction, callers))
        after = before + growth(instruction)
        to_do += [(next_one, after) for next_one in goes_to(instruction, following.get(address))
                  if found.get(next_one) != after]
        deepest = max(deepest, after)
    return deepest


def beyond(functions, instruction, callers):
    """What the function takes that an instruction goes to; one that is jumped to has the return address of this one."""
    if not instruction.other:
        return 0
    return depth(functions, instruction.other, callers) - (0 if instruction.name == 'call' else WORD)


# The page.

def depths(disassembly, names):
    functions = parse(disassembly)
    missing = [name for name in names if name not in functions]
    if missing:
        sys.exit(f'{LIBRARY} has no code of {", ".join(missing)}')
    try:
        return {name: depth(functions, name) for name in names}
    except Untold as code:
        sys.exit(f'{LIBRARY}: how much stack is taken cannot be told of {code}')


def table(told):
    rows = ''.join(f'| `{name}` | {size:,} |\n' for name, size in told.items())
    return f'| call | bytes of stack |\n| --- | ---: |\n{rows}'


def problems(told):
    return [f'{name} takes {told[name]:,} bytes of stack, and is to take less than {LIMIT:,}'
            for name in LIMITED if told[name] >= LIMIT]


def main():
    names = re.findall(r'pub extern "C" fn (\w+)', (marked.ROOT / EXPORTED).read_text())
    command = ['objdump', '--disassemble', '--reloc', '--no-show-raw-insn', str(marked.ROOT / LIBRARY)]
    told = depths(subprocess.run(command, check=True, capture_output=True, text=True).stdout, names)
    if found := problems(told):
        sys.exit('\n'.join(found))
    marked.run({PAGE: [(MARKERS, table(told))]}, 'tools/stack.py', __doc__)


if __name__ == '__main__':
    main()
