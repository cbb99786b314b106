#!/usr/bin/env python3
"""Tries tools/stack.py: on code that was written for it, and on functions of C, of which gcc tells the stack too.

    tests/stack.py
"""
import subprocess
import sys
import tempfile
from pathlib import Path

sys.dont_write_bytecode = True
sys.path.insert(0, str(Path(__file__).resolve().parent.parent / 'tools'))
from stack import LIMIT, LIMITED, Untold, depth, parse, problems  # noqa: E402

def filled(instruction, name, kind='PLT32', offset='-0x4'):
    """An instruction in which the linker is to fill in an address."""
    return f'{instruction} 0 <f>\n\t\t\t0: R_X86_64_{kind}\t{name}{offset}'


# Functions as objdump writes them, and how deep they go; None where that is not told.
CODE = {
    'nothing but a return address': (8, 'ret'),
    'pushed and reserved': (8 + 8 + 0x70, 'push %rbx', 'sub $0x70,%rsp', 'add $0x70,%rsp', 'pop %rbx', 'ret'),
    'reserved by a sum': (8 + 0x80, 'add $0xffffffffffffff80,%rsp', 'sub $0xffffffffffffff80,%rsp', 'ret'),
    'kept below the stack pointer': (8 + 0x28, 'mov %rdi,-0x28(%rsp)', 'xor -0x10(%rsp,%rbx,4),%eax', 'ret'),
    'on one of two paths': (8 + 8, 'je 3 <f+0x3>', 'push %rbx', 'pop %rbx', 'ret'),
    'behind a jump': (8 + 8, 'jmp 2 <f+0x2>', 'ret', 'push %rbx', 'pop %rbx', 'jmp 1 <f+0x1>'),
    'in a loop that leaves it': (8 + 8, 'push %rbx', 'pop %rbx', 'jne 0 <f>', 'ret'),
    'in a loop that grows it': (None, 'sub $0x1000,%rsp', 'cmp %r11,%rsp', 'jne 0 <f>', 'ret'),
    'a call of the C library': (8 + 8 + 8, 'push %rbx', filled('call', 'memmove'), 'pop %rbx', 'ret'),
    'a call': (8 + 8 + 40, 'push %rbx', filled('call', '.text.a::g'), 'pop %rbx', 'ret'),
    'a call that is filled in': (8 + 40, 'call 0 <a::g>', 'ret'),
    'a call of a name with a plus': (8 + 24, 'call 0 <a++b::g+drop>', 'ret'),
    'a jump there': (8 + 16, 'jmp 0 <a++b::g+drop>'),
    'a jump to another function': (8 + 32, filled('jmp', '.text.a::g')),
    'a jump there on one of two paths': (8 + 32, filled('je', '.text.a::g'), 'ret'),
    'a jump there of the other kind': (8 + 32, filled('jmp', '.text.a::g', 'PC32')),
    'an address that is no target': (8, filled('lea', '.text.a::g', 'PC32'), 'ret'),
    'a jump into another function': (None, filled('jmp', '.text.a::g', offset='+0x1c')),
    'a call by a register': (None, 'call *%rax', 'ret'),
    'a jump by a register': (None, 'jmp *%rax'),
    'a jump by a register, marked': (None, 'notrack jmp *%rax'),
    'a marked return': (8, 'repz ret'),
    'a repeated store': (8, 'rep stos %al,%es:(%rdi)', 'ret'),
    'a call of itself': (None, 'call 0 <f>', 'ret'),
    'a call of itself that is filled in': (None, filled('call', '.text.f'), 'ret'),
    'a call of what calls it': (None, filled('call', '.text.h'), 'ret'),
    'set from elsewhere': (None, 'mov %rbp,%rsp', 'ret'),
    'left': (None, 'leave', 'ret'),
    'rounded': (None, 'and $0xfffffffffffffff0,%rsp', 'ret'),
    'reserved by a register': (None, 'sub %rax,%rsp', 'ret'),
}
# Functions beside them: two that reserve 32 and 16 bytes, and one that calls f.
BESIDE = f'''\
0000000000000000 <a::g>:
   0:\tsub $0x20,%rsp
   1:\tadd $0x20,%rsp
   2:\tret

0000000000000000 <a++b::g+drop>:
   0:\tsub $0x10,%rsp
   1:\tadd $0x10,%rsp
   2:\tret

0000000000000000 <h>:
   0:\t{filled('call', '.text.f')}
   1:\tret
'''

# Functions of which gcc tells the same.
SOURCE = '''
long outside(void *bytes);
long leaf(long a) { return a + 1; }
long local(void) { char bytes[100]; return outside(bytes); }
long large(void) { char bytes[3000]; return outside(bytes); }
long values(long *a) { long b = a[0], c = a[1], d = a[2], e = a[3], f = a[4]; outside(a); return b ^ c ^ d ^ e ^ f; }
'''


def told(text, name):
    """The depth, or None where it is not told."""
    try:
        return depth(parse(text), name)
    except Untold:
        return None


def code_problems():
    for name, (expected, *lines) in CODE.items():
        numbered = ''.join(f'   {number:x}:\t{line}\n' for number, line in enumerate(lines))
        found = told(f'\n{BESIDE}\n0000000000000000 <f>:\n{numbered}', 'f')
        if found != expected:
            yield f'{name}: {found}, not {expected}'


def compiled(folder):
    """What objdump writes of SOURCE, and what gcc says of it: a function's bytes, without those of its calls."""
    (folder / 'source.c').write_text(SOURCE)
    subprocess.run(['gcc', '-O2', '-ffunction-sections', '-fstack-usage', '-c', 'source.c'], cwd=folder, check=True)
    text = subprocess.run(['objdump', '--disassemble', '--reloc', '--no-show-raw-insn', 'source.o'], cwd=folder,
                          check=True, capture_output=True, text=True).stdout
    rows = [line.split('\t') for line in (folder / 'source.su').read_text().splitlines()]
    return text, {place.split(':')[-1]: int(size) for place, size, _ in rows}


def compiled_problems():
    with tempfile.TemporaryDirectory() as folder:
        text, said = compiled(Path(folder))
    for name, size in said.items():
        expected = size if name == 'leaf' else size + 8
        if told(text, name) != expected:
            yield f'{name} in C: {told(text, name)}, and gcc says {expected}'


def limit_problems():
    for name in LIMITED:
        sizes = dict.fromkeys(LIMITED, LIMIT - 1)
        if problems(sizes):
            yield f'{name}: {LIMIT - 1} bytes are refused'
        if len(problems(sizes | {name: LIMIT})) != 1:
            yield f'{name}: {LIMIT} bytes are not refused'


def main():
    found = [*code_problems(), *compiled_problems(), *limit_problems()]
    print('\n'.join(found) or f'stack: {len(CODE)} pieces of code, gcc and the limit told right')
    sys.exit(1 if found else 0)


main()
