"""The one format of what the program `vectors` reads, a case as a record, and of what it must print, a case as a line.

streams.rt and body.rt of crates/vectors/src read it: parts, which are a length and so many bytes. A record is a body and
then texts, one before each answer and one after the last. A body is numbers, what is asked for and the slot of a view first, and after
them any bytes. Every number is eight bytes, big-endian.
"""
from typing import NamedTuple

# What a record asks for, its body's first number.
(CHECKSUM, LOCATION, OPENING, WRITE_HEADER, MAP, PLAIN, PROTECTED, MADE_UP, READ, WRITE, READ_EXTENT,
 WRITE_EXTENT, READ_PLAINTEXT, WRITE_PLAINTEXT, KEY, BLOCK, PUBLISHED_UNIT, UNIT) = range(18)

# Those of plaintext, and all that move bytes.
PLAINTEXT = (READ_PLAINTEXT, WRITE_PLAINTEXT)
MOVES = (READ, WRITE, *PLAINTEXT)


class Case(NamedTuple):
    request: int
    name: str
    answers: list  # what is printed: pairs of a label and an answer
    numbers: tuple = ()  # after what is asked for and the slot
    data: bytes = b''
    slot: int = 0


def number_bytes(numbers):
    return b''.join(int(number).to_bytes(8, 'big') for number in numbers)


def part(content):
    return number_bytes([len(content)]) + content


def texts(case):
    (label, _), *others = case.answers
    return [f'{case.name}: {label}', *(f', {label}' for label, _ in others), '\n']


def record(case):
    body = number_bytes([case.request, case.slot, *case.numbers]) + case.data
    return part(body) + b''.join(part(text.encode('ascii')) for text in texts(case))


def line(case):
    answers = [str(answer) for _, answer in case.answers] + ['']
    return ''.join(text + answer for text, answer in zip(texts(case), answers)).encode('ascii')


def program_files(cases):
    """The input and the expected output of `vectors`. No two cases of one request have one name."""
    cases = list(cases)
    names = [(case.request, case.name) for case in cases]
    assert len(set(names)) == len(names), f'one name, two cases: {sorted({n for n in names if names.count(n) > 1})}'
    return {'crates/vectors/stdin': b''.join(map(record, cases)), 'crates/vectors/stdout': b''.join(map(line, cases))}


def outcome(answer):
    """An answer as it is printed: a refusal's number, or text."""
    return f'refused {answer}' if isinstance(answer, int) else answer


def spaced(numbers):
    return ''.join(f' {number}' for number in numbers)


def same(name, by_hand, computed):
    """The answer that is written by hand is the one that the rules give."""
    assert computed == by_hand, f'{name}: the rules say {by_hand}, and {computed} was computed'
