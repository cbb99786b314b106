"""The cases of writing headers, by the rules: each is written, and what is left is opened."""
import zlib

from .openings import answers as opening_answers, HOST
from .records import Case, outcome, same, WRITE_HEADER
from .reference_model import filled
from .rules import new_header, open_volume, write_header
from .writing_cases import (AGAIN, AREAS, asked, CODES, HOST_SIZES, LENGTHS, MAGICS, MULTIPLES, ORDER, SECTOR_SIZES,
                            VERSIONS, WRITTEN, YES)


def taken_apart(code, h):
    """What an accepted header tells, to be asked for again."""
    told = open_volume(HOST, bytes([code]), h)
    names = ('version', 'min_program_version', 'host_size', 'data_start', 'data_size', 'sector_size')
    return asked(**{name: told[name] for name in names}, magic=h[64:68], code=code, salt=h[:64], keys=h[256:])


def check_again(name, h, written, lost):
    """Written again, a header is the same 512 bytes, but for those that are lost and with them its checksum."""
    same(name, lost, [at for at in range(512) if written[at] != h[at] and at not in range(252, 256)])
    same(name, lost == [], written == h)


def cases():
    """Every case as name, answer and what is asked for."""
    for table in (WRITTEN, LENGTHS, MAGICS, CODES, HOST_SIZES, VERSIONS, SECTOR_SIZES, AREAS, MULTIPLES, ORDER):
        yield from table
    for name, code, h, lost in AGAIN:
        again = taken_apart(code, h)
        check_again(name, h, new_header(again), lost)
        yield f'{name}, again', YES, again


def told_by(fields):
    """The layout that opening gives for a header with what was asked for."""
    return {'host_size': fields['host_size'], 'kind': [0, 1, 0, 1][fields['code']],
            'magic': [b'VERA', b'TRUE'].index(fields['magic']), 'version': fields['version'],
            'min_program_version': fields['min_program_version'], 'data_start': fields['data_start'],
            'data_size': fields['data_size'], 'candidate': 0, 'sector_size': fields['sector_size']}


def numbers(fields, seed):
    """The numbers of a case's record."""
    names = ('version', 'min_program_version', 'code', 'host_size', 'data_start', 'data_size', 'sector_size',
             'output_size')
    return [int.from_bytes(fields['magic'], 'big'), *(fields[name] for name in names), seed, len(fields['salt'])]


def answers(answer, left, opened):
    (_, word), *others = opening_answers(opened, left)
    return [('', outcome(answer)), ('output ', f'{zlib.crc32(left):08x}'), ('opened ', word), *others]


def writings():
    given = set()
    for seed, (name, answer, fields) in enumerate(cases(), start=1):
        before = filled(fields['output_size'], seed)
        computed, left = write_header(fields, before)
        same(name, answer, computed)
        given.add(answer)
        opened = open_volume(fields['host_size'], bytes([fields['code']]), left)
        if answer == YES:
            same(name, told_by(fields), opened)
        else:
            same(name, before, left)
        yield Case(WRITE_HEADER, f'header, {name}', answers(computed, left, opened), numbers(fields, seed),
                   fields['salt'] + fields['keys'])
    assert given == {YES, 1, 19, 2, 3, 5, 8, 10}
