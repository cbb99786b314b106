"""The cases of opening: a name, the answer, S, and the pairs of a location code and a candidate."""
import zlib

from .headers import changed, header, hidden, LARGER_SIZES, OTHER_KEYS, SAMPLES, vera, vera_hidden
from .records import Case, OPENING, outcome, same, spaced
from .rules import open_volume

HOST = 1_048_576
M = header()
N = hidden()
ZEROS = bytes(512)
NEITHER = header(magic=b'VERB')


def accepted(candidate=0, **fields):
    """An acceptance by the candidate of this index, with these numbers in its layout."""
    return {'candidate': candidate, **fields}


OK = accepted()

HOST_SIZES = [
    ('S 2^50', accepted(host_size=1_125_899_906_842_624), 2**50, [(0, M)]),
    ('S 2^50+512', 3, 2**50 + 512, [(0, M)]),
    ('S 2^50-512', OK, 2**50 - 512, [(0, M)]),
    ('S 2^50, largest V', OK, 2**50, [(0, header(data_size=2**50 - 262_144))]),
    ('S 2^50, V 512 more', 10, 2**50, [(0, header(data_size=2**50 - 261_632))]),
    ('S 262656, V 512', accepted(data_size=512), 262_656, [(0, header(data_size=512))]),
    ('S 262656, V 1024', 10, 262_656, [(0, header(data_size=1_024))]),
    ('S 262144', 3, 262_144, [(0, header(data_size=512))]),
    ('S 262655', 3, 262_655, [(0, header(data_size=512))]),
    ('S 0', 3, 0, [(0, M)]),
    ('S 1048577', 3, HOST + 1, [(0, M)]),
    ('S 1048832', 3, HOST + 256, [(0, M)]),
    ('S 2^64-512', 3, 2**64 - 512, [(0, M)]),
    ('S 2^64-1', 3, 2**64 - 1, [(0, M)]),
    ('S wrong, no header', 3, 262_144, [(0, ZEROS)]),
]

CODES = [
    ('code 4', 2, HOST, [(4, M)]),
    ('code 255', 2, HOST, [(255, M)]),
    ('code 4 among good ones', 2, HOST, [(1, ZEROS), (4, ZEROS), (0, M)]),
    ('code 4 after an acceptance', 2, HOST, [(0, M), (4, M)]),
    ('2 before 3', 2, 262_144, [(4, M)]),
]

LOCATIONS = [
    ('TRUE code 0', accepted(kind=0, magic=1), HOST, [(0, M)]),
    ('TRUE code 1', accepted(kind=1, magic=1, data_start=655_360), HOST, [(1, N)]),
    ('TRUE code 2', accepted(kind=0, magic=1), HOST, [(2, M)]),
    ('TRUE code 3', accepted(kind=1, magic=1), HOST, [(3, N)]),
    ('VERA code 0', accepted(kind=0, magic=0), HOST, [(0, vera())]),
    ('VERA code 1', accepted(kind=1, magic=0), HOST, [(1, vera_hidden())]),
    ('VERA code 2', accepted(kind=0, magic=0), HOST, [(2, vera())]),
    ('VERA code 3', accepted(kind=1, magic=0), HOST, [(3, vera_hidden())]),
    ('tcplay code 0', accepted(kind=0, magic=1, version=5, min_program_version=1_792,
                               data_start=131_072, data_size=786_432), HOST, [(0, SAMPLES[0])]),
    ('tcplay code 1', accepted(kind=1, magic=1, version=5, min_program_version=1_792,
                               data_start=655_360, data_size=262_144), HOST, [(1, SAMPLES[1])]),
    ('tcplay code 2', accepted(kind=0, data_start=131_072, data_size=786_432), HOST, [(2, SAMPLES[2])]),
    ('tcplay code 3', accepted(kind=1, data_start=655_360, data_size=262_144), HOST, [(3, SAMPLES[3])]),
    ('tcplay all four', accepted(0), HOST, list(enumerate(SAMPLES))),
    ('tcplay standard as hidden', 9, HOST, [(1, SAMPLES[0])]),
    ('tcplay hidden as standard', 9, HOST, [(0, SAMPLES[1])]),
]

HEADERS = [
    ('all zeros', 4, HOST, [(0, ZEROS)]),
    ('magic VERB', 4, HOST, [(0, NEITHER)]),
    ('magic true', 4, HOST, [(0, header(magic=b'true'))]),
    ('magic VEUE', 4, HOST, [(0, header(magic=b'VEUE'))]),
    ('another salt', OK, HOST, [(0, header(salt=bytes(64)))]),
    ('first key byte changed', 4, HOST, [(0, changed(M, 256))]),
    ('last key byte changed', 4, HOST, [(0, changed(M, 511))]),
    ('key checksum changed', 4, HOST, [(0, header(put={72: b'\0\0\0\0'}))]),
    ('key checksum little-endian', 4, HOST, [(0, header(put={72: M[75:71:-1]}))]),
    ('version byte changed', 4, HOST, [(0, changed(M, 68))]),
    ('byte 251 changed', 4, HOST, [(0, changed(M, 251))]),
    ('header checksum changed', 4, HOST, [(0, changed(M, 255))]),
    ('header checksum little-endian', 4, HOST, [(0, header(spoil={252: M[255:251:-1]}))]),
    ('salt in header checksum', 4, HOST, [(0, header(spoil={252: zlib.crc32(M[:252]).to_bytes(4, 'big')}))]),
    ('not a header, and V 0', 4, HOST, [(0, changed(header(data_size=0), 511))]),
    ('TRUE needs 07 00', accepted(magic=1, min_program_version=1_792), HOST, [(0, header(needs=b'\x07\x00'))]),
    ('VERA needs 01 0B', accepted(magic=0, min_program_version=267), HOST, [(0, vera(needs=b'\x01\x0b'))]),
    ('needs 00 07', accepted(min_program_version=7), HOST, [(0, header(needs=b'\x00\x07'))]),
    ('needs FF FF', accepted(min_program_version=65_535), HOST, [(0, header(needs=b'\xff\xff'))]),
]

VERSIONS = [
    ('VERA version 1', 5, HOST, [(0, vera(version=1))]),
    ('VERA version 2', accepted(version=2), HOST, [(0, vera(version=2))]),
    ('VERA version 3', accepted(version=3), HOST, [(0, vera(version=3))]),
    ('VERA version 5', accepted(version=5), HOST, [(0, vera(version=5))]),
    ('VERA version 6', 5, HOST, [(0, vera(version=6))]),
    ('VERA version 1280', 5, HOST, [(0, vera(version=0x0500))]),
    ('VERA version 261', 5, HOST, [(0, vera(version=0x0105))]),
    ('VERA hidden version 2', accepted(version=2), HOST, [(1, vera_hidden(version=2))]),
    ('VERA hidden version 1', 5, HOST, [(1, vera_hidden(version=1))]),
    ('TRUE version 3', 5, HOST, [(0, header(version=3))]),
    ('TRUE version 4', accepted(version=4), HOST, [(0, header(version=4))]),
    ('TRUE version 5', accepted(version=5), HOST, [(0, header(version=5))]),
    ('TRUE version 6', 5, HOST, [(0, header(version=6))]),
    ('TRUE hidden version 4', accepted(version=4), HOST, [(1, hidden(version=4))]),
    ('TRUE hidden version 3', 5, HOST, [(1, hidden(version=3))]),
]

RESERVED = [
    *((f'TRUE byte {at} not zero', OK, HOST, [(0, header(put={at: b'\1'}))]) for at in (76, 91, 132, 251)),
    *((f'VERA byte {at} not zero', 6, HOST, [(0, vera(put={at: b'\1'}))]) for at in (76, 91, 132, 251)),
    ('TRUE unused bytes all FF', OK, HOST, [(0, header(put={76: b'\xff' * 16, 132: b'\xff' * 120}))]),
    ('VERA hidden byte 251 not zero', 6, HOST, [(3, vera_hidden(put={251: b'\1'}))]),
    ('TRUE flags bit 2', 6, HOST, [(0, header(flags=1 << 2))]),
    ('TRUE flags bit 31', 6, HOST, [(0, header(flags=1 << 31))]),
    ('VERA flags bit 2', 6, HOST, [(0, vera(flags=1 << 2))]),
    ('VERA flags bit 31', 6, HOST, [(0, vera(flags=1 << 31))]),
    ('flags bits 0 and 2', 6, HOST, [(0, header(flags=0b101))]),
]

FLAGS = [
    ('flags bit 0', 7, HOST, [(0, header(flags=1))]),
    ('flags bit 1', 7, HOST, [(0, vera(flags=2))]),
    ('flags bits 0 and 1', 7, HOST, [(0, header(flags=3))]),
]

SECTOR_SIZES = [
    *((f'Z {size}, {name} code {code}', accepted(kind=kind, magic=magic, sector_size=size), HOST, [(code, h)])
      for size in (512, 1_024, 2_048, 4_096)
      for magic, name, standard, inner in ((1, 'TRUE', header, hidden), (0, 'VERA', vera, vera_hidden))
      for code, kind, h in ((0, 0, standard(sector_size=size)), (1, 1, inner(sector_size=size)),
                            (2, 0, standard(sector_size=size)), (3, 1, inner(sector_size=size)))),
    ('Z 0', 8, HOST, [(0, header(sector_size=0))]),
    ('Z 511', 8, HOST, [(0, header(sector_size=511))]),
    ('Z 513', 8, HOST, [(0, header(sector_size=513))]),
    ('Z 256', 8, HOST, [(0, header(sector_size=256))]),
    ('Z 1536', 8, HOST, [(0, vera(sector_size=1_536))]),
    ('Z 2049', 8, HOST, [(0, header(sector_size=2_049))]),
    ('Z 3072', 8, HOST, [(0, header(sector_size=3_072))]),
    ('Z 4095', 8, HOST, [(0, header(sector_size=4_095))]),
    ('Z 8192', 8, HOST, [(0, header(sector_size=8_192))]),
    ('Z 66048', 8, HOST, [(0, header(sector_size=65_536 + 512))]),
    ('Z 69632', 8, HOST, [(0, vera(sector_size=65_536 + 4_096))]),
    ('Z 2^32-1', 8, HOST, [(0, header(sector_size=2**32 - 1))]),
    ('Z 4096 little-endian', 8, HOST, [(0, header(put={128: b'\0\x10\0\0'}))]),
    ('hidden, Z 0', 8, HOST, [(1, hidden(sector_size=0))]),
    ('hidden, Z 8192', 8, HOST, [(1, vera_hidden(sector_size=8_192))]),
    ('backup, Z 1536', 8, HOST, [(2, header(sector_size=1_536))]),
    ('hidden backup, Z 2^32-1', 8, HOST, [(3, hidden(sector_size=2**32 - 1))]),
]

HIDDEN_SIZES = [
    ('standard, H 512', 9, HOST, [(0, header(hidden_size=512))]),
    ('standard, H V', 9, HOST, [(0, header(hidden_size=786_432))]),
    ('standard, H 2^63', 9, HOST, [(0, header(hidden_size=2**63))]),
    ('standard backup, H 1', 9, HOST, [(2, vera(hidden_size=1))]),
    ('hidden, H 0', 9, HOST, [(1, hidden(hidden_size=0))]),
    ('hidden, H not V', 9, HOST, [(1, hidden(hidden_size=262_144 - 512))]),
    ('hidden, H and V 0', 9, HOST, [(1, hidden(data_size=0))]),
    ('hidden backup, H 0', 9, HOST, [(3, vera_hidden(hidden_size=0))]),
]

AREAS = [
    ('V 0', 10, HOST, [(0, header(data_size=0))]),
    ('V 511', 10, HOST, [(0, header(data_size=511))]),
    ('V 512', OK, HOST, [(0, header(data_size=512))]),
    ('V 513', 10, HOST, [(0, header(data_size=513))]),
    ('V 786432, the largest', accepted(data_size=786_432), HOST, [(0, M)]),
    ('V 786944', 10, HOST, [(0, header(data_size=786_944))]),
    ('V and E 2^64-512', 10, HOST, [(0, header(data_size=2**64 - 512))]),
    ('V 2^64-131072, so that O+V is 2^64', 10, HOST, [(0, header(data_size=2**64 - 131_072))]),
    ('E 512 less than V', 10, HOST, [(0, header(encrypted_size=785_920))]),
    ('E 512 more than V', 10, HOST, [(0, header(data_size=512, encrypted_size=1_024))]),
    ('E 0', 10, HOST, [(0, header(encrypted_size=0))]),
    ('standard, O 131584', 10, HOST, [(0, header(data_start=131_584, data_size=512))]),
    ('standard, O 130560', 10, HOST, [(0, header(data_start=130_560, data_size=512))]),
    ('standard, O 0', 10, HOST, [(0, header(data_start=0))]),
    ('standard backup, O 131584', 10, HOST, [(2, header(data_start=131_584, data_size=512))]),
    ('hidden, O 131072', accepted(data_start=131_072), HOST, [(1, hidden(data_start=131_072))]),
    ('hidden, O 131584', accepted(data_start=131_584), HOST, [(1, hidden(data_start=131_584))]),
    ('hidden, O 130560', 10, HOST, [(1, hidden(data_start=130_560))]),
    ('hidden, O 0', 10, HOST, [(1, hidden(data_start=0))]),
    ('hidden, O 655361', 10, HOST, [(1, hidden(data_start=655_361, data_size=512))]),
    ('hidden, O 655616', 10, HOST, [(1, hidden(data_start=655_616, data_size=512))]),
    ('hidden, V 262144, the largest', accepted(data_size=262_144), HOST, [(1, N)]),
    ('hidden, V 262656', 10, HOST, [(1, hidden(data_size=262_656))]),
    ('hidden, last sector', accepted(data_start=916_992), HOST, [(1, hidden(data_start=916_992, data_size=512))]),
    ('hidden, past the last sector', 10, HOST, [(1, hidden(data_start=917_504, data_size=512))]),
    ('hidden, V and E 2^64-512', 10, HOST, [(1, hidden(data_size=2**64 - 512))]),
    ('hidden, O 2^64-512, V 1024', 10, HOST, [(1, hidden(data_start=2**64 - 512, data_size=1_024))]),
]

# S, V and O held against Z.
MULTIPLES = [
    ('Z 512, S 512 more', accepted(sector_size=512), HOST + 512, [(0, M)]),
    ('Z 512, V 512 less', accepted(sector_size=512), HOST, [(0, header(data_size=785_920))]),
    ('Z 512, O 512 less', accepted(sector_size=512), HOST, [(1, hidden(data_start=654_848))]),
    *((f'Z {size}, S 512 more', 10, HOST + 512, [(0, header(sector_size=size))]) for size in LARGER_SIZES),
    *((f'Z {size}, V 512 less', 10, HOST, [(0, header(sector_size=size, data_size=785_920))])
      for size in LARGER_SIZES),
    *((f'Z {size}, O 512 less', 10, HOST, [(1, hidden(sector_size=size, data_start=654_848))])
      for size in LARGER_SIZES),
    *((f'Z {size}, S Z/2 more', 10, HOST + size // 2, [(2, vera(sector_size=size))]) for size in (2_048, 4_096)),
    *((f'Z {size}, V Z/2 less', 10, HOST, [(2, vera(sector_size=size, data_size=786_432 - size // 2))])
      for size in (2_048, 4_096)),
    *((f'Z {size}, O Z/2 less', 10, HOST, [(3, vera_hidden(sector_size=size, data_start=655_360 - size // 2))])
      for size in (2_048, 4_096)),
    *((f'Z {size}, S Z more', accepted(host_size=HOST + size), HOST + size, [(2, vera(sector_size=size))])
      for size in LARGER_SIZES),
    *((f'Z {size}, V Z less', accepted(data_size=786_432 - size), HOST,
       [(2, vera(sector_size=size, data_size=786_432 - size))]) for size in LARGER_SIZES),
    *((f'Z {size}, O Z less', accepted(data_start=655_360 - size), HOST,
       [(3, vera_hidden(sector_size=size, data_start=655_360 - size))]) for size in LARGER_SIZES),
    ('Z 4096, hidden, S 512 more', 10, HOST + 512, [(1, hidden(sector_size=4_096))]),
    ('Z 4096, hidden, V 512 less', 10, HOST, [(1, hidden(sector_size=4_096, data_size=261_632))]),
    ('Z 4096, V 512', 10, HOST, [(0, header(sector_size=4_096, data_size=512))]),
    ('Z 4096, V 0', 10, HOST, [(0, header(sector_size=4_096, data_size=0))]),
    ('Z 4096, V 790528', 10, HOST, [(0, header(sector_size=4_096, data_size=790_528))]),
    ('Z 4096, V and E 2^64-4096', 10, HOST, [(0, header(sector_size=4_096, data_size=2**64 - 4_096))]),
    ('Z 4096, E 4096 less than V', 10, HOST, [(0, header(sector_size=4_096, encrypted_size=782_336))]),
    ('Z 4096, standard, O 135168', 10, HOST, [(0, header(sector_size=4_096, data_start=135_168, data_size=4_096))]),
    ('Z 4096, S 262656, V 512', 10, 262_656, [(0, header(sector_size=4_096, data_size=512))]),
    ('Z 4096, S 266240, V 4096', accepted(data_size=4_096, sector_size=4_096), 266_240,
     [(0, header(sector_size=4_096, data_size=4_096))]),
    ('Z 4096, S 2^50, largest V', accepted(sector_size=4_096), 2**50,
     [(0, header(sector_size=4_096, data_size=2**50 - 262_144))]),
    ('Z 4096, hidden, last 4096 bytes', accepted(data_start=913_408), HOST,
     [(1, hidden(sector_size=4_096, data_start=913_408, data_size=4_096))]),
]

ORDER = [
    ('5 before 6', 5, HOST, [(0, vera(version=6, flags=4))]),
    ('6 before 7', 6, HOST, [(0, vera(put={76: b'\1'}, flags=1))]),
    ('7 before 8', 7, HOST, [(0, header(flags=2, sector_size=0))]),
    ('8 before 9', 8, HOST, [(0, header(sector_size=0, hidden_size=512))]),
    ('8 before 9, Z 8192', 8, HOST, [(0, header(sector_size=8_192, hidden_size=512))]),
    ('8 before 9 and 10', 8, HOST, [(1, hidden(sector_size=1_536, hidden_size=0, data_start=0))]),
    ('8 before 10', 8, HOST, [(0, header(sector_size=8_192, data_size=0))]),
    ('8 before 10, V no multiple of Z', 8, HOST, [(0, header(sector_size=8_192, data_size=4_096))]),
    ('8 before 10, S no multiple of Z', 8, HOST + 512, [(0, header(sector_size=8_192))]),
    ('9 before 10', 9, HOST, [(0, header(hidden_size=512, data_size=0))]),
    ('9 before 10, V no multiple of Z', 9, HOST, [(0, header(hidden_size=512, sector_size=4_096, data_size=512))]),
    ('9 before 10, S no multiple of Z', 9, HOST + 512, [(1, header(sector_size=4_096))]),
    ('7 before 10, V no multiple of Z', 7, HOST, [(0, header(flags=1, sector_size=4_096, data_size=512))]),
    ('3 before 10, S no multiple of Z', 3, HOST + 256, [(0, header(sector_size=4_096))]),
    ('5 before 10', 5, HOST, [(1, hidden(version=3, data_start=0))]),
]

SEARCHES = [
    ('refused header, then an acceptance', accepted(1), HOST, [(0, header(data_size=0)), (0, header(keys=OTHER_KEYS))]),
    ('three not accepted, then an acceptance', accepted(3), HOST,
     [(0, ZEROS), (0, N), (2, NEITHER), (1, hidden(keys=OTHER_KEYS))]),
    ('first header 10, later 5', 10, HOST, [(0, header(data_size=0)), (0, header(version=3))]),
    ('first header 5, later 10', 5, HOST, [(0, header(version=3)), (0, header(data_size=0))]),
    ('no header, then 8', 8, HOST, [(0, ZEROS), (0, header(sector_size=0))]),
    ('no header, no header, 6, 5', 6, HOST, [(0, ZEROS), (1, NEITHER), (0, vera(flags=4)), (0, vera(version=6))]),
    ('Z 8192, then Z 4096', accepted(1, sector_size=4_096), HOST,
     [(0, header(sector_size=8_192)), (0, header(sector_size=4_096))]),
    ('S no multiple of Z 4096, then Z 512', accepted(1, sector_size=512), HOST + 512,
     [(0, header(sector_size=4_096)), (0, M)]),
    ('Z 4096 and Z 512 acceptable', accepted(0, sector_size=4_096), HOST, [(0, header(sector_size=4_096)), (0, M)]),
    ('first header 10 by Z, later 8', 10, HOST,
     [(0, header(sector_size=4_096, data_size=512)), (0, header(sector_size=8_192))]),
    ('first header 8, later 10 by Z', 8, HOST,
     [(0, header(sector_size=8_192)), (0, header(sector_size=4_096, data_size=512))]),
    ('9, then no header', 9, HOST, [(1, M), (0, ZEROS)]),
    ('no header of three', 4, HOST, [(0, ZEROS), (1, NEITHER), (2, changed(M, 300))]),
    ('two acceptable', accepted(0, version=4), HOST, [(0, header(version=4)), (0, header(keys=OTHER_KEYS))]),
    ('hidden and standard acceptable', accepted(0, kind=1), HOST, [(1, N), (0, header(keys=OTHER_KEYS))]),
    ('same bytes, codes 0 and 1', accepted(1, kind=1), HOST, [(0, N), (1, N)]),
    ('same bytes, codes 1 and 0', accepted(1, kind=0), HOST, [(1, M), (0, M)]),
    ('same bytes, codes 1 and 3', 9, HOST, [(1, M), (3, M)]),
    ('n 64, the last accepted', accepted(63), HOST, [(0, ZEROS)] * 63 + [(0, M)]),
    ('n 64, none a header', 4, HOST, [(3, ZEROS)] * 64),
    ('n 64, the last alone a header', 10, HOST, [(1, ZEROS)] * 63 + [(0, header(data_size=0))]),
]

# name, answer, S, codes, candidate bytes
LENGTHS = [
    ('n 0', 1, HOST, b'', b''),
    ('n 65', 1, HOST, bytes(65), M + bytes(512 * 64)),
    ('n 65 with code 4', 1, HOST, bytes([4] * 65), bytes(512 * 65)),
    ('candidates one byte short', 1, HOST, b'\0', M[:511]),
    ('candidates one byte long', 1, HOST, b'\0', M + b'\0'),
    ('no candidates', 1, HOST, b'\0', b''),
    ('no codes', 1, HOST, b'', M),
    ('one code fewer', 1, HOST, b'\0', M + M),
    ('one code more', 1, HOST, b'\0\0', M),
    ('64 codes, 63 candidates', 1, HOST, bytes(64), bytes(512 * 63)),
    ('1 before 2', 1, HOST, b'\4', M[:511]),
    ('1 before 3', 1, 262_144, b'', b''),
]


def cases():
    """Every case as name, answer, S, codes and candidate bytes."""
    for table in (HOST_SIZES, CODES, LOCATIONS, HEADERS, VERSIONS, RESERVED, FLAGS, SECTOR_SIZES, HIDDEN_SIZES, AREAS,
                  MULTIPLES, ORDER, SEARCHES):
        for name, answer, host_size, pairs in table:
            yield name, answer, host_size, bytes(code for code, _ in pairs), b''.join(h for _, h in pairs)
    yield from LENGTHS


def answers(answer, candidates):
    if isinstance(answer, int):
        word, layout, keys = outcome(answer), [0] * 9, b''
    else:
        word, layout = 'accepted', answer.values()
        keys = candidates[512 * answer['candidate'] + 256:][:256]
    return [('', word), ('layout', spaced(layout)), ('keys ', len(keys)), ('sum ', f'{zlib.crc32(keys):08x}')]


def openings():
    for name, answer, host_size, codes, candidates in cases():
        computed = open_volume(host_size, codes, candidates)
        if isinstance(answer, int) or isinstance(computed, int):
            same(name, answer, computed)
        else:
            same(name, answer, {field: computed[field] for field in answer})
        yield Case(OPENING, name, answers(computed, candidates), (host_size, len(codes)), codes + candidates)
