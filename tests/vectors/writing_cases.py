"""The cases of writing headers: a name, the answer, and what is asked for."""
from .headers import header, hidden, KEYS, LARGER_SIZES, OTHER_KEYS, SALT, SAMPLES, vera, vera_hidden
from .openings import HOST
from .sectors import WRONG_SECTOR_SIZES

YES = 'accepted'


def asked(magic=b'TRUE', version=5, min_program_version=1_792, code=0, host_size=HOST, data_start=131_072,
          data_size=786_432, sector_size=512, salt=SALT, keys=KEYS, output_size=512):
    """The header of the worked cases' M, and with changes another one."""
    return {'magic': magic, 'version': version, 'min_program_version': min_program_version, 'code': code,
            'host_size': host_size, 'data_start': data_start, 'data_size': data_size, 'sector_size': sector_size,
            'salt': salt, 'keys': keys, 'output_size': output_size}


def asked_hidden(**changes):
    """That of the worked cases' N, and with changes another hidden volume's."""
    return asked(**{'code': 1, 'data_start': 655_360, 'data_size': 262_144, **changes})


WRITTEN = [
    ('TRUE code 0', YES, asked()),
    ('TRUE code 1', YES, asked_hidden()),
    ('TRUE code 2', YES, asked(code=2)),
    ('TRUE code 3', YES, asked_hidden(code=3)),
    ('VERA code 0', YES, asked(magic=b'VERA')),
    ('VERA code 1', YES, asked_hidden(magic=b'VERA')),
    ('VERA code 2', YES, asked(magic=b'VERA', code=2)),
    ('VERA code 3', YES, asked_hidden(magic=b'VERA', code=3)),
    ('needs 0', YES, asked(min_program_version=0)),
    ('VERA needs 267', YES, asked(magic=b'VERA', min_program_version=267)),
    ('needs 65535', YES, asked(min_program_version=65_535)),
    ('salt and keys all zeros', YES, asked(salt=bytes(64), keys=bytes(256))),
    ('salt and keys all FF', YES, asked(salt=b'\xff' * 64, keys=b'\xff' * 256)),
    ('other keys', YES, asked_hidden(keys=OTHER_KEYS)),
]

LENGTHS = [
    ('salt of 63', 1, asked(salt=SALT[:63])),
    ('salt of 65', 1, asked(salt=SALT + b'\0')),
    ('no salt', 1, asked(salt=b'')),
    ('keys of 255', 1, asked(keys=KEYS[:255])),
    ('keys of 257', 1, asked(keys=KEYS + b'\0')),
    ('no keys', 1, asked(keys=b'')),
    ('output of 511', 1, asked(output_size=511)),
    ('output of 513', 1, asked(output_size=513)),
    ('no output', 1, asked(output_size=0)),
    ('a byte of the keys in the salt', 1, asked(salt=SALT + KEYS[:1], keys=KEYS[1:])),
    ('salt and keys exchanged', 1, asked(salt=KEYS, keys=SALT)),
]

MAGICS = [
    ('magic VERB', 19, asked(magic=b'VERB')),
    ('magic WERA', 19, asked(magic=b'WERA')),
    ('magic true', 19, asked(magic=b'true')),
    ('magic VEUE', 19, asked(magic=b'VEUE')),
    ('magic AREV', 19, asked(magic=b'AREV')),
    ('magic all zeros', 19, asked(magic=bytes(4))),
    ('hidden, magic VERB', 19, asked_hidden(magic=b'VERB')),
]

CODES = [
    ('code 4', 2, asked(code=4)),
    ('code 5', 2, asked_hidden(code=5)),
    ('code 255', 2, asked(code=255)),
]

HOST_SIZES = [
    ('S 262656, V 512', YES, asked(host_size=262_656, data_size=512)),
    ('S 262144', 3, asked(host_size=262_144, data_size=512)),
    ('S 0', 3, asked(host_size=0)),
    ('S 2^50, largest V', YES, asked(host_size=2**50, data_size=2**50 - 262_144)),
    ('S 2^50, V 512 more', 10, asked(host_size=2**50, data_size=2**50 - 261_632)),
    ('S 2^50+512', 3, asked(host_size=2**50 + 512)),
    ('S 2^64-512', 3, asked(host_size=2**64 - 512)),
    ('S 1048577', 3, asked(host_size=HOST + 1)),
    ('S 1048832', 3, asked_hidden(host_size=HOST + 256)),
]

VERSIONS = [
    ('VERA version 1', 5, asked(magic=b'VERA', version=1)),
    ('VERA version 2', YES, asked(magic=b'VERA', version=2)),
    ('VERA version 3', YES, asked(magic=b'VERA', version=3)),
    ('VERA version 4', YES, asked(magic=b'VERA', version=4)),
    ('VERA version 6', 5, asked(magic=b'VERA', version=6)),
    ('VERA hidden version 2', YES, asked_hidden(magic=b'VERA', version=2)),
    ('VERA hidden version 1', 5, asked_hidden(magic=b'VERA', version=1)),
    ('TRUE version 3', 5, asked(version=3)),
    ('TRUE version 4', YES, asked(version=4)),
    ('TRUE version 6', 5, asked(version=6)),
    ('TRUE hidden version 3', 5, asked_hidden(version=3)),
    ('version 0', 5, asked(magic=b'VERA', version=0)),
    ('version 1280', 5, asked(version=0x0500)),
    ('version 65535', 5, asked(version=65_535)),
]

SECTOR_SIZES = [
    *((f'Z {size}, {magic.decode()} code {code}', YES, make(magic=magic, code=code, sector_size=size))
      for size in (512, 1_024, 2_048, 4_096) for magic in (b'TRUE', b'VERA')
      for code, make in ((0, asked), (1, asked_hidden), (2, asked), (3, asked_hidden))),
    *((f'Z {text}', 8, asked(sector_size=size)) for text, size in WRONG_SECTOR_SIZES),
    ('Z 511', 8, asked(sector_size=511)),
    ('Z 2049', 8, asked(magic=b'VERA', sector_size=2_049)),
    ('Z 3072', 8, asked(sector_size=3_072)),
    ('Z 4095', 8, asked(sector_size=4_095)),
    ('Z 2^32-1', 8, asked(sector_size=2**32 - 1)),
    ('Z 2^32', 8, asked(sector_size=2**32)),
    ('Z 2^32+4096', 8, asked(sector_size=2**32 + 4_096)),
    ('Z 2^63+512', 8, asked(sector_size=2**63 + 512)),
    ('hidden, Z 0', 8, asked_hidden(sector_size=0)),
    ('hidden backup, Z 2^32+512', 8, asked_hidden(magic=b'VERA', code=3, sector_size=2**32 + 512)),
]

# S, V and O held against Z.
MULTIPLES = [
    ('Z 512, S 512 more', YES, asked(host_size=HOST + 512)),
    ('Z 512, V 512 less', YES, asked(data_size=785_920)),
    ('Z 512, O 512 less', YES, asked_hidden(data_start=654_848)),
    *((f'Z {size}, S 512 more', 10, asked(sector_size=size, host_size=HOST + 512)) for size in LARGER_SIZES),
    *((f'Z {size}, V 512 less', 10, asked(sector_size=size, data_size=785_920)) for size in LARGER_SIZES),
    *((f'Z {size}, O 512 less', 10, asked_hidden(sector_size=size, data_start=654_848))
      for size in LARGER_SIZES),
    *((f'Z {size}, S Z more', YES, asked(sector_size=size, host_size=HOST + size)) for size in LARGER_SIZES),
    *((f'Z {size}, V Z less', YES, asked(sector_size=size, data_size=786_432 - size))
      for size in LARGER_SIZES),
    *((f'Z {size}, O Z less', YES, asked_hidden(sector_size=size, data_start=655_360 - size))
      for size in LARGER_SIZES),
    ('Z 4096, S 2048 more', 10, asked(magic=b'VERA', code=2, sector_size=4_096, host_size=HOST + 2_048)),
    ('Z 4096, V 2048 less', 10, asked(magic=b'VERA', code=2, sector_size=4_096, data_size=784_384)),
    ('Z 4096, O 2048 less', 10, asked_hidden(magic=b'VERA', code=3, sector_size=4_096, data_start=653_312)),
    ('Z 4096, V 0', 10, asked(sector_size=4_096, data_size=0)),
    ('Z 4096, V 512', 10, asked(sector_size=4_096, data_size=512)),
    ('Z 4096, V 790528, 4096 past the end', 10, asked(sector_size=4_096, data_size=790_528)),
    ('Z 4096, V 2^64-4096', 10, asked(sector_size=4_096, data_size=2**64 - 4_096)),
    ('Z 4096, S 262656, V 512', 10, asked(sector_size=4_096, host_size=262_656, data_size=512)),
    ('Z 4096, S 266240, V 4096', YES, asked(sector_size=4_096, host_size=266_240, data_size=4_096)),
    ('Z 4096, S 2^50, largest V', YES, asked(sector_size=4_096, host_size=2**50, data_size=2**50 - 262_144)),
]

AREAS = [
    ('V 0', 10, asked(data_size=0)),
    ('V 511', 10, asked(data_size=511)),
    ('V 512', YES, asked(data_size=512)),
    ('V 513', 10, asked(data_size=513)),
    ('V 786431', 10, asked(data_size=786_431)),
    ('V 786944, 512 past the end', 10, asked(data_size=786_944)),
    ('O 131584', 10, asked(data_start=131_584, data_size=512)),
    ('O 130560', 10, asked(data_start=130_560, data_size=512)),
    ('O 0', 10, asked(data_start=0)),
    ('backup, O 655360', 10, asked(code=2, data_start=655_360, data_size=262_144)),
    ('hidden, V 0', 10, asked_hidden(data_size=0)),
    ('hidden backup, V 0', 10, asked_hidden(code=3, data_size=0)),
    ('hidden, V 513', 10, asked_hidden(data_size=513)),
    ('hidden, V 262656, 512 past the end', 10, asked_hidden(data_size=262_656)),
    ('hidden, O 655872, 512 past the end', 10, asked_hidden(data_start=655_872)),
    ('hidden, O 131072', YES, asked_hidden(data_start=131_072)),
    ('hidden, O 130560', 10, asked_hidden(data_start=130_560)),
    ('hidden, O 655361', 10, asked_hidden(data_start=655_361, data_size=512)),
    ('hidden, O 655616', 10, asked_hidden(data_start=655_616, data_size=512)),
    ('hidden, last sector', YES, asked_hidden(data_start=916_992, data_size=512)),
    ('hidden, past the last sector', 10, asked_hidden(data_start=917_504, data_size=512)),
    ('V 2^64-512', 10, asked(data_size=2**64 - 512)),
    ('V 2^64-131072, so that O+V is 2^64', 10, asked(data_size=2**64 - 131_072)),
    ('V 2^64-262144, so that O+V+131072 is 2^64', 10, asked(data_size=2**64 - 262_144)),
    ('hidden, V 2^64-512', 10, asked_hidden(data_size=2**64 - 512)),
    ('hidden, O 2^64-512, V 1024', 10, asked_hidden(data_start=2**64 - 512, data_size=1_024)),
    ('hidden, O 2^64-131584, V 512', 10, asked_hidden(data_start=2**64 - 131_584, data_size=512)),
]

# Each breaks two checks, neighbours in the order among them, and the last all of them.
ORDER = [
    ('1 before 19, by the salt', 1, asked(salt=SALT[:63], magic=b'VERB')),
    ('1 before 19, by the keys', 1, asked(keys=KEYS[:255], magic=b'VERB')),
    ('1 before 19, by the output', 1, asked(output_size=511, magic=b'VERB')),
    ('19 before 2', 19, asked(magic=b'VERB', code=4)),
    ('2 before 3', 2, asked(code=4, host_size=262_144)),
    ('3 before 5', 3, asked(host_size=262_144, version=6)),
    ('3 before 8', 3, asked(host_size=262_144, sector_size=513)),
    ('3 before 10, S no multiple of Z', 3, asked(host_size=HOST + 256, sector_size=4_096)),
    ('5 before 8', 5, asked(version=6, sector_size=513)),
    ('5 before 8, hidden', 5, asked_hidden(magic=b'VERA', version=1, sector_size=2**32 + 512)),
    ('8 before 10', 8, asked(sector_size=513, data_size=0)),
    ('8 before 10, hidden', 8, asked_hidden(sector_size=0, data_start=0)),
    ('8 before 10, V no multiple of Z', 8, asked(sector_size=8_192, data_size=4_096)),
    ('8 before 10, S no multiple of Z', 8, asked(sector_size=8_192, host_size=HOST + 512)),
    ('5 before 10', 5, asked(version=6, data_size=0)),
    ('5 before 10, V no multiple of Z', 5, asked(version=6, sector_size=4_096, data_size=512)),
    ('5 before 10, hidden', 5, asked_hidden(magic=b'VERA', version=1, data_start=0)),
    ('all at once', 1,
     asked(salt=SALT[:63], magic=b'VERB', code=4, host_size=262_144, version=6, sector_size=513, data_size=0)),
]

UNUSED = [*range(76, 92), *range(132, 252)]

# Headers to take apart and write again: a name, the code, the header, and by hand which of its bytes are lost.
AGAIN = [
    *((f'tcplay code {code}', code, h, []) for code, h in enumerate(SAMPLES)),
    ('VERA code 0', 0, vera(), []),
    ('VERA code 1', 1, vera_hidden(), []),
    ('VERA code 2', 2, vera(version=2, needs=b'\x01\x0b', data_size=512), []),
    ('VERA code 3', 3, vera_hidden(version=3, needs=b'\xff\x00', keys=OTHER_KEYS), []),
    ('TRUE code 0', 0, header(version=4, salt=bytes(64)), []),
    ('TRUE code 1', 1, hidden(data_start=131_072), []),
    *((f'Z {size} code 0', 0, vera(sector_size=size), []) for size in LARGER_SIZES),
    *((f'Z {size} code 3', 3, hidden(sector_size=size), []) for size in LARGER_SIZES),
    *((f'TRUE byte {at} not zero', 0, header(put={at: b'\1'}), [at]) for at in (76, 91, 132, 251)),
    ('TRUE unused bytes all FF', 0, header(put={at: b'\xff' for at in UNUSED}), UNUSED),
    ('TRUE hidden byte 251 not zero', 3, hidden(put={251: b'\1'}), [251]),
]
