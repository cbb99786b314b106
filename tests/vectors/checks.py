"""Check values, and the header locations, by hand from docs/RULES.md."""
import zlib

from .openings import HOST
from .records import Case, CHECKSUM, LOCATION, same
from .rules import locate

CHECKSUMS = [
    ('123456789', 'cbf43926'),
    ('', '00000000'),
]

# code, S, offset
LOCATIONS = [
    (0, HOST, '0'),
    (1, HOST, '65536'),
    (2, HOST, '917504'),
    (3, HOST, '983040'),
    (4, HOST, 'refused 2'),
    (0, HOST + 1, 'refused 3'),
    (1, HOST + 1, 'refused 3'),
    (2, HOST + 1, 'refused 3'),
    (3, HOST + 1, 'refused 3'),
    (4, HOST + 1, 'refused 2'),
]


def checks():
    for text, checksum in CHECKSUMS:
        same(text, checksum, f'{zlib.crc32(text.encode()):08x}')
        yield Case(CHECKSUM, f'crc32 {text}', [('', checksum)], data=text.encode())
    for code, host_size, offset in LOCATIONS:
        name = f'location {code} of {host_size}'
        same(name, offset, locate(code, host_size))
        yield Case(LOCATION, name, [('', offset)], numbers=(code, host_size))
