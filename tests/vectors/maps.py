"""The files of `volmap`."""
from .headers import header, SAMPLES, vera, vera_hidden
from .rules import map_output
from .openings import HOST, ZEROS

WORKED = '''\
mark TRUE
version 5
needs 1792
kind standard
host 1048576
start 131072
size 786432
sectors 1536
first 256
last 1791
'''

HIDDEN = '''\
mark {}
version 5
needs {}
kind hidden
host 1048576
start 655360
size 262144
sectors 512
first 1280
last 1791
'''

ONE_SECTOR_OF_4096 = '''\
mark VERA
version 5
needs 267
kind standard
host 266240
start 131072
size 4096
sectors 8
first 256
last 263
'''

ONE_SECTOR = '''\
mark VERA
version 2
needs 267
kind standard
host 262656
start 131072
size 512
sectors 1
first 256
last 256
'''

LARGEST = '''\
mark VERA
version 5
needs 1792
kind standard
host 1125899906842624
start 131072
size 1125899906580480
sectors 2199023255040
first 256
last 2199023255295
'''


def map_input(code, h, host_size=HOST):
    return host_size.to_bytes(8, 'big') + bytes([code]) + h


WORKED_INPUT = map_input(0, SAMPLES[0])

# name, what the program prints, its input
MAPS = [
    ('worked', WORKED, WORKED_INPUT),
    ('sample_code1', HIDDEN.format('TRUE', 1_792), map_input(1, SAMPLES[1])),
    ('sample_code2', WORKED, map_input(2, SAMPLES[2])),
    ('sample_code3', HIDDEN.format('TRUE', 1_792), map_input(3, SAMPLES[3])),
    ('hidden_vera', HIDDEN.format('VERA', 267), map_input(1, vera_hidden(needs=b'\x01\x0b'))),
    ('one_sector', ONE_SECTOR, map_input(0, vera(version=2, needs=b'\x01\x0b', data_size=512), 262_656)),
    ('sector_size_4096', WORKED, map_input(0, header(sector_size=4_096))),
    ('hidden_of_4096', HIDDEN.format('VERA', 267), map_input(1, vera_hidden(needs=b'\x01\x0b', sector_size=4_096))),
    ('one_sector_of_4096', ONE_SECTOR_OF_4096,
     map_input(0, vera(needs=b'\x01\x0b', data_size=4_096, sector_size=4_096), 266_240)),
    ('largest_host', LARGEST, map_input(0, vera(data_size=2**50 - 262_144), 2**50)),
    ('empty', 'refused 1\n', b''),
    ('nine_bytes', 'refused 1\n', WORKED_INPUT[:9]),
    ('bytes_520', 'refused 1\n', WORKED_INPUT[:520]),
    ('bytes_522', 'refused 1\n', WORKED_INPUT + b'\0'),
    ('bytes_5000', 'refused 1\n', WORKED_INPUT + bytes(4_479)),
    ('code_4', 'refused 2\n', map_input(4, SAMPLES[0])),
    ('host_262144', 'refused 3\n', map_input(0, SAMPLES[0], 262_144)),
    ('zeros', 'refused 4\n', map_input(0, ZEROS)),
    ('version_3', 'refused 5\n', map_input(0, header(version=3))),
    ('reserved_byte', 'refused 6\n', map_input(0, vera(put={132: b'\1'}))),
    ('flags_bit_0', 'refused 7\n', map_input(0, header(flags=1))),
    ('sector_size_1536', 'refused 8\n', map_input(0, header(sector_size=1_536))),
    ('hidden_as_standard', 'refused 9\n', map_input(0, SAMPLES[1])),
    ('data_size_786944', 'refused 10\n', map_input(0, header(data_size=786_944))),
    ('data_size_785920_of_4096', 'refused 10\n', map_input(0, header(data_size=785_920, sector_size=4_096))),
    ('host_1049088_of_4096', 'refused 10\n', map_input(0, header(sector_size=4_096), 1_049_088)),
]


def maps():
    files = {'crates/volmap/stdin': WORKED_INPUT, 'crates/volmap/stdout': WORKED.encode()}
    for name, output, data in MAPS:
        assert map_output(data) == output, f'{name}: the rules say {output!r}, not {map_output(data)!r}'
        files[f'tests/volmap/{name}.in'] = data
        files[f'tests/volmap/{name}.out'] = output.encode()
    return files
