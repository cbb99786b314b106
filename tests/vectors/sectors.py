"""The cases of the sector map."""
from .headers import LARGER_SIZES
from .records import Case, MAP, same
from .rules import host_sector, is_sound, sector_count, tweak_block, user_sector
from .openings import HOST


def layout(host_size=HOST, kind=0, magic=1, version=5, min_program_version=1_792, data_start=131_072,
           data_size=786_432, candidate=0, sector_size=512):
    """The worked cases' M as a layout, and with changes another one."""
    return {'host_size': host_size, 'kind': kind, 'magic': magic, 'version': version,
            'min_program_version': min_program_version, 'data_start': data_start, 'data_size': data_size,
            'candidate': candidate, 'sector_size': sector_size}


def hidden_layout(**changes):
    """The worked cases' N as a layout, and with changes another hidden one."""
    return layout(**{'kind': 1, 'data_start': 655_360, 'data_size': 262_144, **changes})


MOST = 2**64 - 1
PAST = 'refused 16'
SMALLEST_LAYOUT = layout(host_size=262_656, data_size=512)
LARGEST_LAYOUT = layout(host_size=2**50, data_size=2**50 - 262_144)
HIDDEN_AT_ITS_END = hidden_layout(host_size=2**50, data_start=2**50 - 131_584, data_size=512)
# One sector of 4,096 bytes.
SMALLEST_OF_4096 = layout(host_size=266_240, data_size=4_096, sector_size=4_096)
LARGEST_OF_4096 = layout(host_size=2**50, data_size=2**50 - 262_144, sector_size=4_096)

# name, layout, sector number, and by hand: the count of sectors, the host sector, the user sector, and
# the block as far as it is not zero. The tweak number is the host sector.
SECTORS = [
    ('M 0', layout(), 0, 1_536, 256, PAST, '0001'),
    ('M 255', layout(), 255, 1_536, 511, PAST, 'ff01'),
    ('M 256', layout(), 256, 1_536, 512, 0, '0002'),
    ('M 1535', layout(), 1_535, 1_536, 1_791, 1_279, 'ff06'),
    ('M 1536', layout(), 1_536, 1_536, PAST, 1_280, ''),
    ('M 1791', layout(), 1_791, 1_536, PAST, 1_535, ''),
    ('M 1792', layout(), 1_792, 1_536, PAST, PAST, ''),
    ('M 2^64-257', layout(), MOST - 256, 1_536, PAST, PAST, ''),
    ('M 2^64-256', layout(), MOST - 255, 1_536, PAST, PAST, ''),
    ('M 2^64-1', layout(), MOST, 1_536, PAST, PAST, ''),
    ('N 0', hidden_layout(), 0, 512, 1_280, PAST, '0005'),
    ('N 511', hidden_layout(), 511, 512, 1_791, PAST, 'ff06'),
    ('N 512', hidden_layout(), 512, 512, PAST, PAST, ''),
    ('N 1279', hidden_layout(), 1_279, 512, PAST, PAST, ''),
    ('N 1280', hidden_layout(), 1_280, 512, PAST, 0, ''),
    ('N 1791', hidden_layout(), 1_791, 512, PAST, 511, ''),
    ('N 1792', hidden_layout(), 1_792, 512, PAST, PAST, ''),
    ('N 2^64-1', hidden_layout(), MOST, 512, PAST, PAST, ''),
    ('smallest host 0', SMALLEST_LAYOUT, 0, 1, 256, PAST, '0001'),
    ('smallest host 1', SMALLEST_LAYOUT, 1, 1, PAST, PAST, ''),
    ('smallest host 256', SMALLEST_LAYOUT, 256, 1, PAST, 0, ''),
    ('smallest host 257', SMALLEST_LAYOUT, 257, 1, PAST, PAST, ''),
    ('largest host 0', LARGEST_LAYOUT, 0, 2_199_023_255_040, 256, PAST, '0001'),
    ('largest host 65280', LARGEST_LAYOUT, 65_280, 2_199_023_255_040, 65_536, 65_024, '000001'),
    ('largest host, last user sector', LARGEST_LAYOUT, 2_199_023_255_039,
     2_199_023_255_040, 2_199_023_255_295, 2_199_023_254_783, 'fffeffffff01'),
    ('largest host, one past it', LARGEST_LAYOUT, 2_199_023_255_040,
     2_199_023_255_040, PAST, 2_199_023_254_784, ''),
    ('largest host, last host sector', LARGEST_LAYOUT, 2_199_023_255_295,
     2_199_023_255_040, PAST, 2_199_023_255_039, ''),
    ('largest host, one past that', LARGEST_LAYOUT, 2_199_023_255_296, 2_199_023_255_040, PAST, PAST, ''),
    ('largest host 2^64-1', LARGEST_LAYOUT, MOST, 2_199_023_255_040, PAST, PAST, ''),
    ('hidden at its end 0', HIDDEN_AT_ITS_END, 0, 1, 2_199_023_255_295, PAST, 'fffeffffff01'),
    ('hidden at its end 1', HIDDEN_AT_ITS_END, 1, 1, PAST, PAST, ''),
    ('hidden at its end, its host sector', HIDDEN_AT_ITS_END, 2_199_023_255_295, 1, PAST, 0, ''),
    ('hidden, O 131072', hidden_layout(data_start=131_072), 0, 512, 256, PAST, '0001'),
    *((f'M {sector}, Z {size}', layout(sector_size=size), sector, 1_536, host, user, block)
      for size in LARGER_SIZES
      for sector, host, user, block in ((0, 256, PAST, '0001'), (1, 257, PAST, '0101'), (7, 263, PAST, '0701'),
                                        (257, 513, 1, '0102'), (1_535, 1_791, 1_279, 'ff06'), (1_536, PAST, 1_280, ''),
                                        (1_791, PAST, 1_535, ''), (1_792, PAST, PAST, ''), (MOST, PAST, PAST, ''))),
    *((f'N {sector}, Z {size}', hidden_layout(sector_size=size), sector, 512, host, user, block)
      for size in LARGER_SIZES
      for sector, host, user, block in ((0, 1_280, PAST, '0005'), (1, 1_281, PAST, '0105'), (511, 1_791, PAST, 'ff06'),
                                        (512, PAST, PAST, ''), (1_281, PAST, 1, ''), (1_791, PAST, 511, ''))),
    ('smallest of Z 4096, 0', SMALLEST_OF_4096, 0, 8, 256, PAST, '0001'),
    ('smallest of Z 4096, 7', SMALLEST_OF_4096, 7, 8, 263, PAST, '0701'),
    ('smallest of Z 4096, 8', SMALLEST_OF_4096, 8, 8, PAST, PAST, ''),
    ('smallest of Z 4096, 263', SMALLEST_OF_4096, 263, 8, PAST, 7, ''),
    ('smallest of Z 4096, 264', SMALLEST_OF_4096, 264, 8, PAST, PAST, ''),
    ('largest of Z 4096, last user sector', LARGEST_OF_4096, 2_199_023_255_039,
     2_199_023_255_040, 2_199_023_255_295, 2_199_023_254_783, 'fffeffffff01'),
    ('largest of Z 4096, last host sector', LARGEST_OF_4096, 2_199_023_255_295,
     2_199_023_255_040, PAST, 2_199_023_255_039, ''),
    ('magic 2^64-1', layout(magic=MOST), 0, 1_536, 256, PAST, '0001'),
    ('version 0', layout(version=0), 0, 1_536, 256, PAST, '0001'),
    ('version 2^64-1', layout(version=MOST), 0, 1_536, 256, PAST, '0001'),
    ('needs 2^64-1', layout(min_program_version=MOST), 0, 1_536, 256, PAST, '0001'),
    ('candidate 2^64-1', layout(candidate=MOST), 0, 1_536, 256, PAST, '0001'),
    ('N with all four made up', hidden_layout(magic=2, version=1, min_program_version=MOST, candidate=64), 511,
     512, 1_791, PAST, 'ff06'),
]

# The numbers that no layout and no view may have as Z, with their names.
WRONG_SECTOR_SIZES = [
    ('0', 0),
    ('1', 1),
    ('256', 256),
    ('513', 513),
    ('1536', 1_536),
    ('8192', 8_192),
    ('2^32+512', 2**32 + 512),
    ('2^64-512', 2**64 - 512),
    ('2^64-1', MOST),
]

# name, layout: every call is refused 11, for the first sector and for the largest number
UNSOUND = [
    ('kind 2', layout(kind=2)),
    ('kind 2, N', hidden_layout(kind=2)),
    ('kind 256', layout(kind=256)),
    ('kind 2^32', layout(kind=2**32)),
    ('kind 2^64-1', hidden_layout(kind=MOST)),
    ('S 0', layout(host_size=0)),
    ('S 131072', layout(host_size=131_072, data_size=512)),
    ('S 262144', layout(host_size=262_144, data_size=512)),
    ('S 262144, V 0', layout(host_size=262_144, data_size=0)),
    ('S 1048577', layout(host_size=HOST + 1)),
    ('S 1048832', layout(host_size=HOST + 256)),
    ('S 2^50+512', layout(host_size=2**50 + 512)),
    ('S 2^64-512', layout(host_size=2**64 - 512)),
    ('S 2^64-1', layout(host_size=MOST)),
    ('O 131073', layout(data_start=131_073, data_size=512)),
    ('O 131584', layout(data_start=131_584, data_size=512)),
    ('O 130560', layout(data_start=130_560)),
    ('O 0', layout(data_start=0)),
    ('N as standard', hidden_layout(kind=0)),
    ('hidden, O 130560', hidden_layout(data_start=130_560)),
    ('hidden, O 0', hidden_layout(data_start=0)),
    ('hidden, O 655361', hidden_layout(data_start=655_361, data_size=512)),
    ('hidden, O 655616', hidden_layout(data_start=655_616, data_size=512)),
    ('V 0', layout(data_size=0)),
    ('V 511', layout(data_size=511)),
    ('V 513', layout(data_size=513)),
    ('V 786431', layout(data_size=786_431)),
    ('hidden, V 0', hidden_layout(data_size=0)),
    ('V 786944, one sector past', layout(data_size=786_944)),
    ('hidden, V 262656, one sector past', hidden_layout(data_size=262_656)),
    ('hidden, O 655872, one sector past', hidden_layout(data_start=655_872)),
    ('S 262656, V 1024', layout(host_size=262_656, data_size=1_024)),
    ('S 2^50, V 512 more', layout(host_size=2**50, data_size=2**50 - 261_632)),
    ('V 2^64-512', layout(data_size=2**64 - 512)),
    ('V 2^64-131072, so that O+V is 2^64', layout(data_size=2**64 - 131_072)),
    ('hidden, V 2^64-512', hidden_layout(data_size=2**64 - 512)),
    ('hidden, O 2^64-512, V 1024', hidden_layout(data_start=2**64 - 512, data_size=1_024)),
    *((f'Z {text}', layout(sector_size=size)) for text, size in WRONG_SECTOR_SIZES),
    *((f'hidden, Z {text}', hidden_layout(sector_size=size)) for text, size in WRONG_SECTOR_SIZES),
    *((f'Z {size}, S 512 more', layout(sector_size=size, host_size=HOST + 512)) for size in LARGER_SIZES),
    *((f'Z {size}, V 512 less', layout(sector_size=size, data_size=785_920)) for size in LARGER_SIZES),
    *((f'Z {size}, O 512 less', hidden_layout(sector_size=size, data_start=654_848)) for size in LARGER_SIZES),
    ('Z 4096, S 2048 more', layout(sector_size=4_096, host_size=HOST + 2_048)),
    ('Z 4096, V 512', layout(sector_size=4_096, data_size=512)),
    ('Z 4096, V 0', layout(sector_size=4_096, data_size=0)),
    ('Z 4096, kind 2', layout(sector_size=4_096, kind=2)),
    ('Z 4096, S 2^50+4096', layout(sector_size=4_096, host_size=2**50 + 4_096)),
    ('all fields 0', dict.fromkeys(layout(), 0)),
    ('all fields 2^64-1', dict.fromkeys(layout(), MOST)),
]


def map_cases():
    """Every case as name, layout, sector number, and the answers: sound, sectors, host, user, tweak and block."""
    for name, fields, sector, count, host, user, block in SECTORS:
        yield name, fields, sector, (True, count, host, user, host, bytes.fromhex(block.ljust(32, '0')))
    for name, fields in UNSOUND:
        for text, sector in (('0', 0), ('2^64-1', MOST)):
            yield f'{name}, sector {text}', fields, sector, (False, *['refused 11'] * 4, bytes(16))


def sectors():
    for name, fields, sector, by_hand in map_cases():
        tweak = host_sector(fields, sector)
        same(name, by_hand, (is_sound(fields), sector_count(fields), tweak, user_sector(fields, sector), tweak,
                             tweak_block(tweak)))
        sound, count, host, user, tweak, block = by_hand
        answers = [('sound ', int(sound)), ('sectors ', count), ('host ', host), ('user ', user), ('tweak ', tweak),
                   ('block of ', tweak), ('bytes ', block.hex())]
        yield Case(MAP, name, answers, (sector, *fields.values()))
