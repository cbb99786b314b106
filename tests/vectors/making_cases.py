"""Views that are made or made up: those that are not sound, pairs that nest or do not, and calls after a making."""
from .calls import both, MADE, make_up, N_RANGE, plain, protect, reads, writes, YES
from .headers import LARGER_SIZES
from .openings import HOST
from .reference_model import view
from .sectors import hidden_layout, layout, WRONG_SECTOR_SIZES

UNSOUND_VIEWS = [
    ('kind 2', view(layout(kind=2))),
    ('kind 2, protected', view(layout(kind=2), N_RANGE)),
    ('V 786944', view(layout(data_size=786_944))),
    ('V 2^64-131072', view(layout(data_size=2**64 - 131_072))),
    ('O 131584', view(layout(data_start=131_584, data_size=512), N_RANGE)),
    ('S 1048577', view(layout(host_size=HOST + 1), N_RANGE)),
    ('lock closed', view(layout(data_size=0), N_RANGE, True)),
    ('range start unaligned', view(layout(), (655_361, 917_504))),
    ('range start half a sector off', view(layout(), (655_616, 917_504))),
    ('range end unaligned', view(layout(), (655_360, 917_503))),
    ('range in one sector', view(layout(), (655_360, 655_616))),
    ('range empty', view(layout(), (655_360, 655_360))),
    ('range 0 to 0', view(layout(), (0, 0))),
    ('range backwards', view(layout(), (917_504, 655_360))),
    ('range from before the area', view(layout(), (130_560, 917_504))),
    ('range before the area', view(layout(), (0, 131_072))),
    ('range to past the area', view(layout(), (655_360, 918_016))),
    ('range past the area', view(layout(), (917_504, 918_016))),
    ('range to 2^64-512', view(layout(), (655_360, 2**64 - 512))),
    ('range from 2^64-512', view(layout(), (2**64 - 512, 917_504))),
    ('range of a hidden volume', view(hidden_layout(), N_RANGE)),
    ('range in a hidden volume', view(hidden_layout(), (655_360, 655_872))),
    ('Z 0', view(layout(sector_size=0), N_RANGE)),
    ('Z 8192', view(layout(sector_size=8_192), N_RANGE, True)),
    *((f'Z {size}, S 512 more', view(layout(sector_size=size, host_size=HOST + 512))) for size in LARGER_SIZES),
    *((f'Z {size}, V 512 less', view(layout(sector_size=size, data_size=785_920))) for size in LARGER_SIZES),
    *((f'Z {size}, O 512 less', view(hidden_layout(sector_size=size, data_start=654_848))) for size in LARGER_SIZES),
    ('Z 4096, range end unaligned', view(layout(sector_size=4_096), (655_360, 917_503))),
    ('Z 4096, range empty', view(layout(sector_size=4_096), (655_360, 655_360))),
    ('range of N, lock closed', view(hidden_layout(), N_RANGE, True)),
    ('range empty, lock closed', view(layout(), (655_360, 655_360), True)),
]

# M's data area as a hidden volume's.
EQUAL = hidden_layout(data_start=131_072, data_size=786_432)

PAIRS = [
    ('M and N', MADE, layout(), hidden_layout()),
    ('two standard', 12, layout(), layout()),
    ('two hidden', 12, hidden_layout(), hidden_layout()),
    ('N and M', 12, hidden_layout(), layout()),
    ('two hidden, apart', 12, hidden_layout(data_start=131_072), hidden_layout()),
    ('S 512 more in the hidden', 12, layout(), hidden_layout(host_size=HOST + 512)),
    ('S 512 more in the outer', 12, layout(host_size=HOST + 512), hidden_layout()),
    ('S twice as large', 12, layout(), hidden_layout(host_size=2 * HOST)),
    ('hidden past the outer', 12, layout(data_size=262_144), hidden_layout()),
    ('hidden just past the outer', 12, layout(data_size=524_288), hidden_layout()),
    ('hidden one sector past the outer', 12, layout(data_size=785_920), hidden_layout()),
    ('hidden larger than the outer', 12, layout(data_size=262_144),
     hidden_layout(data_start=131_072, data_size=262_656)),
    ('hidden equal to the outer', MADE, layout(), EQUAL),
    ('hidden in the first sector', MADE, layout(), hidden_layout(data_start=131_072, data_size=512)),
    ('hidden in the last sector', MADE, layout(), hidden_layout(data_start=916_992, data_size=512)),
    ('one sector each', MADE, layout(data_size=512), hidden_layout(data_start=131_072, data_size=512)),
    ('other numbers differ', MADE, layout(magic=0, version=2, candidate=1), hidden_layout(candidate=63)),
    ('hidden before the outer', 11, layout(), hidden_layout(data_start=130_560)),
    ('outer unsound', 11, layout(data_size=786_944), hidden_layout()),
    ('hidden unsound', 11, layout(), hidden_layout(data_size=262_656)),
    ('both unsound', 11, layout(kind=2), hidden_layout(kind=2)),
    ('outer unsound, and hidden standard', 11, layout(data_size=0), layout()),
    ('hidden unsound, and outer hidden', 11, hidden_layout(), hidden_layout(data_size=0)),
    ('hidden unsound, and S differs', 11, layout(), hidden_layout(host_size=HOST + 256)),
    ('N as standard', 11, layout(), hidden_layout(kind=0)),
    ('M as hidden', 12, layout(kind=1), hidden_layout()),
    *((f'both of Z {size}', MADE, layout(sector_size=size), hidden_layout(sector_size=size)) for size in LARGER_SIZES),
    *((f'hidden of Z {size}', 12, layout(), hidden_layout(sector_size=size)) for size in LARGER_SIZES),
    *((f'outer of Z {size}', 12, layout(sector_size=size), hidden_layout()) for size in LARGER_SIZES),
    ('Z 2048 and 4096', 12, layout(sector_size=2_048), hidden_layout(sector_size=4_096)),
    ('Z 4096 and 1024', 12, layout(sector_size=4_096), hidden_layout(sector_size=1_024)),
    ('Z differs, and the kinds too', 12, layout(kind=1, sector_size=4_096), hidden_layout()),
    ('Z differs, areas equal', 12, layout(), hidden_layout(data_start=131_072, data_size=786_432, sector_size=1_024)),
    ('Z 4096, hidden equal to the outer', MADE, layout(sector_size=4_096),
     hidden_layout(data_start=131_072, data_size=786_432, sector_size=4_096)),
    ('Z 4096, hidden one of its sectors past the outer', 12, layout(data_size=782_336, sector_size=4_096),
     hidden_layout(sector_size=4_096)),
    *((f'Z {text} in the outer', 11, layout(sector_size=size), hidden_layout()) for text, size in WRONG_SECTOR_SIZES),
    *((f'Z {text} in the hidden', 11, layout(), hidden_layout(sector_size=size)) for text, size in WRONG_SECTOR_SIZES),
    *((f'Z {text} in both', 11, layout(sector_size=size), hidden_layout(sector_size=size))
      for text, size in WRONG_SECTOR_SIZES),
    ('Z differs, and the hidden is unsound by its O', 11, layout(),
     hidden_layout(data_start=654_848, sector_size=4_096)),
    ('Z differs, and the outer is unsound by its V', 11, layout(data_size=785_920, sector_size=4_096), hidden_layout()),
    ('Z 4096, both unsound by their S', 11, layout(host_size=HOST + 512, sector_size=4_096),
     hidden_layout(host_size=HOST + 512, sector_size=4_096)),
    ('O+V of the hidden 2^64', 11, layout(), hidden_layout(data_start=2**64 - 512, data_size=512)),
]

PAIR_CALLS = [
    ('protecting the whole of M', [
        protect(0, layout(), EQUAL), *writes(0, YES, (0, 0)), *writes(0, 18, (0, 1, 0)),
        protect(0, layout(), EQUAL), *writes(0, 18, (1_535, 1, 1_535)), *reads(0, YES, (0, 1)),
    ]),
    ('protecting the last sector of M', [
        protect(0, layout(), hidden_layout(data_start=916_992, data_size=512)),
        *writes(0, YES, (1_407, 128)), *writes(0, 18, (1_408, 128, 1_535)),
    ]),
    ('a refused making leaves the view', [
        protect(0), protect(0, layout(), layout(), answer=12), plain(0, layout(data_size=0), answer=11),
        *writes(0, 18, (1_024, 1, 1_024)), protect(0, layout(), layout(), answer=12), *writes(0, 17, (0, 1)),
    ]),
    ('making by Z', [
        *(plain(0, layout(sector_size=size)) for size in LARGER_SIZES),
        *(plain(0, hidden_layout(sector_size=size)) for size in LARGER_SIZES),
        *(plain(1, layout(sector_size=size), answer=11) for _, size in WRONG_SECTOR_SIZES),
        *(plain(1, hidden_layout(sector_size=size), answer=11) for _, size in WRONG_SECTOR_SIZES),
        *(plain(1, layout(sector_size=size, host_size=HOST + 512), answer=11) for size in LARGER_SIZES),
        *(plain(1, layout(sector_size=size, data_size=785_920), answer=11) for size in LARGER_SIZES),
        *(plain(1, hidden_layout(sector_size=size, data_start=654_848), answer=11) for size in LARGER_SIZES),
    ]),
]


def making_groups():
    for name, made_up in UNSOUND_VIEWS:
        yield f'unsound, {name}', [make_up(0, made_up), *both(0, 11, (0, 1), (1_024, 0))]
    for name, answer, outer, hidden in PAIRS:
        yield f'pair, {name}', [protect(1, outer, hidden, answer)]
    yield from PAIR_CALLS
