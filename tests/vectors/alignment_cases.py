"""Extents on disks with sectors of more than 512 bytes: which are refused 20, and what comes before it and after."""
from .calls import both, make_up, N_RANGE, plain, protect, reads, writes, YES
from .openings import HOST
from .reference_model import view
from .sectors import hidden_layout, layout, MOST, SMALLEST_OF_4096, WRONG_SECTOR_SIZES
from .view_cases import relocked

M_OF_4096 = layout(sector_size=4_096)
N_OF_4096 = hidden_layout(sector_size=4_096)
CLOSED_OF_4096 = view(M_OF_4096, N_RANGE, True)


def protecting(first, end, locked=False):
    """A view of M on a disk of Z 4,096 that protects its user sectors from first up to end."""
    return view(M_OF_4096, (131_072 + 512 * first, 131_072 + 512 * end), locked)


SIZES = [
    ('Z 512, nothing is unaligned', [
        plain(0), *both(0, YES, (1, 1), (1, 0), (0, 7), (3, 5), (1_535, 1)), *both(0, 16, (MOST, 1, MOST)),
    ]),
    ('Z 1024', [
        plain(0, layout(sector_size=1_024)),
        *both(0, 20, (1, 1), (0, 1), (1, 0), (1, 2), (2, 3), (1_535, 1), (0, 127)),
        *both(0, YES, (0, 0), (2, 0), (0, 2), (6, 4), (0, 128), (1_534, 2), (1_536, 0)),
        *both(0, 16, (1_534, 4, 1_536), (1_538, 0, 1_538)),
    ]),
    ('Z 2048', [
        plain(0, layout(sector_size=2_048)),
        *both(0, 20, (1, 1), (0, 2), (2, 0), (2, 4), (2, 2), (4, 6), (1_534, 2), (0, 126)),
        *both(0, YES, (0, 0), (4, 0), (0, 4), (12, 8), (0, 128), (1_532, 4), (1_536, 0)),
        *both(0, 16, (1_532, 8, 1_536), (1_540, 0, 1_540)),
    ]),
    ('Z 4096', [
        plain(0, M_OF_4096),
        *both(0, 20, (1, 1), (0, 1), (0, 7), (1, 7), (8, 7), (8, 9), (1, 8), (4, 8), (7, 8), (4, 4), (7, 1), (6, 2)),
        *both(0, 20, (1, 0), (4, 0), (7, 0), (1, 127), (0, 127), (0, 124), (4, 128), (1_535, 1)),
        *both(0, YES, (8, 8), (0, 8), (16, 24), (8, 0), (0, 0), (0, 128), (1_528, 8), (1_408, 128), (1_536, 0)),
    ]),
    ('Z 4096, hidden', [
        plain(1, N_OF_4096),
        *both(1, 20, (1, 1), (4, 8), (0, 4), (511, 1), (1, 0), (513, 0)), *both(1, YES, (0, 8), (504, 8), (512, 0)),
        *both(1, 16, (512, 8, 512), (504, 16, 512), (520, 0, 520)),
    ]),
    ('Z 4096, smallest host', [
        plain(1, SMALLEST_OF_4096),
        *both(1, YES, (0, 8), (0, 0), (8, 0), image=266_240), *both(1, 20, (0, 1), (7, 1), (1, 0), image=266_240),
        *both(1, 16, (0, 16, 8), (8, 8, 8), (16, 0, 16), image=266_240), *both(1, 13, (0, 8)),
    ]),
    ('Z 4096, what is written is read', [
        plain(0, M_OF_4096), plain(1),
        *writes(0, YES, (8, 16)), *reads(1, YES, (7, 18)), *writes(1, YES, (15, 2)), *reads(0, YES, (8, 16)),
        *writes(0, 20, (9, 8)), *reads(1, YES, (7, 18)), *writes(0, YES, (16, 8)), *reads(1, YES, (7, 18)),
    ]),
]

PLACES_IN_THE_ORDER = [
    ('20 before 16', [
        plain(0, M_OF_4096),
        *both(0, 20, (1_537, 0), (1_537, 8), (1_536, 1), (1_529, 8), (1_528, 9), (1_540, 8), (2**32 + 4, 8), (MOST, 0),
              (MOST, 1), (MOST, 128), (2**64 - 4, 8)),
        *both(0, 16, (1_536, 8, 1_536), (1_544, 0, 1_544), (1_528, 16, 1_536), (1_416, 128, 1_536),
              (2**32, 8, 2**32), (2**64 - 8, 0, 2**64 - 8), (2**64 - 8, 8, 2**64 - 8), (2**64 - 8, 128, 2**64 - 8)),
    ]),
    ('15 before 20', [
        *both(0, 15, (1, 1), buffer=511), *both(0, 15, (0, 7), buffer=4_096), *both(0, 15, (1, 0), buffer=4_096),
        *both(0, 15, (0, 8), buffer=512), *both(0, 15, (1, 8), buffer=4_095),
    ]),
    ('14 before 20', [
        *both(0, 14, (1, 129), (0, 129)), *both(0, 14, (4, 136), (0, 136), buffer=4_096),
        *both(0, 14, (1, MOST), buffer=512),
    ]),
    ('13 before 20', [
        *both(0, 13, (1, 1), (1, 0), image=HOST - 512), *both(0, 13, (4, 8), image=HOST - 4_096),
        *both(0, 13, (1, 129), image=HOST + 1),
    ]),
    ('11 before 20', [
        make_up(0, view(layout(sector_size=4_096, kind=2))), *both(0, 11, (1, 1), (1, 0)),
        make_up(0, view(layout(sector_size=4_096, data_size=785_920))), *both(0, 11, (1, 1), (0, 8)),
        make_up(0, protecting(10, 10)), *both(0, 11, (1, 1), (8, 8)),
        make_up(0, view(layout(sector_size=513))), *both(0, 11, (1, 1)),
    ]),
    ('20 before 17', [
        make_up(0, CLOSED_OF_4096), *both(0, 20, (1, 1), (1, 0), (4, 8), (1_025, 7), (1_537, 0)),
        *writes(0, 17, (0, 8), (0, 0), (1_024, 8)), *reads(0, YES, (0, 8), (1_024, 8)),
        *both(0, 16, (1_536, 8, 1_536)),
    ]),
    ('20 before 18, and the lock stays open', [
        protect(0, M_OF_4096, N_OF_4096),
        *writes(0, 20, (1_023, 2), (1_024, 1), (1_020, 8), (1_025, 8), (1_024, 7), (1_535, 1)),
        *writes(0, YES, (1_016, 8), (1_024, 0)), *reads(0, YES, (1_016, 16)), *reads(0, 20, (1_020, 8)),
        *writes(0, 18, (1_016, 16, 1_024)), *writes(0, 20, (1_023, 2), (1, 1)), *writes(0, 17, (0, 8)),
    ]),
    ('all checks fail at Z 4096', [
        make_up(0, view(layout(sector_size=4_096, kind=2), N_RANGE, True)),
        *both(0, 11, (1_535, 129), image=HOST - 1, buffer=511),
        make_up(0, CLOSED_OF_4096), *both(0, 13, (1_535, 129), image=HOST - 1, buffer=511),
        *both(0, 14, (1_535, 129), buffer=511), *both(0, 15, (1_535, 2), buffer=511), *both(0, 20, (1_535, 2)),
        *both(0, 16, (1_528, 16, 1_536)), *writes(0, 17, (1_528, 8)), *reads(0, YES, (1_528, 8)),
        make_up(0, view(M_OF_4096, N_RANGE)), *writes(0, 18, (1_528, 8, 1_528)),
    ]),
]


def touches(title, range_sectors, *extents):
    """Writes that are refused 18, each on an open lock."""
    return title, relocked(0, protecting(*range_sectors), writes(0, 18, *extents))


# Ranges on the boundaries of 512 bytes, most of them not on those of 4,096.
RANGES = [
    touches('Z 4096, a range to the end', (1_024, 1_536), (1_024, 8, 1_024), (1_016, 16, 1_024), (1_000, 128, 1_024),
            (1_032, 8, 1_032), (1_408, 128, 1_408), (1_528, 8, 1_528)),
    touches('Z 4096, a range of ten', (10, 20), (8, 8, 10), (0, 16, 10), (0, 128, 10), (16, 8, 16), (16, 128, 16)),
    touches('Z 4096, a range of one, within', (11, 12), (8, 8, 11), (0, 16, 11), (8, 16, 11)),
    touches('Z 4096, a range of one, first', (8, 9), (8, 8, 8), (0, 16, 8)),
    touches('Z 4096, a range of one, last', (15, 16), (8, 8, 15), (8, 128, 15)),
    touches('Z 4096, a range in two disk sectors', (15, 17), (8, 8, 15), (16, 8, 16), (0, 128, 15)),
    touches('Z 4096, a range of the last', (1_535, 1_536), (1_528, 8, 1_535), (1_408, 128, 1_535)),
    ('Z 4096, beside a range of ten', relocked(0, protecting(10, 20), [
        *writes(0, YES, (0, 8), (24, 8), (24, 128), (8, 0), (16, 0)), *reads(0, YES, (8, 16)),
        *writes(0, 20, (0, 10), (20, 4), (10, 10), (12, 0), (20, 12)),
    ])),
    ('Z 4096, beside a range of one', relocked(0, protecting(11, 12), [
        *writes(0, YES, (0, 8), (16, 8)), *writes(0, 20, (8, 3), (12, 4), (11, 1)), *reads(0, YES, (8, 8)),
    ])),
    ('Z 2048, a range of one', relocked(0, view(layout(sector_size=2_048), (136_704, 137_216)), [
        *writes(0, 18, (8, 4, 11), (4, 8, 11)), *writes(0, YES, (4, 4), (12, 4)), *writes(0, 20, (9, 2), (11, 1)),
    ])),
]

UNSOUND = [
    ('unsound by Z', [
        call for _, size in WRONG_SECTOR_SIZES
        for call in (make_up(0, view(layout(sector_size=size))), *both(0, 11, (0, 8)))
    ]),
]

ALIGNMENT_GROUPS = SIZES + PLACES_IN_THE_ORDER + RANGES + UNSOUND
