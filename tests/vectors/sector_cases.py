"""Which sector the refusals 16 and 18 tell, and that no other answer tells one."""
from .calls import both, CLOSED, make_up, N_RANGE, plain, reads, writes, YES
from .openings import HOST
from .reference_model import view
from .sectors import hidden_layout, layout, MOST
from .view_cases import relocked


def protecting(first, end, locked=False):
    """A view of M that protects its user sectors from first up to end."""
    return view(layout(), (131_072 + 512 * first, 131_072 + 512 * end), locked)


def touches(title, range_sectors, *extents):
    """Writes that are refused 18, each on an open lock."""
    return title, relocked(0, protecting(*range_sectors), writes(0, 18, *extents))


PAST_THE_END = [
    ('the sector past the end', [
        plain(1),
        *both(1, 16, (1_500, 100, 1_536), (1_535, 128, 1_536), (1_536, 128, 1_536), (1_537, 1, 1_537),
              (1_664, 128, 1_664), (1_665, 0, 1_665), (MOST, 0, MOST), (MOST, 1, MOST), (MOST, 128, MOST)),
    ]),
    ('the sector past the end, hidden', [
        plain(1, hidden_layout()),
        *both(1, 16, (400, 128, 512), (512, 128, 512), (600, 0, 600), (1_279, 1, 1_279), (MOST, 128, MOST)),
    ]),
    ('the sector past the end, one sector', [
        plain(1, layout(data_size=512)), *both(1, 16, (0, 2, 1), (0, 128, 1), (1, 1, 1), (2, 0, 2), (2, 1, 2)),
    ]),
]

TOUCHED = [
    touches('the sector in a range to the end', (1_024, 1_536), (1_023, 2, 1_024), (1_000, 128, 1_024),
            (1_024, 1, 1_024), (1_025, 7, 1_025), (1_408, 128, 1_408), (1_535, 1, 1_535)),
    touches('the sector in a range in the middle', (10, 20), (5, 6, 10), (5, 15, 10), (10, 10, 10), (14, 2, 14),
            (19, 1, 19), (19, 128, 19), (0, 128, 10)),
    touches('the sector in a range at the start', (0, 5), (0, 1, 0), (0, 128, 0), (4, 1, 4), (3, 9, 3)),
    touches('the sector in a range of one, first', (0, 1), (0, 1, 0), (0, 2, 0), (0, 128, 0)),
    touches('the sector in a range of one, middle', (10, 11), (9, 2, 10), (9, 3, 10), (10, 1, 10), (10, 2, 10)),
    touches('the sector in a range of one, last', (1_535, 1_536), (1_534, 2, 1_535), (1_408, 128, 1_535)),
    touches('the sector in a range of all', (0, 1_536), (0, 1, 0), (700, 128, 700), (1_535, 1, 1_535)),
]

OTHERS = [
    ('16 before 17 and 18', [
        make_up(0, view(layout(), N_RANGE)),
        *both(0, 16, (1_535, 2, 1_536), (1_500, 128, 1_536), (1_537, 0, 1_537)), *writes(0, YES, (0, 1)),
        make_up(0, CLOSED), *both(0, 16, (1_535, 2, 1_536), (1_537, 0, 1_537), (MOST, 128, MOST)),
    ]),
    ('no sector is told', [
        make_up(0, protecting(10, 20)),
        *reads(0, YES, (5, 10), (10, 1)), *writes(0, YES, (9, 1), (10, 0), (20, 1), (1_536, 0)),
        *both(0, 13, (5, 10), (1_535, 2), image=HOST - 512), *both(0, 14, (5, 129), (1_535, 129)),
        *both(0, 15, (5, 10), (1_535, 2), buffer=512),
        make_up(0, protecting(10, 20, True)), *writes(0, 17, (5, 10), (10, 1), (10, 0), (0, 1), (1_536, 0)),
        make_up(0, protecting(10, 10)), *both(0, 11, (5, 10), (1_535, 2)),
    ]),
]

SECTOR_GROUPS = PAST_THE_END + TOUCHED + OTHERS
