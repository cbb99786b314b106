"""Reads and writes on views, by group."""
from .calls import both, CLOSED, make_up, N_RANGE, plain, protect, reads, writes, YES
from .openings import HOST
from .reference_model import view
from .sectors import hidden_layout, layout, MOST, SMALLEST_LAYOUT

STARRED = [
    ('no view yet', [*both(0, 11, (0, 1)), *both(1, 11, (0, 0), image=0)]),
    ('M protecting N', [
        protect(0),
        *writes(0, YES, (1_023, 1)), *writes(0, 18, (1_023, 2, 1_024)), *writes(0, 17, (0, 1)),
        *reads(0, YES, (0, 1), (1_023, 2)),
        *writes(0, 17, (1_023, 2), (0, 0), (1_024, 0)), *writes(0, 16, (1_537, 0, 1_537)),
    ]),
    ('plain view of M', [
        plain(1),
        *writes(1, YES, (1_536, 0)), *writes(1, 16, (1_536, 1, 1_536), (1_537, 0, 1_537)),
        *reads(1, YES, (1_536, 0)), *reads(1, 16, (1_536, 1, 1_536), (1_537, 0, 1_537)),
        *writes(1, YES, (1_535, 1)), *reads(1, YES, (1_535, 1)), *both(1, 16, (1_535, 2, 1_536)),
    ]),
    ('lowest and highest count', [
        *both(1, YES, (0, 128)), *both(1, 14, (0, 129)),
        *both(1, YES, (1_408, 128)), *both(1, 16, (1_409, 128, 1_536)), *both(1, YES, (0, 0)),
        *both(1, 14, (0, 2**55), buffer=0), *both(1, 14, (0, MOST), buffer=512), *both(1, 14, (0, 256), buffer=0),
    ]),
]

CONTENTS = [
    ('what is written is read', [
        *reads(1, YES, (4, 5)), *writes(1, YES, (5, 3)), *reads(1, YES, (5, 3), (4, 5)),
        *writes(1, YES, (6, 1)), *reads(1, YES, (5, 3)), *writes(1, YES, (7, 4)), *reads(1, YES, (4, 8)),
    ]),
    ('what is written is read, protected', [
        protect(0),
        *writes(0, YES, (0, 2)), *reads(0, YES, (0, 2)),
        *writes(0, YES, (1_022, 2)), *reads(0, YES, (1_022, 2)), *reads(1, YES, (1_022, 2)),
    ]),
    ('what is written is read, hidden', [
        plain(1, hidden_layout()),
        *reads(1, YES, (0, 2)), *writes(1, YES, (0, 2)), *reads(1, YES, (0, 2)), *reads(0, YES, (1_024, 2), (1_023, 3)),
        *writes(1, YES, (511, 1)), *reads(1, YES, (511, 1)), *reads(0, YES, (1_535, 1)),
        *both(1, 16, (511, 2, 512), (512, 1, 512)), *both(1, YES, (512, 0)), *both(1, 16, (513, 0, 513)),
        *both(1, YES, (384, 128)),
    ]),
    ('smallest host', [
        plain(1, SMALLEST_LAYOUT),
        *both(1, YES, (0, 1), image=262_656), *both(1, 16, (0, 2, 1), (1, 1, 1), image=262_656),
        *both(1, 13, (0, 1)), *both(1, 13, (0, 1), image=262_655),
        *both(1, 13, (0, 1), image=262_657), *both(1, 13, (0, 1), image=512),
    ]),
    ('other numbers of the layout made up', [
        plain(1, layout(magic=MOST, version=0, min_program_version=MOST, candidate=64)),
        *both(1, YES, (20, 1)),
    ]),
]

# User sectors 512 to 767 of M.
INNER = hidden_layout(data_start=393_216, data_size=131_072)
# M with user sector 700 alone protected.
ONE_SECTOR_VIEW = view(layout(), (489_472, 489_984))
WHOLE_AREA_VIEW = view(layout(), (131_072, 917_504))


def relocked(slot, made_up, calls):
    """Calls, each on the view made up anew."""
    return [step for call in calls for step in (make_up(slot, made_up), call)]


RANGES = [
    ('one protected sector', relocked(0, ONE_SECTOR_VIEW, [
        *writes(0, 18, (699, 3, 700), (700, 1, 700), (699, 2, 700), (700, 2, 700), (640, 128, 700), (573, 128, 700),
                (700, 128, 700)),
        *writes(0, YES, (572, 128), (701, 128), (699, 1), (701, 1), (700, 0)), *reads(0, YES, (699, 3)),
    ])),
    ('beside the range at the end', [
        protect(0),
        *writes(0, YES, (896, 128)), *writes(0, 18, (897, 128, 1_024)),
        *reads(0, YES, (896, 128), (1_024, 128), (1_408, 128)),
    ]),
    ('beside a range in the middle', [
        protect(0, layout(), INNER),
        *writes(0, YES, (511, 1), (768, 1), (384, 128), (768, 128), (512, 0), (640, 0), (768, 0), (1_536, 0)),
        *writes(0, 16, (1_537, 0, 1_537)), *reads(0, YES, (512, 1), (511, 3), (640, 128)),
        *writes(0, 18, (767, 1, 767)),
        *writes(0, 17, (768, 1), (640, 0), (1_536, 0)), *writes(0, 16, (1_537, 0, 1_537)),
        *reads(0, YES, (512, 1), (511, 3), (640, 0)),
        protect(0, layout(), INNER), *writes(0, 18, (512, 1, 512)),
        protect(0, layout(), INNER), *writes(0, 18, (385, 128, 512)),
        protect(0, layout(), INNER), *writes(0, 18, (767, 2, 767)),
    ]),
    ('whole area protected', relocked(0, WHOLE_AREA_VIEW, [
        *writes(0, 18, (0, 1, 0), (1_535, 1, 1_535)), *writes(0, YES, (0, 0), (1_536, 0)), *reads(0, YES, (0, 1)),
    ])),
    ('lock closed from the start', [
        make_up(0, CLOSED), *writes(0, 17, (0, 1), (1_024, 1)), *reads(0, YES, (0, 1), (1_024, 1)),
        make_up(0, view(layout(), None, True)), *writes(0, 17, (0, 1), (0, 0)), *reads(0, YES, (0, 1)),
        make_up(0, view(hidden_layout(), None, True)), *writes(0, 17, (0, 1)), *reads(0, YES, (0, 1)),
    ]),
]

LENGTHS_AND_ENDS = [
    ('image length', [
        plain(0),
        *both(0, 13, (0, 1), image=HOST - 1), *both(0, 13, (0, 1), image=HOST + 1),
        *both(0, 13, (0, 1), image=HOST - 512), *both(0, 13, (0, 1), (0, 0), image=0), *both(0, YES, (0, 1)),
    ]),
    ('buffer length', [
        *both(0, 15, (0, 1), buffer=511), *both(0, 15, (0, 1), buffer=513), *both(0, 15, (0, 1), buffer=0),
        *both(0, 15, (0, 1), buffer=1_024), *both(0, 15, (0, 0), buffer=1), *both(0, 15, (0, 0), buffer=512),
        *both(0, 15, (0, 128), buffer=65_535), *both(0, 15, (0, 128), buffer=65_537),
    ]),
    ('far past the end', [
        protect(0),
        *both(0, 16, (MOST, 0, MOST), (MOST, 1, MOST), (MOST, 2, MOST), (MOST, 128, MOST),
              (2**64 - 128, 128, 2**64 - 128), (2**64 - 129, 128, 2**64 - 129), (2**64 - 127, 128, 2**64 - 127),
              (2**55, 1, 2**55), (2**55 - 256, 1, 2**55 - 256), (2**63, 1, 2**63), (2**32, 1, 2**32)),
        *writes(0, YES, (0, 1)),
    ]),
    ('a touch past the end leaves the lock open', [
        *writes(0, 16, (1_535, 2, 1_536), (1_409, 128, 1_536)), *writes(0, YES, (0, 1)),
    ]),
]

ORDER_OF_CHECKS = [
    ('all checks fail', [
        make_up(0, view(layout(kind=2), N_RANGE, True)), *both(0, 11, (1_535, 129), image=HOST - 1, buffer=511),
        make_up(0, CLOSED), *both(0, 13, (1_535, 129), image=HOST - 1, buffer=511),
        *both(0, 14, (1_535, 129), buffer=511), *both(0, 15, (1_535, 2), buffer=511),
        *both(0, 16, (1_535, 2, 1_536)), *writes(0, 17, (1_535, 1)), *reads(0, YES, (1_535, 1)),
        make_up(0, view(layout(), N_RANGE)), *writes(0, 18, (1_535, 1, 1_535)),
    ]),
    ('two checks fail', [
        protect(0),
        *both(0, 13, (0, 129), image=HOST - 1), *both(0, 13, (0, 1), image=HOST - 1, buffer=511),
        *both(0, 13, (1_536, 1), image=HOST - 1), *writes(0, 13, (1_024, 1), image=HOST - 1),
        *both(0, 14, (0, 129), buffer=512), *both(0, 14, (1_536, 129)), *writes(0, 14, (1_024, 129)),
        *both(0, 15, (1_536, 1), buffer=511), *writes(0, 15, (1_024, 1), buffer=511),
        *writes(0, 16, (1_535, 2, 1_536)), *writes(0, YES, (0, 1)),
        make_up(0, CLOSED),
        *writes(0, 13, (0, 1), image=HOST - 1), *writes(0, 14, (0, 129)), *writes(0, 15, (0, 1), buffer=511),
        *writes(0, 16, (1_536, 1, 1_536)), *writes(0, 17, (1_024, 1)),
    ]),
]

ACCESS_GROUPS = STARRED + CONTENTS + RANGES + LENGTHS_AND_ENDS + ORDER_OF_CHECKS
