"""The calls that only tell where the bytes are: for the reads and writes of other groups, and on the largest host."""
from .calls import access, as_other, both_extents, make_up, plain, YES
from .records import READ, READ_EXTENT, WRITE, WRITE_EXTENT
from .reference_model import NO_VIEW, view
from .sectors import HIDDEN_AT_ITS_END, LARGEST_LAYOUT, LARGEST_OF_4096, MOST

EXTENT_OF = {READ: READ_EXTENT, WRITE: WRITE_EXTENT}

# The largest host with the last sector of its volume protected.
LAST_PROTECTED = view(LARGEST_LAYOUT, (2**50 - 131_584, 2**50 - 131_072))

LARGE_HOSTS = [
    ('extents, largest host', [
        make_up(0, LAST_PROTECTED),
        *both_extents(0, YES, (0, 1), (2_199_023_254_911, 128), (2_199_023_255_040, 0), image=2**50),
        *both_extents(0, 16, (2_199_023_255_039, 2, 2_199_023_255_040), (2_199_023_255_000, 128, 2_199_023_255_040),
                      (2_199_023_255_041, 0, 2_199_023_255_041), (MOST, 128, MOST), image=2**50),
        *both_extents(0, 13, (0, 1)), *both_extents(0, 13, (0, 1), image=MOST),
        *both_extents(0, 14, (0, 129), image=2**50), *both_extents(0, 14, (0, MOST), image=2**50, buffer=MOST),
        *both_extents(0, 15, (0, 1), image=2**50, buffer=2**32 + 512),
        *both_extents(0, 15, (0, 0), image=2**50, buffer=MOST),
    ]),
    ('extents, end of the largest host', [
        make_up(0, LAST_PROTECTED), (18, access(WRITE_EXTENT, 0, (2_199_023_255_038, 2, 2_199_023_255_039), 2**50)),
        (17, access(WRITE_EXTENT, 0, (2_199_023_255_038, 1), 2**50)),
        plain(0, HIDDEN_AT_ITS_END), *both_extents(0, YES, (0, 1), (1, 0), image=2**50),
        *both_extents(0, 16, (0, 2, 1), (2, 0, 2), image=2**50),
    ]),
    ('extents, largest host of Z 4096', [
        make_up(0, view(LARGEST_OF_4096, LAST_PROTECTED['protected'])),
        *both_extents(0, YES, (0, 8), (2_199_023_254_904, 128), (2_199_023_255_040, 0), image=2**50),
        *both_extents(0, 20, (0, 1), (2_199_023_255_039, 1), (2_199_023_255_041, 0), (MOST, 128), image=2**50),
        *both_extents(0, 16, (2_199_023_255_032, 16, 2_199_023_255_040), (2**64 - 8, 128, 2**64 - 8), image=2**50),
        *both_extents(0, 13, (1, 1)), *both_extents(0, 14, (1, 129), image=2**50),
        *both_extents(0, 15, (1, 1), image=2**50, buffer=2**32 + 512),
        (YES, access(READ_EXTENT, 0, (2_199_023_255_032, 8), 2**50)),
        (18, access(WRITE_EXTENT, 0, (2_199_023_255_032, 8, 2_199_023_255_039), 2**50)),
        (20, access(WRITE_EXTENT, 0, (2_199_023_255_038, 1), 2**50)),
        (17, access(WRITE_EXTENT, 0, (2_199_023_255_032, 8), 2**50)),
    ]),
]


def extent_groups(groups):
    """The groups with extent calls for reads and writes, on views that begin as the program's do."""
    yield 'before extents', [make_up(0, NO_VIEW), make_up(1, NO_VIEW)]
    for title, calls in groups:
        yield f'extents, {title}', [(answer, as_other(call, EXTENT_OF)) for answer, call in calls]
    yield from LARGE_HOSTS
