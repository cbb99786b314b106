"""Reads and writes of plaintext: those of other groups once more, and together with raw ones."""
from .alignment_cases import M_OF_4096, N_OF_4096
from .calls import (as_other, KEYS, make_up, plain, plaintext_reads, plaintext_writes, protect, reads, writes, YES)
from .order_cases import BEFORE_AN_ORDER, HIDDEN_CALLS, merged, ORDERS, OUTER_CALLS
from .records import READ, READ_PLAINTEXT, WRITE, WRITE_PLAINTEXT
from .reference_model import NO_VIEW
from .sectors import hidden_layout

PLAINTEXT_OF = {READ: READ_PLAINTEXT, WRITE: WRITE_PLAINTEXT}

TOGETHER = [
    ('plaintext is stored enciphered', [
        plain(0),
        *plaintext_writes(0, YES, (5, 3)), *reads(0, YES, (5, 3), (4, 5)), *plaintext_reads(0, YES, (5, 3), (4, 5)),
        *plaintext_writes(0, YES, (6, 1)), *reads(0, YES, (5, 3)), *plaintext_reads(0, YES, (5, 3)),
        *plaintext_writes(0, YES, (7, 0), (1_536, 0)), *plaintext_reads(0, YES, (5, 0), (1_536, 0)),
    ]),
    ('raw bytes are read deciphered', [
        *writes(0, YES, (20, 4)), *plaintext_reads(0, YES, (20, 4)), *plaintext_writes(0, YES, (21, 2)),
        *reads(0, YES, (20, 4)), *writes(0, YES, (22, 1)), *plaintext_reads(0, YES, (19, 6)), *reads(0, YES, (19, 6)),
    ]),
    ('one plaintext in two sectors', [
        *plaintext_writes(0, YES, (30, 1), (31, 1), seed=30), *reads(0, YES, (30, 1), (31, 1)),
        *plaintext_reads(0, YES, (30, 1), (31, 1)),
    ]),
    ('tweaks of a hidden volume', [
        plain(1, hidden_layout()),
        *plaintext_writes(0, YES, (1_024, 3), key=KEYS[0]), *plaintext_reads(1, YES, (0, 3), key=KEYS[0]),
        *plaintext_writes(1, YES, (511, 1), key=KEYS[0]), *plaintext_reads(0, YES, (1_535, 1), key=KEYS[0]),
    ]),
    ('two views, two keys', [
        protect(0), plain(1, hidden_layout()),
        *plaintext_writes(1, YES, (0, 2)), *plaintext_writes(0, YES, (1_022, 2)),
        *reads(0, YES, (1_022, 4)), *plaintext_reads(0, YES, (1_022, 4)), *plaintext_reads(1, YES, (0, 2)),
        *plaintext_writes(1, YES, (511, 1)), *plaintext_reads(0, YES, (1_535, 1)), *plaintext_reads(1, YES, (511, 1)),
    ]),
    ('one lock for raw writes and for plaintext', [
        *plaintext_writes(0, 18, (1_023, 2, 1_024)), *writes(0, 17, (0, 1)), *plaintext_writes(0, 17, (0, 1), (0, 0)),
        *reads(0, YES, (1_023, 2)), *plaintext_reads(0, YES, (1_023, 2)), *plaintext_writes(1, YES, (0, 1)),
        protect(0), *writes(0, 18, (1_024, 1, 1_024)), *plaintext_writes(0, 17, (0, 1)),
        *plaintext_reads(0, YES, (0, 1)), *plaintext_writes(0, 16, (1_535, 2, 1_536)),
    ]),
    ('plaintext at Z 4096', [
        protect(0, M_OF_4096, N_OF_4096), plain(1, N_OF_4096),
        *plaintext_writes(0, YES, (8, 16)), *reads(0, YES, (0, 32)), *plaintext_writes(0, 20, (9, 8), (8, 9), (9, 0)),
        *writes(0, YES, (16, 8)), *plaintext_reads(0, YES, (8, 16)), *plaintext_reads(0, 20, (12, 4)),
        *plaintext_writes(1, YES, (0, 8)), *plaintext_reads(1, YES, (0, 16)), *plaintext_reads(0, YES, (1_016, 16)),
        *plaintext_writes(0, 18, (1_016, 16, 1_024)), *plaintext_writes(0, 20, (1_023, 2)),
        *plaintext_writes(0, 17, (8, 8)), *plaintext_reads(0, YES, (8, 16)),
    ]),
]


# The mixtures of raw calls and plaintext by name: from which call on every second one is of plaintext.
MIXTURES = {'mixed from 1': 0, 'mixed from 2': 1}


def mixed(calls, start):
    return [(answer, as_other(call, PLAINTEXT_OF) if place % 2 == start else call)
            for place, (answer, call) in enumerate(calls)]


def mixed_orders():
    for name, start in MIXTURES.items():
        outer, hidden = mixed(OUTER_CALLS, start), mixed(HIDDEN_CALLS, start)
        for order in ORDERS:
            yield f'before {name}, order {order}', BEFORE_AN_ORDER
            yield f'{name}, order {order}', merged(order, outer, hidden)


def plaintext_groups(groups):
    """The groups with plaintext for raw bytes, on views that begin as the program's do, and those of both together."""
    yield 'before plaintext', [make_up(0, NO_VIEW), make_up(1, NO_VIEW)]
    for title, calls in groups:
        yield f'plaintext, {title}', [(answer, as_other(call, PLAINTEXT_OF)) for answer, call in calls]
    yield from TOGETHER
    yield from mixed_orders()
