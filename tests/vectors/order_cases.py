"""Two lists of calls, of an outer view in slot 0 and a hidden one in slot 1, merged in three orders from one image."""
from .calls import plain, protect, reads, writes, YES
from .sectors import hidden_layout

OUTER_CALLS = [
    *reads(0, YES, (0, 3)),
    *writes(0, YES, (0, 2), seed=1),
    *writes(0, YES, (1_023, 1), seed=2),
    *reads(0, YES, (0, 3)),
    *writes(0, YES, (1, 2), seed=3),
    *writes(0, 16, (1_535, 2, 1_536), seed=4),
    *reads(0, YES, (1_022, 2)),
    *writes(0, 18, (1_022, 3, 1_024), seed=5),
    *writes(0, 17, (5, 1), seed=6),
    *reads(0, YES, (0, 8)),
]

HIDDEN_CALLS = [
    *reads(1, YES, (0, 2)),
    *writes(1, YES, (0, 1), seed=11),
    *writes(1, 16, (511, 2, 512), seed=12),
    *writes(1, YES, (0, 3), seed=13),
    *reads(1, YES, (0, 4)),
    *writes(1, YES, (511, 1), seed=14),
    *writes(1, YES, (1, 1), seed=15),
    *reads(1, YES, (511, 1), (0, 8)),
]

ORDERS = [
    'OOOOOOOOOOHHHHHHHHH',
    'HHHHHHHHHOOOOOOOOOO',
    'OHHOOHOHOHHOOOHHOOH',
]

BEFORE_AN_ORDER = [
    plain(0),
    *writes(0, YES, (0, 8), seed=21),
    *writes(0, YES, (1_016, 16), seed=22),
    *writes(0, YES, (1_535, 1), seed=23),
    protect(0),
    plain(1, hidden_layout()),
]


def merged(order, outer, hidden):
    calls = {'O': iter(outer), 'H': iter(hidden)}
    assert order.count('O') == len(outer) and order.count('H') == len(hidden)
    return [next(calls[list_name]) for list_name in order]


def order_groups():
    for order in ORDERS:
        yield f'before order {order}', BEFORE_AN_ORDER
        yield f'order {order}', merged(order, OUTER_CALLS, HIDDEN_CALLS)
