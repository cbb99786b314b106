"""The calls on views, each in a pair with its answer. A group of cases is a title and a list of such pairs."""
from .openings import HOST
from .records import (MADE_UP, PLAIN, PLAINTEXT, PROTECTED, READ, READ_EXTENT, READ_PLAINTEXT, WRITE, WRITE_EXTENT,
                      WRITE_PLAINTEXT)
from .reference_model import filled, view
from .sectors import hidden_layout, layout

YES = MADE = 'accepted'
N_RANGE = (655_360, 917_504)
CLOSED = view(layout(), N_RANGE, True)
NAMES = {READ: 'read', WRITE: 'write', READ_EXTENT: 'read extent', WRITE_EXTENT: 'write extent',
         READ_PLAINTEXT: 'read plaintext', WRITE_PLAINTEXT: 'write plaintext'}
# The key of the view in slot 0, and in slot 1, where its two halves are equal.
KEYS = [filled(64, 1), 2 * filled(32, 2)]


def plain(slot, fields=layout(), answer=MADE):
    return answer, {'request': PLAIN, 'slot': slot, 'text': 'plain', 'layouts': [fields]}


def protect(slot, outer=layout(), hidden=hidden_layout(), answer=MADE):
    return answer, {'request': PROTECTED, 'slot': slot, 'text': 'protected', 'layouts': [outer, hidden]}


def make_up(slot, made_up):
    return MADE, {'request': MADE_UP, 'slot': slot, 'text': 'made up', 'view': made_up}


def access(request, slot, extent, image=HOST, buffer=None, seed=None, key=None):
    first, count, *sector = extent
    text = f'{NAMES[request]} {first} count {count}'
    text += '' if image == HOST else f', image of {image}'
    text += '' if buffer is None else f', buffer of {buffer}'
    return {'request': request, 'slot': slot, 'text': text, 'image': image, 'first': first, 'count': count,
            'buffer': 512 * count if buffer is None else buffer, 'seed': seed, 'sector': sector[0] if sector else None,
            'key': (key or KEYS[slot]) if request in PLAINTEXT else b''}


def as_other(call, requests):
    """A read or write as the request for it with the same numbers; any other call as it is."""
    if call['request'] not in requests:
        return call
    buffer = None if call['buffer'] == 512 * call['count'] else call['buffer']
    extent = [call[field] for field in ('first', 'count', 'sector') if call[field] is not None]
    return access(requests[call['request']], call['slot'], extent, call['image'], buffer, call['seed'])


def accesses(requests, slot, answer, extents, **lengths):
    assert all(len(extent) == (3 if answer in (16, 18) else 2) for extent in extents), f'{answer}: {extents}'
    return [(answer, access(request, slot, extent, **lengths)) for extent in extents for request in requests]


def reads(slot, answer, *extents, **lengths):
    """A read of each extent: a first sector, a count and, where the answer tells one, the sector in the way. Image,
    buffer and seed where they are not as they should be."""
    return accesses([READ], slot, answer, extents, **lengths)


def writes(slot, answer, *extents, **lengths):
    return accesses([WRITE], slot, answer, extents, **lengths)


def both(slot, answer, *extents, **lengths):
    """A read and then a write of each extent."""
    return accesses([READ, WRITE], slot, answer, extents, **lengths)


def both_extents(slot, answer, *extents, **lengths):
    """The same of the calls that only tell where the bytes are."""
    return accesses([READ_EXTENT, WRITE_EXTENT], slot, answer, extents, **lengths)


def plaintext_reads(slot, answer, *extents, **lengths):
    """The same with plaintext, by the key of the slot where none is passed; so too below."""
    return accesses([READ_PLAINTEXT], slot, answer, extents, **lengths)


def plaintext_writes(slot, answer, *extents, **lengths):
    return accesses([WRITE_PLAINTEXT], slot, answer, extents, **lengths)
