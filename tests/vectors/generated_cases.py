"""Calls near the ends of generated volumes and protected ranges. Their answers are the model's alone."""
import hashlib

from .calls import access, make_up
from .headers import LARGER_SIZES
from .records import READ, READ_EXTENT, READ_PLAINTEXT, WRITE, WRITE_EXTENT, WRITE_PLAINTEXT
from .reference_model import filled, view
from .sectors import hidden_layout, layout, MOST, WRONG_SECTOR_SIZES

LISTS = 48
CALLS = 10
# What is asked for on one view, and on two.
REQUESTS = (READ, WRITE, WRITE, READ_EXTENT, WRITE_EXTENT, WRITE_EXTENT)
MIXED_REQUESTS = (READ, WRITE, READ_PLAINTEXT, WRITE_PLAINTEXT, WRITE_PLAINTEXT)
# As many sectors as crates/vectors/src/accesses.rt has a buffer for.
MAX_COUNT = 130


def disk_sector(size):
    """How many sectors of 512 bytes a sector of the disk takes, 1 where the size is wrong."""
    return size // 512 if size in LARGER_SIZES else 1


class Choices:
    """Numbers that look like chance and are the same every time."""

    def __init__(self, seed):
        self.seed, self.made = seed, 0

    def below(self, end):
        self.made += 1
        return int.from_bytes(hashlib.sha256(f'{self.seed} {self.made}'.encode()).digest()[:8], 'big') % end

    def one(self, *options):
        return options[self.below(len(options))]


def generated_size(choices):
    """A sector size, one of the four more often than another."""
    if choices.below(12) == 0:
        return choices.one(*(size for _, size in WRONG_SECTOR_SIZES))
    return choices.one(512, 1_024, 2_048, 4_096)


def rounded(choices, number, step):
    """The next multiple of the step, or the one before, or in one case of six the number itself."""
    up, down = -(-number // step) * step, number // step * step
    return choices.one(up, up, up, down, down, number)


def generated_view(choices):
    """A view of a volume with 1 to 1,536 sectors, and the user sectors that are its ends or its protected range's."""
    size = generated_size(choices)
    sectors = max(rounded(choices, choices.one(1, 9, 200, 700, 1_536), disk_sector(size)), 1)
    if choices.below(8) == 0:
        sectors = min(sectors, 512)
        return view(hidden_layout(data_size=512 * sectors, sector_size=size)), [0, sectors]
    first = choices.below(sectors)
    end = min(first + choices.one(1, 2, 40, sectors), sectors)
    protected = (131_072 + 512 * first, 131_072 + 512 * end)
    fields = layout(data_size=512 * sectors, sector_size=size)
    return view(fields, protected, choices.below(12) == 0), [0, first, end, sectors]


def generated_pair(choices):
    """An outer view and a hidden one, in a list, each with user sectors as above and one among the writable ones."""
    size = generated_size(choices)
    step = disk_sector(size)
    sectors = step * choices.one(2, 90, 150, 1_536 // step)
    first = step * choices.below(sectors // step)
    end = min(first + step * choices.one(1, 2, 40, sectors), sectors)
    protected = (131_072 + 512 * first, 131_072 + 512 * end)
    outer = view(layout(data_size=512 * sectors, sector_size=size), protected)
    hidden = view(hidden_layout(data_start=protected[0], data_size=512 * (end - first), sector_size=size))
    return [(outer, [0, first // 2, first, end, sectors]), (hidden, [0, (end - first) // 2, end - first])]


def generated_key(choices):
    """A key, in one case of four with two equal halves."""
    equal, seed = choices.below(4) == 0, choices.below(2**32)
    return 2 * filled(32, seed) if equal else filled(64, seed)


def generated_call(choices, places, step, requests=REQUESTS, slot=0, key=None):
    """A call that begins near one of the places, or near the largest number, most often at a multiple of the step."""
    near = choices.one(*places, *places[1:3], *places[1:3], MOST)
    first = min(rounded(choices, min(max(near - 4 + choices.below(8), 0), MOST), step), MOST)
    count = min(rounded(choices, choices.one(0, 1, 2, 3, 4, 6, 9, 128, 129), step), MAX_COUNT)
    buffer = choices.one(*[None] * 19, 512)
    return None, access(choices.one(*requests), slot, (first, count), buffer=buffer, key=key)


def generated_list(number):
    """Calls on one view, which is made anew before some of them."""
    choices = Choices(number)
    made, places = generated_view(choices)
    step = disk_sector(made['layout']['sector_size'])
    calls = [make_up(0, made)]
    for _ in range(CALLS):
        if choices.below(2) == 0:
            calls.append(make_up(0, made))
        calls.append(generated_call(choices, places, step))
    return calls


def mixed_list(number):
    """Raw calls and plaintext on two views of one image, each with its key. Some calls find their view made anew."""
    choices = Choices(f'mixed {number}')
    pair, keys = generated_pair(choices), [generated_key(choices), generated_key(choices)]
    calls = [make_up(slot, made) for slot, (made, _) in enumerate(pair)]
    for _ in range(CALLS):
        slot = choices.one(0, 0, 1)
        made, places = pair[slot]
        if choices.below(4) == 0:
            calls.append(make_up(slot, made))
        step = disk_sector(made['layout']['sector_size'])
        calls.append(generated_call(choices, places, step, MIXED_REQUESTS, slot, keys[slot]))
    return calls


def generated_groups():
    for number in range(1, LISTS + 1):
        yield f'generated {number}', generated_list(number)


def generated_mixtures():
    for number in range(1, LISTS + 1):
        yield f'generated mixture {number}', mixed_list(number)
