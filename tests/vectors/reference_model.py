"""Views as the rules have them, and a model of reads and writes that goes sector by sector."""
import zlib
from collections import namedtuple

from . import xts
from .rules import host_sector, is_sound, sector_count
from .openings import HOST
from .sectors import layout


def area(fields):
    """The host sectors of a data area."""
    return sectors_of(fields['data_start'], fields['data_start'] + fields['data_size'])


def sectors_of(start, end):
    """The host sectors of the bytes from start up to end."""
    return range(start // 512, end // 512)


def view(fields, protected=None, locked=False):
    """A view: its layout, the start and the end of its protected range or None, and its lock."""
    return {'layout': fields, 'protected': protected, 'locked': locked}


NO_VIEW = view(dict.fromkeys(layout(), 0))


def is_sound_view(v):
    if not is_sound(v['layout']):
        return False
    if v['protected'] is None:
        return True
    start, end = v['protected']
    sectors = sectors_of(start, end)
    return (start % 512 == 0 and end % 512 == 0 and len(sectors) > 0 and v['layout']['kind'] == 0
            and sectors[0] in area(v['layout']) and sectors[-1] in area(v['layout']))


def plain_view(fields):
    """A view, or the refusal number; so too below."""
    return view(fields) if is_sound(fields) else 11


def protected_view(outer, hidden):
    if not (is_sound(outer) and is_sound(hidden)):
        return 11
    nests = (outer['kind'] == 0 and hidden['kind'] == 1 and outer['host_size'] == hidden['host_size']
             and outer['sector_size'] == hidden['sector_size']
             and all(sector in area(outer) for sector in area(hidden)))
    return view(outer, (hidden['data_start'], hidden['data_start'] + hidden['data_size'])) if nests else 12


def is_aligned(fields, first, count):
    """Whether an extent is whole sectors of the disk, each so many of 512 bytes."""
    disk_sector = fields['sector_size'] // 512
    return first % disk_sector == 0 and count % disk_sector == 0


def first_outside(fields, first, count):
    """The first user sector of an extent that the sector map refuses; of an empty extent the first is asked for."""
    return next(user for user in range(first, first + max(count, 1)) if host_sector(fields, user) == 'refused 16')


def protected_sectors(v, first, count):
    """The user sectors of an extent whose host sectors are in the protected range."""
    if v['protected'] is None:
        return []
    hosts = sectors_of(*v['protected'])
    return [user for user in range(first, first + count) if host_sector(v['layout'], user) in hosts]


def filled(size, seed):
    """What an image or a buffer is filled with, as crates/vectors/src/image.rt does it."""
    content, state = bytearray(size), seed
    for place in range(size):
        state = (state * 1_664_525 + 1_013_904_223) % 2**32
        content[place] = state >> 16 & 255
    return bytes(content)


# What a call answers, a refusal number or 'accepted', and tells: the user sector that was in the way, and what is left,
# the buffer of a read or write, or the offset of an extent that is accepted.
Told = namedtuple('Told', 'answer sector left', defaults=(None, None))


class ReferenceModel:
    """The sectors of the image and a byte more, and two views."""

    def __init__(self):
        image = filled(HOST + 1, 0)
        self.sectors = [image[start:start + 512] for start in range(0, HOST, 512)]
        self.last_byte = image[HOST:]
        self.views = [NO_VIEW] * 2

    def checksum(self):
        total = 0
        for part in (*self.sectors, self.last_byte):
            total = zlib.crc32(part, total)
        return total

    def judge(self, slot, is_write, image_size, first, count, buffer_size):
        """The answer and the sector. 18 closes the lock."""
        v = self.views[slot]
        if not is_sound_view(v):
            return Told(11)
        if image_size != v['layout']['host_size']:
            return Told(13)
        if count > 128:
            return Told(14)
        if buffer_size != 512 * count:
            return Told(15)
        if not is_aligned(v['layout'], first, count):
            return Told(20)
        if first + count > sector_count(v['layout']):
            return Told(16, first_outside(v['layout'], first, count))
        if is_write and v['locked']:
            return Told(17)
        if is_write and protected_sectors(v, first, count):
            self.views[slot] = {**v, 'locked': True}
            return Told(18, protected_sectors(v, first, count)[0])
        return Told('accepted')

    def call(self, slot, is_write, image_size, first, count, buffer, key=b''):
        """A read or a write, with the buffer as it is left. Where there is a key, it is of plaintext."""
        told = self.judge(slot, is_write, image_size, first, count, len(buffer))
        if told.answer != 'accepted':
            return told._replace(left=buffer)
        hosts = [host_sector(self.views[slot]['layout'], user) for user in range(first, first + count)]
        if not is_write:
            stored = b''.join(self.sectors[host] for host in hosts)
            return told._replace(left=xts.decipher(key, hosts, stored) if key else stored)
        stored = xts.encipher(key, hosts, buffer) if key else buffer
        for piece, host in enumerate(hosts):
            self.sectors[host] = stored[512 * piece:512 * piece + 512]
        return told._replace(left=buffer)

    def extent(self, slot, is_write, image_size, first, count, buffer_size):
        """Where a read or a write finds its bytes."""
        told = self.judge(slot, is_write, image_size, first, count, buffer_size)
        if told.answer != 'accepted':
            return told
        return told._replace(left=512 * (area(self.views[slot]['layout']).start + first))

    def make(self, slot, made):
        if isinstance(made, int):
            return Told(made)
        self.views[slot] = made
        return Told('accepted')
