"""Units that other programs enciphered, as tests/make_units.py keeps them: one behind the other, each a key, its tweak
number in eight bytes, big-endian, the plaintext, and what it was enciphered to."""
from typing import NamedTuple

from .headers import ROOT
from .xts import KEY_SIZE, UNIT_SIZE

OPENSSL = ROOT / 'tests/vectors/openssl.units'
# Both keys of each are equal.
NETTLE = ROOT / 'tests/vectors/nettle.units'

SIZE = KEY_SIZE + 8 + 2 * UNIT_SIZE


class Unit(NamedTuple):
    key: bytes
    tweak_number: int
    plaintext: bytes
    enciphered: bytes


def packed(unit):
    return unit.key + unit.tweak_number.to_bytes(8, 'big') + unit.plaintext + unit.enciphered


def unpacked(content):
    key, rest = content[:KEY_SIZE], content[KEY_SIZE:]
    return Unit(key, int.from_bytes(rest[:8], 'big'), rest[8:8 + UNIT_SIZE], rest[8 + UNIT_SIZE:])


def kept(path):
    content = path.read_bytes()
    return [unpacked(content[at:at + SIZE]) for at in range(0, len(content), SIZE)]
