"""The cases of AES and XTS: the published values, and the units that others enciphered."""
import zlib

from . import aes, xts
from .published import (BLOCK as PLAIN_BLOCK, BLOCK_ENCIPHERED, BLOCK_KEY, EXPANDED_KEY, ROUND_KEYS,
                        UNIT as PLAIN_UNIT, UNIT_KEY, UNITS_ENCIPHERED)
from .records import BLOCK, Case, KEY, PUBLISHED_UNIT, same, UNIT
from .units import kept, NETTLE, OPENSSL, Unit


def expanded_key():
    name, key = 'FIPS 197, A.3', bytes.fromhex(EXPANDED_KEY)
    round_keys = aes.expand_key(key)
    for number, words in ROUND_KEYS.items():
        same(name, bytes.fromhex(words), round_keys[number])
    return Case(KEY, name, [(f'round key {number} ', each.hex()) for number, each in enumerate(round_keys)], data=key)


def block():
    name = 'FIPS 197, C.3'
    key, plain, enciphered = (bytes.fromhex(digits) for digits in (BLOCK_KEY, PLAIN_BLOCK, BLOCK_ENCIPHERED))
    same(name, enciphered, aes.encipher(key, plain))
    same(name, plain, aes.decipher(key, enciphered))
    return Case(BLOCK, name, [('enciphered ', enciphered.hex()), ('deciphered ', plain.hex())], data=key + plain)


def unit_case(request, name, unit, shown):
    """A unit that is enciphered and then deciphered, each time shown as its bytes or their checksum."""
    same(name, unit.enciphered, xts.encipher(unit.key, [unit.tweak_number], unit.plaintext))
    same(name, unit.plaintext, xts.decipher(unit.key, [unit.tweak_number], unit.enciphered))
    answers = [('enciphered ', shown(unit.enciphered)), ('deciphered ', shown(unit.plaintext))]
    return Case(request, name, answers, (unit.tweak_number,), unit.key + unit.plaintext)


def published_units():
    for number, (tweak_number, enciphered) in UNITS_ENCIPHERED.items():
        unit = Unit(bytes.fromhex(UNIT_KEY), tweak_number, bytes.fromhex(PLAIN_UNIT), bytes.fromhex(enciphered))
        yield unit_case(PUBLISHED_UNIT, f'IEEE 1619, vector {number}', unit, bytes.hex)


def kept_units():
    for program, path, count in (('OpenSSL', OPENSSL, 1_000), ('Nettle, equal keys', NETTLE, 50)):
        units = kept(path)
        assert len(units) == count, f'{path.name} has {len(units)} units'
        for number, unit in enumerate(units, start=1):
            yield unit_case(UNIT, f'{program}, unit {number}', unit, lambda content: f'{zlib.crc32(content):08x}')


def ciphers():
    yield expanded_key()
    yield block()
    yield from published_units()
    yield from kept_units()
