#!/usr/bin/env python3
"""Makes the units that `vectors` holds the library to, beside the published ones: 1,000 that OpenSSL enciphered, and 50
whose two keys are equal, which OpenSSL refuses and Nettle takes.

Keys, tweak numbers and plaintexts come by SHAKE-256 from a unit's number. Nettle must agree with OpenSSL on every unit,
and both with IEEE 1619. The files are kept, so that the gate needs neither of the two.

    tests/make_units.py            write the files
    tests/make_units.py --check    write nothing; fail where a file is not what would be written

Needs libnettle (the package libnettle8), and for Python the package cryptography, which has an OpenSSL of its own.
"""
import ctypes
import ctypes.util
import hashlib
import sys

from cryptography.hazmat.primitives.ciphers import algorithms, Cipher, modes
from vectors.published import UNIT, UNIT_KEY, UNITS_ENCIPHERED
from vectors.units import NETTLE, OPENSSL, packed, Unit
from vectors.xts import UNIT_SIZE


def by_openssl(key, tweak_number, plaintext):
    engine = Cipher(algorithms.AES(key), modes.XTS(tweak_number.to_bytes(16, 'little'))).encryptor()
    return engine.update(plaintext) + engine.finalize()


def by_nettle(key, tweak_number, plaintext):
    nettle = ctypes.CDLL(ctypes.util.find_library('nettle'))
    # More than struct xts_aes256_key takes.
    keys, enciphered = ctypes.create_string_buffer(4_096), ctypes.create_string_buffer(UNIT_SIZE)
    nettle.nettle_xts_aes256_set_encrypt_key(keys, key)
    nettle.nettle_xts_aes256_encrypt_message(keys, tweak_number.to_bytes(16, 'little'), ctypes.c_size_t(UNIT_SIZE),
                                             enciphered, plaintext)
    return enciphered.raw


def made(name, size):
    """So many bytes that look like chance and are the same every time."""
    return hashlib.shake_256(name.encode()).digest(size)


def tweak_number(number):
    """In turn one from 0 up, one around 2^32, one from 2^64 - 1 down, and any."""
    turn, kind = divmod(number, 4)
    return [turn, 2**32 - 125 + turn, 2**64 - 1 - turn, int.from_bytes(made(f'tweak {number}', 8), 'big')][kind]


def plaintext(number):
    """One of ten is a single byte, again and again."""
    return bytes([number // 10]) * UNIT_SIZE if number % 10 == 9 else made(f'plaintext {number}', UNIT_SIZE)


def other_key(number, key):
    """The second key. One of ten differs from the first in a single bit."""
    if number % 10 != 4:
        return made(f'second key {number}', 32)
    return (int.from_bytes(key, 'big') ^ 1 << number // 10).to_bytes(32, 'big')


def openssl_units():
    for number in range(1_000):
        key = made(f'first key {number}', 32)
        asked = (key + other_key(number, key), tweak_number(number), plaintext(number))
        enciphered = by_openssl(*asked)
        assert by_nettle(*asked) == enciphered, f'unit {number}: OpenSSL and Nettle differ'
        yield Unit(*asked, enciphered)


def nettle_units():
    for number in range(50):
        key = {0: bytes(32), 1: bytes([255]) * 32}.get(number, made(f'equal keys {number}', 32))
        asked = (2 * key, tweak_number(number), plaintext(number))
        yield Unit(*asked, by_nettle(*asked))


def check_published():
    for number, (tweak, enciphered) in UNITS_ENCIPHERED.items():
        asked = (bytes.fromhex(UNIT_KEY), tweak, bytes.fromhex(UNIT))
        for engine in (by_openssl, by_nettle):
            assert engine(*asked) == bytes.fromhex(enciphered), f'{engine.__name__}: vector {number} of IEEE 1619'


def main():
    check_published()
    files = {OPENSSL: b''.join(map(packed, openssl_units())), NETTLE: b''.join(map(packed, nettle_units()))}
    if sys.argv[1:] == ['--check']:
        wrong = [path for path, content in files.items() if not path.is_file() or path.read_bytes() != content]
        for path in wrong:
            print(f'{path.name} is not what tests/make_units.py writes')
        sys.exit(1 if wrong else 0)
    if sys.argv[1:]:
        sys.exit(__doc__)
    for path, content in files.items():
        path.write_bytes(content)


if __name__ == '__main__':
    main()
