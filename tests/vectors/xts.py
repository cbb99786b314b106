"""XTS of IEEE 1619 over AES, on whole units of 512 bytes: one or more at once, each with a tweak number of its own.

The first 32 bytes of a key are for the data, the next 32 for the tweaks.
"""
from . import aes
from .aes import xor

KEY_SIZE = 64
UNIT_SIZE = 512


def doubled(mask):
    """A mask times x, modulo x^128 + x^7 + x^2 + x + 1. Bit 0 of its first byte is the lowest."""
    number = int.from_bytes(mask, 'little') << 1
    number ^= (1 << 128 | 0x87) if number >> 128 else 0
    return number.to_bytes(16, 'little')


def unit_masks(mask):
    """What is added to the blocks of a unit before AES and after it: the enciphered tweak, doubled from block to block."""
    masks = [mask]
    while len(masks) < UNIT_SIZE // 16:
        masks.append(doubled(masks[-1]))
    return b''.join(masks)


def all_masks(key, tweak_numbers):
    tweaks = aes.encipher(key[32:], b''.join(number.to_bytes(16, 'little') for number in tweak_numbers))
    return b''.join(unit_masks(tweaks[at:at + 16]) for at in range(0, len(tweaks), 16))


def encipher(key, tweak_numbers, units):
    masks = all_masks(key, tweak_numbers)
    return xor(aes.encipher(key[:32], xor(units, masks)), masks)


def decipher(key, tweak_numbers, units):
    masks = all_masks(key, tweak_numbers)
    return xor(aes.decipher(key[:32], xor(units, masks)), masks)
