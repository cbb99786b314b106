"""Headers, made field by field."""
import zlib
from pathlib import Path

ROOT = Path(__file__).resolve().parent.parent.parent
SAMPLES = [(ROOT / f'samples/tcplay-1048576-code{code}.header').read_bytes() for code in range(4)]

SALT = bytes((7 * i + 3) % 256 for i in range(64))
KEYS = bytes((11 * i + 5) % 256 for i in range(256))
OTHER_KEYS = KEYS[::-1]

# The sector sizes above 512.
LARGER_SIZES = (1_024, 2_048, 4_096)


def header(magic=b'TRUE', version=5, needs=b'\x07\x00', hidden_size=0, data_size=786_432, data_start=131_072,
           encrypted_size=None, flags=0, sector_size=512, put=None, spoil=None, salt=SALT, keys=KEYS):
    """A header with right checksums. put sets bytes before they are taken, spoil after: {offset: bytes}."""
    encrypted_size = data_size if encrypted_size is None else encrypted_size
    h = bytearray(512)

    def lay(offset, content):
        h[offset:offset + len(content)] = content

    lay(0, salt)
    lay(64, magic)
    lay(68, version.to_bytes(2, 'big'))
    lay(70, needs)
    lay(92, hidden_size.to_bytes(8, 'big'))
    lay(100, data_size.to_bytes(8, 'big'))
    lay(108, data_start.to_bytes(8, 'big'))
    lay(116, encrypted_size.to_bytes(8, 'big'))
    lay(124, flags.to_bytes(4, 'big'))
    lay(128, sector_size.to_bytes(4, 'big'))
    lay(256, keys)
    lay(72, zlib.crc32(h[256:512]).to_bytes(4, 'big'))
    for offset, content in (put or {}).items():
        lay(offset, content)
    lay(252, zlib.crc32(h[64:252]).to_bytes(4, 'big'))
    for offset, content in (spoil or {}).items():
        lay(offset, content)
    return bytes(h)


def hidden(**changes):
    """The worked cases' N, and with changes another hidden volume. Its hidden size follows its data size."""
    fields = {'data_size': 262_144, 'data_start': 655_360, **changes}
    return header(**{'hidden_size': fields['data_size'], **fields})


def vera(**changes):
    return header(magic=b'VERA', **changes)


def vera_hidden(**changes):
    return hidden(magic=b'VERA', **changes)


def changed(h, offset):
    """The header with one byte changed and no checksum redone."""
    return h[:offset] + bytes([h[offset] ^ 1]) + h[offset + 1:]
