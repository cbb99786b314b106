"""AES with keys of 256 bits, from FIPS 197, whose sections are named. Any number of blocks go through it at once.

A state is four rows, as the standard draws it, but with a byte of every block in each place: a row is a string, and a
quarter of it is a column's.
"""

ROUNDS = 14


def multiply(a, b):
    """Two bytes multiplied as polynomials, modulo x^8 + x^4 + x^3 + x + 1 (4.2)."""
    product = 0
    while b:
        product ^= a if b & 1 else 0
        a = a << 1 ^ (0x11b if a & 0x80 else 0)
        b >>= 1
    return product


def inverse(byte):
    """What a byte is multiplied with to give 1, and 0 for 0."""
    return next((other for other in range(256) if multiply(byte, other) == 1), 0)


def affine(byte):
    """The S-box's affine map, bit by bit (5.1.1)."""
    def bit(number, place):
        return number >> place % 8 & 1
    sums = [sum(bit(byte, i + further) for further in (0, 4, 5, 6, 7)) + bit(0x63, i) for i in range(8)]
    return sum(total % 2 << i for i, total in enumerate(sums))


S_BOX = bytes(affine(inverse(byte)) for byte in range(256))
INVERSE_S_BOX = bytes(S_BOX.index(byte) for byte in range(256))

# What the bytes of a column are multiplied with for its first byte (5.1.3), and on the way back (5.3.3).
MIX = (2, 3, 1, 1)
INVERSE_MIX = (14, 11, 13, 9)
TIMES = {factor: bytes(multiply(factor, byte) for byte in range(256)) for factor in {*MIX, *INVERSE_MIX}}


def xor(first, *others):
    """Strings of one length, added bit by bit."""
    total = int.from_bytes(first, 'big')
    for other in others:
        total ^= int.from_bytes(other, 'big')
    return total.to_bytes(len(first), 'big')


def expand_key(key):
    """The fifteen round keys, each four words one behind the other (5.2)."""
    words = [key[at:at + 4] for at in range(0, 32, 4)]
    for i in range(8, 4 * (ROUNDS + 1)):
        word = words[i - 1]
        if i % 8 == 0:
            word = xor((word[1:] + word[:1]).translate(S_BOX), bytes([1 << i // 8 - 1, 0, 0, 0]))
        elif i % 8 == 4:
            word = word.translate(S_BOX)
        words.append(xor(words[i - 8], word))
    return [b''.join(words[at:at + 4]) for at in range(0, len(words), 4)]


def state_of(blocks):
    return [b''.join(blocks[at::16] for at in range(row, 16, 4)) for row in range(4)]


def blocks_of(state):
    blocks, count = bytearray(4 * len(state[0])), len(state[0]) // 4
    for at in range(16):
        row, column = at % 4, at // 4
        blocks[at::16] = state[row][count * column:count * (column + 1)]
    return bytes(blocks)


def sub_bytes(state, box):
    return [row.translate(box) for row in state]


def shift_rows(state, columns):
    """Each row turned left by so many columns more than the one above it."""
    cuts = [len(row) // 4 * (number * columns % 4) for number, row in enumerate(state)]
    return [row[cut:] + row[:cut] for row, cut in zip(state, cuts)]


def mix_columns(state, factors):
    return [xor(*(state[k].translate(TIMES[factors[(k - row) % 4]]) for k in range(4))) for row in range(4)]


def add_round_key(state, round_key):
    return [xor(row, added) for row, added in zip(state, state_of(round_key * (len(state[0]) // 4)))]


def encipher(key, blocks):
    """Each block enciphered (5.1)."""
    first, *others = expand_key(key)
    state = add_round_key(state_of(blocks), first)
    for number, round_key in enumerate(others, start=1):
        state = shift_rows(sub_bytes(state, S_BOX), 1)
        if number < ROUNDS:
            state = mix_columns(state, MIX)
        state = add_round_key(state, round_key)
    return blocks_of(state)


def decipher(key, blocks):
    """Each block deciphered (5.3)."""
    first, *others = reversed(expand_key(key))
    state = add_round_key(state_of(blocks), first)
    for number, round_key in enumerate(others, start=1):
        state = add_round_key(sub_bytes(shift_rows(state, -1), INVERSE_S_BOX), round_key)
        if number < ROUNDS:
            state = mix_columns(state, INVERSE_MIX)
    return blocks_of(state)
