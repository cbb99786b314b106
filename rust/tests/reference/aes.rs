//! AES-256 (FIPS 197, section 5): the cipher and its inverse, on one block.

use std::array;

use super::field::{product, times_x};
use super::substitution::{substituted, unsubstituted};

/// A block, or the state. Byte r + 4c is the cell in row r and column c.
pub type Block = [u8; 16];

/// Four bytes of the key schedule.
pub type Word = [u8; 4];

const ROUNDS: usize = 14;
const KEY_WORDS: usize = 8;
const WORDS: usize = 4 * (ROUNDS + 1);

/// The first row of each matrix that columns are multiplied by. The next rows are the same, turned by one each.
const MIX: Word = [0x02, 0x03, 0x01, 0x01];
const INV_MIX: Word = [0x0E, 0x0B, 0x0D, 0x09];

/// A key, expanded to a block for each round and one for the start.
pub struct Aes256 {
    round_keys: Vec<Block>,
}

impl Aes256 {
    pub fn new(key: &[u8; 32]) -> Aes256 {
        let words = expanded(key);
        let round_keys = words.chunks(4).map(|words| words.concat().try_into().expect("sixteen bytes"));
        Aes256 { round_keys: round_keys.collect() }
    }

    /// The last round has no MixColumns.
    pub fn enciphered(&self, block: Block) -> Block {
        let mut state = sum(block, self.round_keys[0]);
        for round in 1..=ROUNDS {
            state = shift_rows(state.map(substituted));
            if round < ROUNDS {
                state = mix_columns(state, MIX);
            }
            state = sum(state, self.round_keys[round]);
        }
        state
    }

    /// The steps of the cipher undone, the last first.
    pub fn deciphered(&self, block: Block) -> Block {
        let mut state = block;
        for round in (1..=ROUNDS).rev() {
            state = sum(state, self.round_keys[round]);
            if round < ROUNDS {
                state = mix_columns(state, INV_MIX);
            }
            state = inv_shift_rows(state).map(unsubstituted);
        }
        sum(state, self.round_keys[0])
    }
}

/// The key schedule (section 5.2).
pub fn expanded(key: &[u8; 32]) -> Vec<Word> {
    let mut words: Vec<Word> = key.chunks(4).map(|word| word.try_into().expect("four bytes")).collect();
    for index in KEY_WORDS..WORDS {
        let last = words[index - 1];
        let mixed = match index % KEY_WORDS {
            0 => sum(rotated(last).map(substituted), round_constant(index / KEY_WORDS)),
            4 => last.map(substituted),
            _ => last,
        };
        words.push(sum(words[index - KEY_WORDS], mixed));
    }
    words
}

fn rotated([first, second, third, fourth]: Word) -> Word {
    [second, third, fourth, first]
}

/// A power of x: 1 for the first.
fn round_constant(number: usize) -> Word {
    [(1..number).fold(1, |power, _| times_x(power)), 0, 0, 0]
}

/// The sum in the field, byte by byte, which is XOR.
pub fn sum<const SIZE: usize>(one: [u8; SIZE], other: [u8; SIZE]) -> [u8; SIZE] {
    array::from_fn(|index| one[index] ^ other[index])
}

/// Rows and columns count on past their ends.
fn cell(state: &Block, row: usize, column: usize) -> u8 {
    state[row % 4 + 4 * (column % 4)]
}

/// The state whose cells are told by row and column.
fn of_cells(cell: impl Fn(usize, usize) -> u8) -> Block {
    array::from_fn(|index| cell(index % 4, index / 4))
}

fn shift_rows(state: Block) -> Block {
    of_cells(|row, column| cell(&state, row, column + row))
}

fn inv_shift_rows(state: Block) -> Block {
    of_cells(|row, column| cell(&state, row, column + 4 - row))
}

/// Each column times the matrix that has this first row.
fn mix_columns(state: Block, factors: Word) -> Block {
    of_cells(|row, column| {
        let term = |place| product(cell(&state, row + place, column), factors[place]);
        term(0) ^ term(1) ^ term(2) ^ term(3)
    })
}
