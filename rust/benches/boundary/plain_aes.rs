//! A straightforward program for the same work: AES-256 in XTS, as one would write it in Rust. It looks bytes up in the
//! S-box and works on single bytes, with no wide tables and no special instructions.

pub type Key = [u8; 64];

type Block = [u8; 16];

static S_BOX: [u8; 256] = s_box();
static INVERSE_S_BOX: [u8; 256] = inverted(&S_BOX);

const ROUNDS: usize = 14;

/// An expanded key, to encipher and decipher any number of units.
pub struct Xts {
    data: [Block; ROUNDS + 1],
    tweak: [Block; ROUNDS + 1],
}

impl Xts {
    pub fn new(key: &Key) -> Xts {
        Xts { data: expanded(&key[..32]), tweak: expanded(&key[32..]) }
    }

    pub fn encipher(&self, number: u64, unit: &mut [u8]) {
        self.each_block(number, unit, encipher)
    }

    pub fn decipher(&self, number: u64, unit: &mut [u8]) {
        self.each_block(number, unit, decipher)
    }

    #[inline(always)]
    fn each_block(&self, number: u64, unit: &mut [u8], step: fn(&[Block; ROUNDS + 1], &mut Block)) {
        let mut mask = u128::from(number).to_le_bytes();
        encipher(&self.tweak, &mut mask);
        for bytes in unit.chunks_exact_mut(16) {
            let block: &mut Block = bytes.try_into().unwrap();
            add(block, &mask);
            step(&self.data, block);
            add(block, &mask);
            let number = u128::from_le_bytes(mask);
            mask = ((number << 1) ^ ((number >> 127) * 0x87)).to_le_bytes();
        }
    }
}

fn encipher(round_keys: &[Block; ROUNDS + 1], state: &mut Block) {
    add(state, &round_keys[0]);
    for round_key in &round_keys[1..ROUNDS] {
        *state = substituted_and_shifted(state);
        mix_columns(state);
        add(state, round_key);
    }
    *state = substituted_and_shifted(state);
    add(state, &round_keys[ROUNDS]);
}

fn decipher(round_keys: &[Block; ROUNDS + 1], state: &mut Block) {
    add(state, &round_keys[ROUNDS]);
    *state = shifted_and_substituted_back(state);
    for round_key in round_keys[1..ROUNDS].iter().rev() {
        add(state, round_key);
        mix_columns_back(state);
        *state = shifted_and_substituted_back(state);
    }
    add(state, &round_keys[0]);
}

fn add(state: &mut Block, other: &Block) {
    for (byte, added) in state.iter_mut().zip(other) {
        *byte ^= added;
    }
}

// The row of a byte is its index modulo 4. It comes from as many columns further on.
fn substituted_and_shifted(state: &Block) -> Block {
    std::array::from_fn(|index| S_BOX[usize::from(state[(index + 4 * (index % 4)) % 16])])
}

fn shifted_and_substituted_back(state: &Block) -> Block {
    std::array::from_fn(|index| INVERSE_S_BOX[usize::from(state[(index + 12 * (index % 4)) % 16])])
}

fn mix_columns(state: &mut Block) {
    for column in state.chunks_exact_mut(4) {
        let [a, b, c, d] = [column[0], column[1], column[2], column[3]];
        let all = a ^ b ^ c ^ d;
        column[0] = a ^ all ^ doubled(a ^ b);
        column[1] = b ^ all ^ doubled(b ^ c);
        column[2] = c ^ all ^ doubled(c ^ d);
        column[3] = d ^ all ^ doubled(d ^ a);
    }
}

fn mix_columns_back(state: &mut Block) {
    for column in state.chunks_exact_mut(4) {
        let [a, b, c, d] = [column[0], column[1], column[2], column[3]];
        column[0] = times(a, 14) ^ times(b, 11) ^ times(c, 13) ^ times(d, 9);
        column[1] = times(a, 9) ^ times(b, 14) ^ times(c, 11) ^ times(d, 13);
        column[2] = times(a, 13) ^ times(b, 9) ^ times(c, 14) ^ times(d, 11);
        column[3] = times(a, 11) ^ times(b, 13) ^ times(c, 9) ^ times(d, 14);
    }
}

const fn doubled(byte: u8) -> u8 {
    (byte << 1) ^ ((byte >> 7) * 0x1B)
}

// For factors from 8 to 15.
fn times(byte: u8, factor: u8) -> u8 {
    let (two, four) = (doubled(byte), doubled(doubled(byte)));
    let bit = |place: u32| (factor >> place) & 1;
    (bit(0) * byte) ^ (bit(1) * two) ^ (bit(2) * four) ^ doubled(four)
}

fn expanded(key: &[u8]) -> [Block; ROUNDS + 1] {
    let mut words = [[0; 4]; 4 * (ROUNDS + 1)];
    for (word, bytes) in words.iter_mut().zip(key.chunks_exact(4)) {
        word.copy_from_slice(bytes);
    }
    let mut constant = 1;
    for index in 8..words.len() {
        let mut word: [u8; 4] = words[index - 1];
        if index % 8 == 0 {
            word.rotate_left(1);
            word = word.map(|byte| S_BOX[usize::from(byte)]);
            word[0] ^= constant;
            constant = doubled(constant);
        } else if index % 8 == 4 {
            word = word.map(|byte| S_BOX[usize::from(byte)]);
        }
        words[index] = std::array::from_fn(|place| words[index - 8][place] ^ word[place]);
    }
    std::array::from_fn(|round| std::array::from_fn(|index| words[4 * round + index / 4][index % 4]))
}

// Goes through the powers of 3, of which every byte but 0 is one, and their inverses.
const fn s_box() -> [u8; 256] {
    let mut table = [0x63; 256];
    let (mut power, mut inverse) = (1_u8, 1_u8);
    loop {
        power ^= doubled(power);
        inverse ^= inverse << 1;
        inverse ^= inverse << 2;
        inverse ^= inverse << 4;
        inverse ^= (inverse >> 7) * 0x09;
        let turned = inverse.rotate_left(1) ^ inverse.rotate_left(2);
        table[power as usize] ^= inverse ^ turned ^ inverse.rotate_left(3) ^ inverse.rotate_left(4);
        if power == 1 {
            return table;
        }
    }
}

const fn inverted(table: &[u8; 256]) -> [u8; 256] {
    let mut inverse = [0; 256];
    let mut byte = 0;
    while byte < 256 {
        inverse[table[byte] as usize] = byte as u8;
        byte += 1;
    }
    inverse
}
