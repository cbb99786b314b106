//! XTS-AES-256 (IEEE 1619, section 5), on units of 512 bytes: 32 whole blocks.

use std::iter;

use super::aes::{sum, Aes256, Block};

/// The data's key, then the tweak's.
pub type Key = [u8; 64];

/// The unit as it is stored.
pub fn enciphered(key: &Key, tweak_number: u64, unit: &[u8]) -> Vec<u8> {
    let cipher = Aes256::new(&half(key, 0));
    by_blocks(key, tweak_number, unit, |block| cipher.enciphered(block))
}

/// The unit as it was before it was stored.
pub fn deciphered(key: &Key, tweak_number: u64, unit: &[u8]) -> Vec<u8> {
    let cipher = Aes256::new(&half(key, 0));
    by_blocks(key, tweak_number, unit, |block| cipher.deciphered(block))
}

fn half(key: &Key, index: usize) -> [u8; 32] {
    key[32 * index..][..32].try_into().expect("half of 64 bytes")
}

/// Each block has its mask added before the step and after it.
fn by_blocks(key: &Key, tweak_number: u64, unit: &[u8], step: impl Fn(Block) -> Block) -> Vec<u8> {
    assert_eq!(unit.len(), 512, "a unit is whole");
    let blocks = unit.chunks(16).map(|block| block.try_into().expect("sixteen bytes"));
    let masked = blocks.zip(masks(key, tweak_number)).map(|(block, mask)| sum(step(sum(block, mask)), mask));
    masked.flatten().collect()
}

/// The mask of the first block is the tweak number, enciphered with the tweak's key; each next one is times alpha.
fn masks(key: &Key, tweak_number: u64) -> impl Iterator<Item = Block> {
    let first = Aes256::new(&half(key, 1)).enciphered(tweak_block(tweak_number));
    iter::successors(Some(first), |mask| Some(times_alpha(*mask)))
}

/// The number's eight bytes, the least significant first, then eight zeros.
fn tweak_block(tweak_number: u64) -> Block {
    u128::from(tweak_number).to_le_bytes()
}

/// Shifted by a bit towards the last byte; a bit that falls off there is 135 (hexadecimal 87) in the first.
fn times_alpha(mask: Block) -> Block {
    let number = u128::from_le_bytes(mask);
    let fallen = number >> 127;
    ((number << 1) ^ (fallen * 0x87)).to_le_bytes()
}
