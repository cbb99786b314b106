//! CRC-32 of ITU-T V.42, bit by bit (docs/RULES.md, Header bytes).

const REFLECTED_POLYNOMIAL: u32 = 0xEDB8_8320;

pub fn crc32(bytes: &[u8]) -> u32 {
    bytes.iter().fold(0xFFFF_FFFF, |state, byte| after_byte(state, *byte)) ^ 0xFFFF_FFFF
}

fn after_byte(state: u32, byte: u8) -> u32 {
    (0..8).fold(state ^ u32::from(byte), |state, _| after_bit(state))
}

fn after_bit(state: u32) -> u32 {
    if state & 1 == 1 {
        (state >> 1) ^ REFLECTED_POLYNOMIAL
    } else {
        state >> 1
    }
}
