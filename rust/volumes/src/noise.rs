//! Bytes that look enciphered and are the same in every run.

/// So many bytes, a multiple of eight, of the generator SplitMix64. They serve a sample, never a secret.
pub fn noise(seed: u8, size: usize) -> Vec<u8> {
    const STEP: u64 = 0x9E37_79B9_7F4A_7C15;
    let start = u64::from(seed) << 56;
    (1..=size as u64 / 8)
        .flat_map(|index| mixed(start.wrapping_add(index.wrapping_mul(STEP))).to_be_bytes())
        .collect()
}

fn mixed(state: u64) -> u64 {
    let state = (state ^ (state >> 30)).wrapping_mul(0xBF58_476D_1CE4_E5B9);
    let state = (state ^ (state >> 27)).wrapping_mul(0x94D0_49BB_1331_11EB);
    state ^ (state >> 31)
}
