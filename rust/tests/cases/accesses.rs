//! Reads and writes on views that a caller made up.

use super::extents::{buffer_size, for_layout};
use super::views;
use crate::reference::access::{Extent, View};
use crate::reference::random::Random;

pub const SEED: u64 = 21;
pub const CASES: u64 = 100_000;

/// Room for a buffer of one sector more than a call may name, and one byte.
pub const MAX_BUFFER: usize = 131 * 512;

/// One read or write: what is passed, by its numbers and sizes.
#[derive(Debug)]
pub struct Access {
    pub view: View,
    pub image_size: usize,
    pub extent: Extent,
    pub buffer_size: usize,
}

pub fn access(random: &mut Random) -> Access {
    let view = views::view(random);
    let extent = for_layout(&view.layout, random);
    let image_size = image_size(view.layout.host_size, random);
    let buffer_size = buffer_size(extent.count, MAX_BUFFER, random);
    Access { view, image_size, extent, buffer_size }
}

/// Mostly the host's own size, as far as the memory goes.
fn image_size(host_size: u64, random: &mut Random) -> usize {
    let right = host_size.min(views::MAX_HOST_SIZE as u64) as usize;
    if random.chance(95) {
        return right;
    }
    random.pick(&[0, 512, right.saturating_sub(1), right.saturating_sub(512), right + 1, right + 512])
}
