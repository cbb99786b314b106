//! Whether a header is of this image, by its salt: a host has it in the clear, where the header lies.

use ondristela::{Kind, Location, SALT_SIZE};

use crate::image::Image;
use crate::problem::Problem;

/// At which of its kind's two locations the image has this salt, if at any. The main header and the backup have
/// salts of their own, so this also tells which of the two was deciphered. A salt of zeros was blanked, and is on
/// every empty disk: it is not looked for.
pub fn location_of(salt: &[u8], kind: Kind, image: &Image) -> Result<Option<Location>, Problem> {
    if salt.iter().all(|byte| *byte == 0) {
        return Ok(None);
    }
    let host_size = image.size()?;
    for location in Location::ALL.into_iter().filter(|location| location.kind() == kind) {
        let mut stored = [0; SALT_SIZE];
        image.read_at(&mut stored, location.offset(host_size)?)?;
        if salt == stored {
            return Ok(Some(location));
        }
    }
    Ok(None)
}
