//! What a header file tells of an image.

use std::path::Path;

use ondristela::{key_bytes, open, Kind, Layout, Location, Refusal, KEY_SIZE, SALT_SIZE};

use crate::image::Image;
use crate::names::shown;
use crate::notes::note;
use crate::problem::Problem;
use crate::salts;
use crate::small_file;

/// A volume's layout, where the image has its header (nowhere, if the risk was taken), and the key of its sectors, as
/// long as they are enciphered with AES alone.
pub struct Header {
    pub layout: Layout,
    pub location: Option<Location>,
    pub key: [u8; KEY_SIZE],
}

impl Header {
    /// Opens a header against the image's size, and makes sure that it is this image's. A backup is opened by
    /// the main header's code too: codes 0 and 2 make a standard volume by the same rules, codes 1 and 3 a hidden
    /// one.
    pub fn open(path: &Path, kind: Kind, image: &Image, risk_wrong_disk: bool) -> Result<Header, Problem> {
        let bytes = small_file::read(path)?;
        let code = if kind == Kind::Standard { Location::Standard.code() } else { Location::Hidden.code() };
        let (codes, host_size) = ([code], image.size()?);
        let refused = |refusal| refused(refusal, path, bytes.len(), image);
        let layout = open(&bytes, &codes, host_size).map_err(refused)?;
        let mut key = [0; KEY_SIZE];
        key.copy_from_slice(&key_bytes(&bytes, &codes, host_size).map_err(refused)?[..KEY_SIZE]);
        let location = salts::location_of(&bytes[..SALT_SIZE], kind, image)?;
        match location {
            None if !risk_wrong_disk => return Err(of_another_disk(path, image)),
            None => note(format_args!("warning: the image does not have the salt of {}", shown(path))),
            Some(_) => {}
        }
        Ok(Header { layout, location, key })
    }
}

fn refused(refusal: Refusal, path: &Path, bytes: usize, image: &Image) -> Problem {
    let problem = Problem::refused(refusal);
    match refusal {
        Refusal::Lengths => problem.fact(small_file::fact("header", path, bytes)),
        Refusal::HostSize => problem.fact(image.fact()),
        _ => problem.fact(format!("header: {}", shown(path))).fact(image.fact()),
    }
}

fn of_another_disk(path: &Path, image: &Image) -> Problem {
    Problem::declined(
        "the image does not have this header's salt, neither where the main header lies nor where its backup \
         does: it is the wrong disk or the wrong header, or the whole disk is given instead of the partition, \
         or the partition instead of the disk",
    )
    .fact(format!("header: {}", shown(path)))
    .fact(image.fact())
    .next("give the image that the header was read from; --risk-wrong-disk goes on all the same")
}
