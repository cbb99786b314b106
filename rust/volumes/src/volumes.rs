//! An image's volumes, opened by their headers.

use std::path::Path;

use ondristela::{Kind, Layout, Location, Refusal, View, KEY_SIZE};

use crate::arguments::{without_header, Files};
use crate::header_file::Header;
use crate::image::Image;
use crate::problem::Problem;
use crate::thousands::thousands;
use crate::volume::Volume;

/// A volume, where the image has its header (nowhere, if the risk was taken), and the key of its sectors, as long as
/// they are enciphered with AES alone.
pub struct Opened {
    pub view: View,
    pub header: Option<Location>,
    pub key: [u8; KEY_SIZE],
}

/// The volumes whose headers are given. With both, the outer one has the hidden one protected.
pub struct Volumes {
    pub outer: Option<Opened>,
    pub hidden: Option<Opened>,
}

impl Volumes {
    /// Opens the volumes against the image's size, once their headers are known to be this image's.
    pub fn open(files: &Files, image: &Image) -> Result<Volumes, Problem> {
        let header = |path: &Path, kind| Header::open(path, kind, image, files.risk_wrong_disk);
        let outer = files.outer_header.as_deref().map(|path| header(path, Kind::Standard)).transpose()?;
        let hidden = files.hidden_header.as_deref().map(|path| header(path, Kind::Hidden)).transpose()?;
        let protected = hidden.as_ref().map(|hidden| hidden.layout);
        Ok(Volumes {
            outer: outer.map(|outer| volume(outer, protected)).transpose()?,
            hidden: hidden.map(|hidden| volume(hidden, None)).transpose()?,
        })
    }

    /// One of them.
    pub fn into_opened(self, volume: Volume) -> Result<Opened, Problem> {
        let opened = match volume {
            Volume::Outer => self.outer,
            Volume::Hidden => self.hidden,
        };
        opened.ok_or_else(|| without_header(volume))
    }
}

fn volume(header: Header, protected: Option<Layout>) -> Result<Opened, Problem> {
    let layout = header.layout;
    let view = match protected {
        Some(hidden) => {
            View::protected(&layout, &hidden).map_err(|refusal| apart(refusal, &layout, &hidden))?
        }
        None => View::plain(&layout)?,
    };
    Ok(Opened { view, header: header.location, key: header.key })
}

fn apart(refusal: Refusal, outer: &Layout, hidden: &Layout) -> Problem {
    let area = |name, layout: &Layout| {
        let (first, last) = (layout.data_start, layout.data_start + layout.data_size - 1);
        format!("{name} data area: bytes {} to {}", thousands(first), thousands(last))
    };
    let problem = Problem::refused(refusal).fact(area("outer", outer)).fact(area("hidden", hidden));
    if outer.sector_size == hidden.sector_size {
        return problem;
    }
    let [outer, hidden] = [outer, hidden].map(|layout| thousands(layout.sector_size));
    problem
        .fact(format!("disk's sectors: {outer} bytes by the outer header, {hidden} by the hidden one"))
        .next("check that both headers are of this image; on one disk both tell the same sector size")
}
