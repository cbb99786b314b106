//! Makes a header out of numbers, a salt and keys.

use std::path::Path;

use ondristela::{open, NewHeader, Refusal, HEADER_SIZE, SECTOR_SIZE};

use crate::faults::refused;
use crate::formats::magic_name;
use crate::image::Image;
use crate::material::Material;
use crate::names::destination;
use crate::new_file::PRIVATE;
use crate::notes::reported;
use crate::plan::{Host, Plan};
use crate::problem::Problem;
use crate::show::header_name;
use crate::sizes::size;
use crate::target::Target;
use crate::thousands::thousands;
use crate::volume::Volume;

/// Makes a deciphered header, in a new file or to standard output. A header that is refused makes no file.
pub fn prepare(plan: &Plan) -> Result<String, Problem> {
    let (host_size, host) = measured(&plan.host)?;
    let salt = Material::salt(plan.salt_file.as_deref())?;
    let keys = Material::keys(plan.keys_file.as_deref())?;
    let header = plan.header(host_size, &salt.bytes, &keys.bytes);
    let bytes = header.bytes().map_err(|refusal| refused(refusal, &header, &host, [&salt, &keys]))?;
    salt.not_blank()?;
    keys.not_blank()?;
    let made = format!("prepared {}, {}", header_of(&header), destination(&plan.target));
    let report = [made, host, facts(&header, &bytes)?, salt.fact(), keys.fact(), NEXT.to_string()].join("\n");
    put(&bytes, &plan.target)?;
    Ok(reported(report + "\n", &plan.target))
}

const NEXT: &str = "next: encipher the header, but for its salt, before it goes to its place; this program \
                    enciphers no header, and here the keys are in the clear";

// A file is its owner's alone from its first byte on, since it has the keys.
fn put(bytes: &[u8], path: &Path) -> Result<(), Problem> {
    let mut target = Target::open(path, PRIVATE)?;
    target.write(bytes)?;
    target.finish()
}

// The host's size, and a line that tells it.
fn measured(host: &Host) -> Result<(u64, String), Problem> {
    match host {
        Host::Image(path) => {
            let image = Image::to_read(path)?;
            Ok((image.size()?, image.fact()))
        }
        Host::Size(host_size) => Ok((*host_size, format!("host: {}", size(*host_size)))),
    }
}

fn header_of(header: &NewHeader) -> String {
    let volume = Volume::of(header.location.kind()).name();
    format!("the {volume} volume's {} header", header_name(header.location))
}

// What was made, as the library reads it.
fn facts(header: &NewHeader, bytes: &[u8]) -> Result<String, Refusal> {
    let layout = open(bytes, &[header.location.code()], header.host_size)?;
    let place = header.location.offset(header.host_size)?;
    let format = magic_name(layout.magic);
    let [version, least] = [layout.version, layout.min_program_version].map(thousands);
    let header_bytes = range(place, HEADER_SIZE as u64);
    let data_bytes = range(layout.data_start, layout.data_size);
    let mut facts = vec![
        format!("header: {format}, version {version}, min program version {least}"),
        format!("place: {header_bytes}"),
        format!("data area: {data_bytes}, {}", size(layout.data_size)),
    ];
    if layout.sector_size != SECTOR_SIZE as u64 {
        facts.push(format!("disk's sectors: {} bytes each", thousands(layout.sector_size)));
    }
    Ok(facts.join("\n"))
}

fn range(start: u64, size: u64) -> String {
    format!("bytes {} to {}", thousands(start), thousands(start + size - 1))
}
