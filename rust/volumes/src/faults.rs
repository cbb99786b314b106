//! The library's refusals of a header to be made, with the facts that tell what to change.

use ondristela::{Kind, NewHeader, Refusal};

use crate::advice::advice;
use crate::formats::magic_name;
use crate::material::Material;
use crate::problem::Problem;
use crate::regions::room;
use crate::thousands::thousands;
use crate::volume::Volume;

/// The refusal of a header for a host that the line `host` tells of.
pub fn refused(refusal: Refusal, header: &NewHeader, host: &str, materials: [&Material; 2]) -> Problem {
    let facts = match refusal {
        Refusal::Lengths => materials.into_iter().filter_map(Material::wrong_length).collect(),
        Refusal::HostSize => vec![host.to_string()],
        Refusal::Version => vec![versioned(header)],
        Refusal::SectorSize => vec![sized(header)],
        Refusal::DataArea => vec![asked(header), host.to_string(), format!("at fault: {}", fault(header))],
        _ => Vec::new(),
    };
    facts.into_iter().fold(Problem::refused(refusal), Problem::fact).next(advice_for(refusal, header))
}

// Where it is another than after opening a header.
fn advice_for(refusal: Refusal, header: &NewHeader) -> &'static str {
    match refusal {
        Refusal::Lengths => "give a file of the right length; the keys of a header are its last 256 bytes",
        Refusal::HostSize => {
            "give the whole partition or image file that is to hold the volume, or its size in bytes"
        }
        Refusal::Version => "give a version that the magic has, or leave --header-version out",
        Refusal::SectorSize => {
            "give --sector-size as the disk has it, 512, 1024, 2048 or 4096, or leave it out for 512"
        }
        Refusal::DataArea if is_cut(header) => {
            "give a host of whole sectors, or the --sector-size of the disk that is to hold it"
        }
        Refusal::DataArea => {
            "give --data-start and --data-size that fit, in bytes; an outer volume can do without both"
        }
        _ => advice(refusal),
    }
}

fn versioned(header: &NewHeader) -> String {
    format!("asked for: {}, version {}", magic_name(header.magic), header.version)
}

fn sized(header: &NewHeader) -> String {
    format!("asked for: sectors of {} bytes", thousands(header.sector_size))
}

// Whether the host ends within a sector of the disk. Only asked where the sector size is an allowed one.
fn is_cut(header: &NewHeader) -> bool {
    header.host_size % header.sector_size != 0
}

fn asked(header: &NewHeader) -> String {
    let volume = Volume::of(header.location.kind()).name();
    let [start, size] = [header.data_start, header.data_size].map(thousands);
    format!("asked for: {volume} data area from byte {start} on, {size} bytes")
}

// Which number of the data area breaks a rule first, for a message alone.
fn fault(header: &NewHeader) -> String {
    let (start, size, sector) = (header.data_start, header.data_size, header.sector_size);
    let is_outer = header.location.kind() == Kind::Standard;
    let room = room(header.host_size);
    let [first, last] = [room.start, room.end - 1].map(thousands);
    let multiple = format!("multiple of {}", thousands(sector));
    let faults = [
        (is_cut(header), format!("the host's size, which is no {multiple}")),
        (is_outer && start != room.start, format!("--data-start, which is {first} for an outer volume")),
        (!room.contains(&start), format!("--data-start, as there is room from byte {first} to byte {last}")),
        (start % sector != 0, format!("--data-start, which is no {multiple}")),
        (size == 0, "--data-size, as a volume has at least one sector".to_string()),
        (size % sector != 0, format!("--data-size, which is no {multiple}")),
    ];
    match faults.into_iter().find(|(is_broken, _)| *is_broken) {
        Some((_, fault)) => fault,
        None => {
            format!("--data-size, as there is room for {} bytes from there on", thousands(room.end - start))
        }
    }
}
