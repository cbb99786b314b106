//! Reads and writes against memcpy: in images of several sizes, at one place or scattered over the volume,
//! and with buffers at several places in their page.

use ondristela::{MAX_COUNT, SECTOR_SIZE};

use crate::copy::{self, Inputs};
use crate::memory::Memory;
use crate::positions::{Fixed, Positions, Scattered};
use crate::report::{Report, Row};
use crate::timing::Timing;

const MIB: usize = 1 << 20;
const IMAGE_SIZES: [usize; 4] = [MIB, 16 * MIB, 256 * MIB, 1024 * MIB];
const COUNTS: [u64; 3] = [1, 8, MAX_COUNT];
const DISTANCES: [usize; 6] = [0, 16, 32, 64, 512, 2048];

// In the middle of the smallest image, at the start of a page.
const MIDDLE: u64 = 512;

/// What distinguishes a measurement of reads and writes, beside where they take place.
struct Case {
    series: &'static str,
    note: String,
    count: u64,
    /// How far past the start of a page the buffer starts.
    distance: usize,
}

/// Measures how cost depends on the count of sectors and the image's size.
pub fn measure_sizes(report: &mut Report) {
    for size in IMAGE_SIZES {
        report.section(&format!("Reads and writes, image of {} MiB", size / MIB));
        let mut image = Memory::new(size, 0);
        for count in COUNTS {
            let case = Case { series: "fixed", note: "one place".to_owned(), count, distance: 0 };
            image = measure(report, &case, image, Fixed(MIDDLE));
        }
        for count in COUNTS {
            let case = Case { series: "scattered", note: "scattered".to_owned(), count, distance: 0 };
            let positions = Scattered::new(copy::sector_count(size) - count + 1);
            image = measure(report, &case, image, positions);
        }
    }
}

/// Measures how cost depends on where in its page the buffer starts.
pub fn measure_distances(report: &mut Report) {
    report.section("Reads and writes, image of 1 MiB, by the buffer's distance from the start of a page");
    let mut image = Memory::new(MIB, 0);
    for distance in DISTANCES {
        let note = format!("distance {distance}");
        let case = Case { series: "distance", note, count: MAX_COUNT, distance };
        image = measure(report, &case, image, Fixed(MIDDLE));
    }
}

// Hands the image back for the next measurement: making one takes long.
fn measure<P: Positions>(report: &mut Report, case: &Case, image: Memory, positions: P) -> Memory {
    let image_size = image.bytes().len();
    let buffer = Memory::new(case.count as usize * SECTOR_SIZE, case.distance);
    let mut inputs = Inputs { view: copy::view(image_size), image, buffer, count: case.count, positions };
    let reads = copy::measure_reads(&mut inputs);
    report.add(row("read", case, image_size, reads));
    let writes = copy::measure_writes(&mut inputs);
    report.add(row("write", case, image_size, writes));
    inputs.image
}

fn row(operation: &'static str, case: &Case, image_size: usize, [ours, peer]: [Timing; 2]) -> Row {
    let sectors = if case.count == 1 { "sector" } else { "sectors" };
    Row {
        series: case.series,
        operation,
        case: format!("{} {sectors}, {}", case.count, case.note),
        bytes: case.count as usize * SECTOR_SIZE,
        image_size,
        ours,
        peer_name: "memcpy",
        peer,
    }
}
