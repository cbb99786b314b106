//! Sizes in units that people read.

use crate::thousands::thousands;

const UNITS: [&str; 6] = ["KiB", "MiB", "GiB", "TiB", "PiB", "EiB"];

/// A size in its unit and in bytes.
pub fn size(bytes: u64) -> String {
    match bytes {
        1 => "1 byte".to_string(),
        0..=1023 => short(bytes),
        _ => format!("{} ({} bytes)", short(bytes), thousands(bytes)),
    }
}

/// A size in its unit alone.
pub fn short(bytes: u64) -> String {
    let mut scaled = bytes as f64;
    let mut unit = "bytes";
    for larger in UNITS {
        if scaled < 1024.0 {
            break;
        }
        scaled /= 1024.0;
        unit = larger;
    }
    let digits = usize::from(unit != "bytes");
    format!("{scaled:.digits$} {unit}")
}

#[cfg(test)]
mod tests {
    use super::size;

    #[test]
    fn sizes_have_their_unit() {
        assert_eq!(size(1), "1 byte");
        assert_eq!(size(511), "511 bytes");
        assert_eq!(size(1_000_000), "976.6 KiB (1,000,000 bytes)");
        assert_eq!(size(1 << 43), "8.0 TiB (8,796,093,022,208 bytes)");
        assert_eq!(size(u64::MAX), "16.0 EiB (18,446,744,073,709,551,615 bytes)");
    }
}
