//! Bytes that nobody can foresee.

use std::fs::File;
use std::io::Read;
use std::path::Path;

use crate::problem::Problem;

/// So many new bytes, fit for keys. Soon after a start the system may not have gathered enough for them yet:
/// /dev/random waits for that, which /dev/urandom need not do.
pub fn random(size: usize) -> Result<Vec<u8>, Problem> {
    let mut bytes = vec![0; size];
    fill(&mut [0], Path::new("/dev/random"))?;
    fill(&mut bytes, Path::new("/dev/urandom"))?;
    Ok(bytes)
}

fn fill(bytes: &mut [u8], device: &Path) -> Result<(), Problem> {
    File::open(device).and_then(|mut device| device.read_exact(bytes)).map_err(Problem::file(device))
}

#[cfg(test)]
mod tests {
    use super::random;

    #[test]
    fn no_two_are_alike() {
        let [one, other] = [random(64), random(64)].map(|bytes| bytes.map_err(|problem| problem.to_string()));
        assert_eq!(one.as_ref().map(Vec::len), Ok(64));
        assert_ne!(one, other);
    }
}
