//! Reads and writes of plaintext through the crate's own types: what they store, what they give, and that they are
//! refused as raw ones are.

use ondristela::{decipher, encipher, key_bytes, open, Layout, Location, Refusal, View, KEY_SIZE};

const HOST_SIZE: u64 = 1_048_576;
const OUTER_HEADER: &[u8; 512] = include_bytes!("../../samples/tcplay-1048576-code0.header");
const HIDDEN_HEADER: &[u8; 512] = include_bytes!("../../samples/tcplay-1048576-code1.header");

type Key = [u8; KEY_SIZE];

fn opened(header: &[u8], location: Location) -> (Layout, Key) {
    let codes = [location.code()];
    let keys = key_bytes(header, &codes, HOST_SIZE).unwrap();
    (open(header, &codes, HOST_SIZE).unwrap(), keys[..KEY_SIZE].try_into().unwrap())
}

fn outer() -> (Layout, Key) {
    opened(OUTER_HEADER, Location::Standard)
}

fn hidden() -> (Layout, Key) {
    opened(HIDDEN_HEADER, Location::Hidden)
}

fn pattern(size: usize, seed: usize) -> Vec<u8> {
    (0..size).map(|index| (index * 37 + index / 251 + seed) as u8).collect()
}

/// The sectors as they must stand on the host from a host sector on.
fn stored(key: &Key, first_host: u64, plaintext: &[u8]) -> Vec<u8> {
    let mut bytes = plaintext.to_vec();
    for (sector, host) in bytes.chunks_mut(512).zip(first_host..) {
        encipher(key, host, sector.try_into().unwrap());
    }
    bytes
}

/// Nothing is changed but the extent, and there each sector stands enciphered with its host sector.
#[test]
fn writes_are_stored_enciphered() {
    for ((layout, key), first_host) in [(outer(), 256), (hidden(), 1_280)] {
        let mut view = View::plain(&layout).unwrap();
        for (first, count) in [(0, 1), (7, 3), (384, 128), (510, 2), (5, 0)] {
            let mut image = pattern(HOST_SIZE as usize, 5);
            let (mut expected, bytes) = (image.clone(), pattern(512 * count, 11));
            let start = 512 * (first_host + first) as usize;
            expected[start..][..bytes.len()].copy_from_slice(&stored(&key, first_host + first, &bytes));
            assert_eq!(view.write_plaintext(&key, &mut image, first, count as u64, &bytes), Ok(()));
            assert!(image == expected, "{count} sectors from {first} on");
            let mut read = vec![0; bytes.len()];
            assert_eq!(view.read_plaintext(&key, &image, first, count as u64, &mut read), Ok(()));
            assert!(read == bytes && image == expected, "{count} sectors from {first} on");
        }
    }
}

/// What is enciphered by hand and written raw is read as plaintext; what is written as plaintext and read raw is
/// deciphered by hand.
#[test]
fn raw_calls_and_calls_on_plaintext_agree() {
    let (layout, key) = hidden();
    let (mut view, mut image) = (View::plain(&layout).unwrap(), vec![0; HOST_SIZE as usize]);
    let (plaintext, mut sector) = ([0x5A; 512], [0x5A; 512]);
    encipher(&key, layout.host_sector(9).unwrap(), &mut sector);
    view.write(&mut image, 9, 1, &sector).unwrap();
    view.read_plaintext(&key, &image, 9, 1, &mut sector).unwrap();
    assert_eq!(sector, plaintext);
    view.write_plaintext(&key, &mut image, 10, 1, &plaintext).unwrap();
    view.read(&image, 10, 1, &mut sector).unwrap();
    assert_ne!(sector, plaintext);
    decipher(&key, layout.host_sector(10).unwrap(), &mut sector);
    assert_eq!(sector, plaintext);
}

/// Outer user sector 1,024 is hidden user sector 0: with one key it is the same through both views.
#[test]
fn the_tweak_is_the_host_sector() {
    let ((outer, outer_key), (hidden, key)) = (outer(), hidden());
    let (mut view, mut image) = (View::plain(&hidden).unwrap(), vec![0; HOST_SIZE as usize]);
    view.write_plaintext(&key, &mut image, 0, 2, &[0x5A; 1_024]).unwrap();
    assert_ne!(image[655_360..][..512], image[655_872..][..512]);
    let (outer, mut read) = (View::protected(&outer, &hidden).unwrap(), [0; 1_024]);
    outer.read_plaintext(&key, &image, 1_024, 2, &mut read).unwrap();
    assert_eq!(read, [0x5A; 1_024]);
    outer.read_plaintext(&outer_key, &image, 1_024, 2, &mut read).unwrap();
    assert_ne!(read, [0x5A; 1_024]);
}

#[test]
fn equal_halves() {
    let (mut view, mut image) = (View::plain(&outer().0).unwrap(), vec![0; HOST_SIZE as usize]);
    for key in [[0; KEY_SIZE], [0xA1; KEY_SIZE]] {
        view.write_plaintext(&key, &mut image, 3, 1, &[0x5A; 512]).unwrap();
        assert_eq!(image[131_072 + 3 * 512..][..512], stored(&key, 259, &[0x5A; 512]));
        let mut read = [0; 512];
        view.read_plaintext(&key, &image, 3, 1, &mut read).unwrap();
        assert_eq!(read, [0x5A; 512]);
    }
}

/// Reads and writes with every mistake, and then with one mistake fewer each time. Buffer, image and view are left.
#[test]
fn refusals() {
    let ((outer, key), (hidden, _)) = (outer(), hidden());
    let sound = View { locked: true, ..View::protected(&outer, &hidden).unwrap() };
    let unsound = View { protected: Some(131_072..131_072), ..sound.clone() };
    let wide = Layout { sector_size: 4_096, ..outer };
    let aligned = View { layout: wide, ..sound.clone() };
    let (image, outside) = (pattern(HOST_SIZE as usize, 3), Refusal::Outside { sector: Some(1_536) });
    for (view, size, first, count, bytes, read, written) in [
        (&unsound, 512, 1_537, 129, 1, Refusal::Unsound, Refusal::Unsound),
        (&aligned, 512, 1_537, 129, 1, Refusal::ImageSize, Refusal::ImageSize),
        (&aligned, image.len(), 1_537, 129, 1, Refusal::Count, Refusal::Count),
        (&aligned, image.len(), 1_537, 9, 1, Refusal::BufferSize, Refusal::BufferSize),
        (&aligned, image.len(), 1_537, 9, 9 * 512, Refusal::Unaligned, Refusal::Unaligned),
        (&sound, image.len(), 1_535, 2, 1_024, outside, outside),
    ] {
        let (mut left, mut buffer) = (image.clone(), pattern(bytes, 7));
        assert_eq!(view.read_plaintext(&key, &left[..size], first, count, &mut buffer), Err(read));
        let mut same = view.clone();
        assert_eq!(same.write_plaintext(&key, &mut left[..size], first, count, &buffer), Err(written));
        assert!(left == image && buffer == pattern(bytes, 7) && same == *view, "{read}");
    }
}

#[test]
fn a_protected_write_locks_the_view() {
    let ((outer, key), (hidden, _)) = (outer(), hidden());
    let (mut view, image) = (View::protected(&outer, &hidden).unwrap(), pattern(HOST_SIZE as usize, 3));
    let (mut left, bytes) = (image.clone(), pattern(1_024, 7));
    let refusal = Err(Refusal::Protected { sector: 1_024 });
    assert_eq!(view.write_plaintext(&key, &mut left, 1_024, 0, &[]), Ok(()));
    assert_eq!(view.write_plaintext(&key, &mut left, 1_023, 2, &bytes), refusal);
    assert!(view.locked && left == image);
    assert_eq!(view.write_plaintext(&key, &mut left, 0, 2, &bytes), Err(Refusal::Locked));
    assert_eq!(view.write(&mut left, 0, 2, &bytes), Err(Refusal::Locked));
    assert!(left == image);
    assert_eq!(view.read_plaintext(&key, &left, 1_023, 2, &mut [0; 1_024]), Ok(()));
}
