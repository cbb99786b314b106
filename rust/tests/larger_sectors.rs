//! A disk with sectors of 4,096 bytes, eight of ours, through the crate's own types.

use ondristela::{open, Layout, Location, NewHeader, Refusal, View, HEADER_SIZE};

const HOST_SIZE: u64 = 1_048_576;
const OUTER_HEADER: &[u8; 512] = include_bytes!("../../samples/tcplay-1048576-code0.header");
const HIDDEN_HEADER: &[u8; 512] = include_bytes!("../../samples/tcplay-1048576-code1.header");

/// The headers' volumes, as they are and with larger sectors.
struct Volumes {
    outer: Layout,
    hidden: Layout,
    wide_outer: Layout,
    wide_hidden: Layout,
}

fn volumes() -> Volumes {
    let opened = |header: &[u8], location: Location| open(header, &[location.code()], HOST_SIZE).unwrap();
    let [outer, hidden] = [Location::Standard, Location::Hidden];
    Volumes {
        outer: opened(OUTER_HEADER, outer),
        hidden: opened(HIDDEN_HEADER, hidden),
        wide_outer: opened(&widened(OUTER_HEADER, outer), outer),
        wide_hidden: opened(&widened(HIDDEN_HEADER, hidden), hidden),
    }
}

/// The same header for larger sectors. Taken apart and written again, it is the same.
fn widened(header: &[u8], location: Location) -> [u8; HEADER_SIZE] {
    let apart = NewHeader::from_header(header, location, HOST_SIZE).unwrap();
    let wide = NewHeader { sector_size: 4_096, ..apart }.bytes().unwrap();
    let again = NewHeader::from_header(&wide, location, HOST_SIZE).unwrap();
    assert_eq!((again.sector_size, again.bytes()), (4_096, Ok(wide)));
    wide
}

#[test]
fn layouts() {
    let Volumes { outer, hidden, wide_outer, wide_hidden } = volumes();
    assert_eq!(wide_outer, Layout { sector_size: 4_096, ..outer });
    assert_eq!(wide_hidden, Layout { sector_size: 4_096, ..hidden });
    assert_eq!([outer, wide_outer].map(|layout| layout.alignment()), [1, 8]);
    assert_eq!([outer, wide_outer].map(|layout| layout.sector_count()), [1_536; 2]);
    assert_eq!((wide_outer.host_sector(1), wide_outer.tweak(1)), (Ok(257), outer.tweak(1)));
    assert_eq!(Layout { sector_size: 8_192, ..outer }.host_sector(1), Err(Refusal::Unsound));
}

#[test]
fn views() {
    let Volumes { outer, hidden, wide_outer, wide_hidden } = volumes();
    let view = View::protected(&wide_outer, &wide_hidden).unwrap();
    assert_eq!((view.layout, view.protected), (wide_outer, Some(655_360..917_504)));
    assert_eq!(View::protected(&wide_outer, &hidden), Err(Refusal::NotNested));
    assert_eq!(View::protected(&outer, &wide_hidden), Err(Refusal::NotNested));
    assert_eq!(View::plain(&Layout { sector_size: 0, ..outer }), Err(Refusal::Unsound));
}

#[test]
fn extents() {
    let mut image = vec![0; HOST_SIZE as usize];
    let mut view = View::plain(&volumes().wide_outer).unwrap();
    for (first, count) in [(1, 1), (0, 7), (4, 8), (1, 0), (1_537, 8)] {
        let (mut bytes, size) = (vec![0x5A; 512 * count as usize], 512 * count);
        assert_eq!(view.read(&image, first, count, &mut bytes), Err(Refusal::Unaligned));
        assert_eq!(view.write(&mut image, first, count, &bytes), Err(Refusal::Unaligned));
        assert_eq!(view.read_extent(HOST_SIZE, first, count, size), Err(Refusal::Unaligned));
        assert_eq!(view.write_extent(HOST_SIZE, first, count, size), Err(Refusal::Unaligned));
    }
    assert!(!view.locked && image.iter().all(|byte| *byte == 0));
    assert_eq!(view.write(&mut image, 8, 8, &[0x5A; 4_096]), Ok(()));
    assert_eq!(image[131_072 + 4_096..][..4_096], [0x5A; 4_096]);
    assert_eq!(view.read_extent(HOST_SIZE, 8, 8, 4_096), Ok(131_072 + 4_096));
    assert_eq!(view.read(&image, 1_536, 8, &mut [0; 4_096]), Err(Refusal::Outside { sector: Some(1_536) }));
}
