//! The crate's own types over the library's numbers.

use ondristela::{
    key_bytes, open, raw, Kind, Layout, Location, Magic, NewHeader, Refusal, View, HEADER_SIZE, KEYS_SIZE,
    SALT_SIZE,
};

const HOST_SIZE: u64 = 1_048_576;
const OUTER_HEADER: &[u8; 512] = include_bytes!("../../samples/tcplay-1048576-code0.header");
const HIDDEN_HEADER: &[u8; 512] = include_bytes!("../../samples/tcplay-1048576-code1.header");

fn outer() -> Layout {
    open(OUTER_HEADER, &[Location::Standard.code()], HOST_SIZE).unwrap()
}

fn hidden() -> Layout {
    open(HIDDEN_HEADER, &[Location::Hidden.code()], HOST_SIZE).unwrap()
}

/// A candidate that is no header, then the hidden volume's header.
fn two_candidates() -> Vec<u8> {
    [&[0x5A; 512], HIDDEN_HEADER.as_slice()].concat()
}

#[test]
fn layout_fields() {
    let layout = Layout {
        host_size: HOST_SIZE,
        kind: Kind::Hidden,
        magic: Magic::True,
        version: 5,
        min_program_version: 0x0700,
        data_start: 655_360,
        data_size: 262_144,
        candidate: 1,
        sector_size: 512,
    };
    assert_eq!(open(&two_candidates(), &[0, 1], HOST_SIZE), Ok(layout));
    assert_eq!(
        outer(),
        Layout { kind: Kind::Standard, data_start: 131_072, data_size: 786_432, candidate: 0, ..layout }
    );
}

#[test]
fn layout_numbers() {
    for (header, code, layout) in [(OUTER_HEADER, 0, outer()), (HIDDEN_HEADER, 1, hidden())] {
        let mut numbers = [0; 9];
        assert_eq!(raw::open(header, &[code], HOST_SIZE, &mut numbers), 0);
        assert_eq!(layout.numbers(), numbers);
    }
}

#[test]
fn key_bytes_are_a_part_of_the_candidates() {
    let candidates = two_candidates();
    let keys = key_bytes(&candidates, &[0, 1], HOST_SIZE).unwrap();
    assert_eq!(keys.as_ptr_range(), candidates[512 + 256..1_024].as_ptr_range());
    assert_eq!(keys, &HIDDEN_HEADER[256..]);
}

#[test]
fn refused_openings() {
    let refusals = [
        (OUTER_HEADER.as_slice(), [1].as_slice(), HOST_SIZE, Refusal::HiddenSize),
        (OUTER_HEADER, &[0], 262_656, Refusal::DataArea),
        (OUTER_HEADER, &[0], 1, Refusal::HostSize),
        (OUTER_HEADER, &[4], HOST_SIZE, Refusal::Code),
        (OUTER_HEADER, &[0, 0], HOST_SIZE, Refusal::Lengths),
        (&[0; 512], &[0], HOST_SIZE, Refusal::NoHeader),
    ];
    for (candidates, codes, host_size, refusal) in refusals {
        assert_eq!(open(candidates, codes, host_size), Err(refusal));
        assert_eq!(key_bytes(candidates, codes, host_size), Err(refusal));
    }
}

/// The outer volume's header, to be written as it is.
fn new_outer() -> NewHeader<'static> {
    NewHeader {
        magic: Magic::True,
        version: 5,
        min_program_version: 0x0700,
        location: Location::Standard,
        host_size: HOST_SIZE,
        data_start: 131_072,
        data_size: 786_432,
        sector_size: 512,
        salt: &OUTER_HEADER[..SALT_SIZE],
        keys: &OUTER_HEADER[HEADER_SIZE - KEYS_SIZE..],
    }
}

#[test]
fn new_headers() {
    assert_eq!(new_outer().bytes(), Ok(*OUTER_HEADER));
    let mut header = [0xA5; HEADER_SIZE];
    assert_eq!(new_outer().write(&mut header), Ok(()));
    assert_eq!(header, *OUTER_HEADER);
    let backup = NewHeader { magic: Magic::Vera, location: Location::HiddenBackup, ..new_outer() };
    let layout = Layout { kind: Kind::Hidden, magic: Magic::Vera, ..outer() };
    assert_eq!(open(&backup.bytes().unwrap(), &[3], HOST_SIZE), Ok(layout));
}

/// Taken apart, the header has the fields that it was made of; and it may be written with other ones.
#[test]
fn headers_taken_apart() {
    let apart = NewHeader::from_header(OUTER_HEADER, Location::Standard, HOST_SIZE).unwrap();
    assert_eq!((apart.magic, apart.version, apart.min_program_version), (Magic::True, 5, 0x0700));
    assert_eq!((apart.host_size, apart.data_start, apart.data_size), (HOST_SIZE, 131_072, 786_432));
    assert_eq!(apart.sector_size, 512);
    assert_eq!((apart.salt, apart.keys), (new_outer().salt, new_outer().keys));
    let salted = NewHeader { salt: &[0x5A; SALT_SIZE], ..apart }.bytes().unwrap();
    assert_eq!(
        (&salted[..SALT_SIZE], &salted[SALT_SIZE..]),
        (&[0x5A; SALT_SIZE][..], &OUTER_HEADER[SALT_SIZE..])
    );
    let hidden = NewHeader::from_header(OUTER_HEADER, Location::Hidden, HOST_SIZE);
    assert_eq!(hidden.err(), Some(Refusal::HiddenSize));
    let longer = NewHeader::from_header(&[0; HEADER_SIZE + 1], Location::Standard, HOST_SIZE);
    assert_eq!(longer.err(), Some(Refusal::Lengths));
}

#[test]
fn refused_new_headers() {
    let refusals = [
        (NewHeader { salt: &[0; 63], ..new_outer() }, Refusal::Lengths),
        (NewHeader { keys: &[0; 257], ..new_outer() }, Refusal::Lengths),
        (NewHeader { host_size: HOST_SIZE + 1, ..new_outer() }, Refusal::HostSize),
        (NewHeader { version: 3, ..new_outer() }, Refusal::Version),
        (NewHeader { sector_size: (1 << 32) + 512, ..new_outer() }, Refusal::SectorSize),
        (NewHeader { sector_size: 4_096, host_size: HOST_SIZE + 512, ..new_outer() }, Refusal::DataArea),
        (NewHeader { data_size: 786_944, ..new_outer() }, Refusal::DataArea),
    ];
    for (new, refusal) in refusals {
        let mut header = [0xA5; HEADER_SIZE];
        assert_eq!((new.write(&mut header), header), (Err(refusal), [0xA5; HEADER_SIZE]));
        assert_eq!(new.bytes(), Err(refusal));
    }
    let mut header = [0xA5; HEADER_SIZE + 1];
    assert_eq!(new_outer().write(&mut header), Err(Refusal::Lengths));
    assert_eq!(header, [0xA5; HEADER_SIZE + 1]);
}

/// The crate's types have no other magic than these two. The library's numbers have: it is refused.
#[test]
fn magics() {
    let header = &mut [0xA5; HEADER_SIZE];
    let answers = [Magic::Vera.letters(), Magic::True.letters(), *b"VERa"].map(|magic| {
        raw::write_header(&magic, 5, 7, 0, HOST_SIZE, 131_072, 512, 512, &[0; 64], &[0; 256], header)
    });
    let refusals = answers.map(|answer| Refusal::from_number(answer, None));
    assert_eq!(refusals, [None, None, Some(Refusal::Magic)]);
    assert_eq!([Magic::Vera.letters(), Magic::True.letters()], [*b"VERA", *b"TRUE"]);
}

#[test]
fn location_offsets() {
    let offsets = Location::ALL.map(|location| location.offset(HOST_SIZE));
    assert_eq!(offsets, [Ok(0), Ok(65_536), Ok(HOST_SIZE - 131_072), Ok(HOST_SIZE - 65_536)]);
    assert_eq!(Location::ALL.map(Location::code), [0, 1, 2, 3]);
    assert_eq!(
        Location::ALL.map(Location::kind),
        [Kind::Standard, Kind::Hidden, Kind::Standard, Kind::Hidden]
    );
    assert_eq!(Location::Hidden.offset(262_144), Err(Refusal::HostSize));
}

#[test]
fn sectors_and_tweaks() {
    let layout = hidden();
    assert_eq!(layout.sector_count(), 512);
    assert_eq!(layout.host_sector(511), Ok(1_791));
    assert_eq!(layout.user_sector(1_791), Ok(511));
    assert_eq!(layout.tweak(511), Ok(1_791u128.to_le_bytes()));
    assert_eq!(layout.host_sector(512), Err(Refusal::Outside { sector: None }));
    assert_eq!(layout.user_sector(1_279), Err(Refusal::Outside { sector: None }));
    assert_eq!(layout.tweak(512), Err(Refusal::Outside { sector: None }));
    assert_eq!(Layout { data_size: 511, ..layout }.tweak(0), Err(Refusal::Unsound));
}

#[test]
fn view_numbers() {
    let (outer, hidden) = (outer(), hidden());
    let (mut plain, mut protected) = ([0; 13], [0; 13]);
    assert_eq!(raw::view_plain(&hidden.numbers(), &mut plain), 0);
    assert_eq!(raw::view_protected(&outer.numbers(), &hidden.numbers(), &mut protected), 0);
    assert_eq!(View::plain(&hidden).unwrap().numbers(), plain);
    let view = View::protected(&outer, &hidden).unwrap();
    assert_eq!(view.numbers(), protected);
    assert_eq!((view.protected.clone(), view.locked), (Some(655_360..917_504), false));
    assert_eq!(View { locked: true, ..view }.numbers()[12], 1);
    assert_eq!(View::protected(&hidden, &outer), Err(Refusal::NotNested));
}

#[test]
fn writes_are_read_back() {
    let mut image = vec![0; HOST_SIZE as usize];
    let mut view = View::plain(&hidden()).unwrap();
    let written: Vec<u8> = (0..1_024).map(|index| (index % 251) as u8).collect();
    assert_eq!(view.write(&mut image, 510, 2, &written), Ok(()));
    let mut read = vec![0; 1_024];
    assert_eq!(view.read(&image, 510, 2, &mut read), Ok(()));
    assert_eq!(read, written);
    assert_eq!(image[655_360 + 510 * 512..][..1_024], written);
    assert_eq!(view.read(&image[1..], 0, 0, &mut []), Err(Refusal::ImageSize));
    assert_eq!(view.read(&image, 0, 1, &mut []), Err(Refusal::BufferSize));
    assert_eq!(view.read(&image, 0, 129, &mut []), Err(Refusal::Count));
    assert_eq!(view.read(&image, 511, 2, &mut read), Err(Refusal::Outside { sector: Some(512) }));
    assert_eq!(view.write(&mut image, 511, 2, &written), Err(Refusal::Outside { sector: Some(512) }));
}

#[test]
fn a_protected_write_locks_the_view() {
    let mut image = vec![0; HOST_SIZE as usize];
    let mut view = View::protected(&outer(), &hidden()).unwrap();
    let buffer = [0x5A; 1_024];
    assert_eq!(view.write(&mut image, 1_023, 2, &buffer), Err(Refusal::Protected { sector: 1_024 }));
    assert!(view.locked && image.iter().all(|byte| *byte == 0));
    assert_eq!(view.write(&mut image, 0, 2, &buffer), Err(Refusal::Locked));
    assert_eq!(view.read(&image, 1_023, 2, &mut [0; 1_024]), Ok(()));
    let unlocked = View::protected(&outer(), &hidden()).unwrap();
    assert_eq!(view, View { locked: true, ..unlocked });
}

#[test]
fn extents_are_judged_as_reads_and_writes_are() {
    let mut view = View::protected(&outer(), &hidden()).unwrap();
    assert_eq!(view.read_extent(HOST_SIZE, 1_023, 2, 1_024), Ok(131_072 + 1_023 * 512));
    assert_eq!(view.write_extent(HOST_SIZE, 1_023, 1, 512), Ok(131_072 + 1_023 * 512));
    assert_eq!(view.write_extent(HOST_SIZE, 1_536, 0, 0), Ok(131_072 + 786_432));
    let refusals = [
        (HOST_SIZE + 512, 0, 1, 512, Refusal::ImageSize),
        (HOST_SIZE, 0, 129, 129 * 512, Refusal::Count),
        (HOST_SIZE, 0, 1, 511, Refusal::BufferSize),
        (HOST_SIZE, 1_536, 1, 512, Refusal::Outside { sector: Some(1_536) }),
        (HOST_SIZE, 1_500, 100, 51_200, Refusal::Outside { sector: Some(1_536) }),
        (HOST_SIZE, 1_537, 0, 0, Refusal::Outside { sector: Some(1_537) }),
        (HOST_SIZE, u64::MAX, 128, 65_536, Refusal::Outside { sector: Some(u64::MAX) }),
    ];
    for (image_size, first, count, buffer_size, refusal) in refusals {
        assert_eq!(view.read_extent(image_size, first, count, buffer_size), Err(refusal));
        assert_eq!(view.write_extent(image_size, first, count, buffer_size), Err(refusal));
    }
    let protected = Refusal::Protected { sector: 1_024 };
    assert_eq!(view.write_extent(HOST_SIZE, 1_023, 2, 1_024), Err(protected));
    assert_eq!((view.locked, view.write_extent(HOST_SIZE, 0, 1, 512)), (true, Err(Refusal::Locked)));
    assert_eq!(view.read_extent(HOST_SIZE, 0, 1, 512), Ok(131_072));
}

#[test]
fn refusals_and_their_numbers() {
    for number in 1..=20 {
        let refusal = Refusal::from_number(number, Some(7)).unwrap();
        assert_eq!(u64::from(refusal.number()), number);
        assert_eq!(refusal.sector(), [16, 18].contains(&number).then_some(7));
        assert!(refusal.to_string().ends_with(&format!(" (refusal {number})")));
    }
    for number in [0, 21, 256 + 1, u64::MAX] {
        assert_eq!(Refusal::from_number(number, Some(7)), None);
    }
    assert_eq!(Refusal::from_number(16, None), Some(Refusal::Outside { sector: None }));
    assert_eq!(Refusal::from_number(18, None), None);
}

/// A sentence names the sector in the way where there is one, and else is the same without it.
#[test]
fn sentences_of_refusals() {
    let magic = "the magic of the header to be written is neither VERA nor TRUE (refusal 19)";
    assert_eq!(Refusal::Magic.to_string(), magic);
    let [silent, telling] = [None, Some(u64::MAX)].map(|sector| Refusal::Outside { sector }.to_string());
    let told = format!("; the sector in the way is user sector {}", u64::MAX);
    assert!(silent.ends_with("the host sector lies outside the data area (refusal 16)"));
    assert_eq!(telling.replace(&told, ""), silent);
    let protected = Refusal::Protected { sector: 1_024 }.to_string();
    assert!(protected.ends_with("every write; the sector in the way is user sector 1024 (refusal 18)"));
}
