//! Headers that are not written, by the rule that they break: each alone on either side of its bounds, and two at
//! once. `check` sees that a refusal leaves every byte, and that the reference gives the same answer.

mod cases;
mod reference;

use cases::header_writings::HeaderWriting;
use reference::header_writing::NewHeader;

const HOST_SIZE: u64 = 1_048_576;

/// Asks for the header of the volume M of docs/RULES.md.
fn m() -> NewHeader {
    NewHeader {
        magic: *b"TRUE",
        version: 5,
        min_program_version: 0x0700,
        code: 0,
        host_size: HOST_SIZE,
        data_start: 131_072,
        data_size: 786_432,
        sector_size: 512,
        salt: vec![0x5A; 64],
        keys: vec![0xC3; 256],
    }
}

/// Asks for the header of N, which is hidden in M.
fn n() -> NewHeader {
    NewHeader { code: 1, data_start: 655_360, data_size: 262_144, ..m() }
}

#[track_caller]
fn assert_answer(asked: NewHeader, expected: u64) {
    assert_answer_at(512, asked, expected);
}

/// The answer where so many bytes are handed in for the header.
#[track_caller]
fn assert_answer_at(header_size: usize, asked: NewHeader, expected: u64) {
    let writing = HeaderWriting { asked, header_size };
    assert_eq!(writing.check(String::new), expected, "{writing:?}");
}

#[test]
fn lengths() {
    for salt_size in [0, 63, 65, 256] {
        assert_answer(NewHeader { salt: vec![0x5A; salt_size], ..m() }, 1);
    }
    for keys_size in [0, 64, 255, 257] {
        assert_answer(NewHeader { keys: vec![0xC3; keys_size], ..m() }, 1);
    }
    for header_size in [0, 511, 513, 1_024] {
        assert_answer_at(header_size, m(), 1);
    }
    assert_answer(m(), 0);
}

#[test]
fn magics() {
    for magic in [b"VERa", b"TRU\0", b"true", b"AREV", b"\0\0\0\0"] {
        assert_answer(NewHeader { magic: *magic, ..m() }, 19);
    }
}

#[test]
fn codes() {
    for code in [4, 5, 255] {
        assert_answer(NewHeader { code, ..m() }, 2);
    }
    assert_answer(NewHeader { code: 2, ..m() }, 0);
    assert_answer(NewHeader { code: 3, ..n() }, 0);
}

#[test]
fn host_sizes() {
    for (host_size, expected) in [
        (262_144, 3),
        (262_655, 3),
        (262_656, 0),
        (262_657, 3),
        ((1 << 50) - 512, 0),
        (1 << 50, 0),
        ((1 << 50) + 512, 3),
        (u64::MAX, 3),
    ] {
        assert_answer(NewHeader { host_size, data_size: 512, ..m() }, expected);
    }
}

#[test]
fn versions() {
    for (magic, version, expected) in [
        (b"VERA", 1, 5),
        (b"VERA", 2, 0),
        (b"VERA", 5, 0),
        (b"VERA", 6, 5),
        (b"TRUE", 3, 5),
        (b"TRUE", 4, 0),
        (b"TRUE", 5, 0),
        (b"TRUE", 6, 5),
    ] {
        assert_answer(NewHeader { magic: *magic, version, ..m() }, expected);
    }
}

#[test]
fn standard_data_areas() {
    for (data_start, data_size, expected) in [
        (131_072, 0, 10),
        (131_072, 511, 10),
        (131_072, 512, 0),
        (131_072, 513, 10),
        (131_072, 786_944, 10),
        (131_072 - 512, 512, 10),
        (131_072 + 512, 512, 10),
        (131_072, 0u64.wrapping_sub(512), 10),
        (131_072, 0u64.wrapping_sub(131_072), 10),
    ] {
        assert_answer(NewHeader { data_start, data_size, ..m() }, expected);
    }
}

#[test]
fn hidden_data_areas() {
    for (data_start, data_size, expected) in [
        (655_360, 0, 10),
        (131_072 - 512, 512, 10),
        (131_072, 786_432, 0),
        (131_073, 512, 10),
        (917_504 - 512, 512, 0),
        (917_504, 512, 10),
        (655_360, 262_144 + 512, 10),
        (0u64.wrapping_sub(512), 1_024, 10),
        (655_360, 512u64.wrapping_sub(655_360), 10),
    ] {
        assert_answer(NewHeader { data_start, data_size, ..n() }, expected);
    }
}

/// The four sizes, those beside them, and those that would be one of the four in 32 bits.
#[test]
fn sector_sizes() {
    for sector_size in [512, 1_024, 2_048, 4_096] {
        assert_answer(NewHeader { sector_size, ..m() }, 0);
        assert_answer(NewHeader { sector_size, ..n() }, 0);
        assert_answer(NewHeader { sector_size: sector_size + (1 << 32), ..m() }, 8);
        for beside in [sector_size - 1, sector_size + 1, sector_size + 256, 3 * sector_size] {
            assert_answer(NewHeader { sector_size: beside, ..m() }, 8);
        }
    }
    for sector_size in [0, 1, 256, 8_192, 1 << 32, 1 << 63, 0u64.wrapping_sub(512), u64::MAX] {
        assert_answer(NewHeader { sector_size, ..m() }, 8);
        assert_answer(NewHeader { sector_size, ..n() }, 8);
    }
}

/// The host, the data area's start or its size is a multiple of 512, but not of the disk's sectors.
#[test]
fn parts_of_a_disks_sector() {
    for sector_size in [1_024, 2_048, 4_096] {
        let (m, n) = (NewHeader { sector_size, ..m() }, NewHeader { sector_size, ..n() });
        for part in [512, sector_size - 512] {
            assert_answer(NewHeader { host_size: HOST_SIZE + part, ..m.clone() }, 10);
            assert_answer(NewHeader { host_size: HOST_SIZE + part, ..n.clone() }, 10);
            assert_answer(NewHeader { data_size: m.data_size - part, ..m.clone() }, 10);
            assert_answer(NewHeader { data_size: n.data_size - part, ..n.clone() }, 10);
            assert_answer(NewHeader { data_start: n.data_start - part, ..n.clone() }, 10);
        }
        assert_answer(NewHeader { host_size: HOST_SIZE + sector_size, ..m.clone() }, 0);
        assert_answer(NewHeader { data_size: m.data_size - sector_size, ..m.clone() }, 0);
        assert_answer(NewHeader { data_start: n.data_start - sector_size, ..n.clone() }, 0);
    }
}

/// Each two rules that follow one another, broken at once: the earlier is the answer.
#[test]
fn two_broken_rules() {
    let keys = || vec![0xC3; 255];
    assert_answer(NewHeader { keys: keys(), magic: *b"VERa", ..m() }, 1);
    assert_answer(NewHeader { magic: *b"VERa", code: 4, ..m() }, 19);
    assert_answer(NewHeader { code: 4, host_size: HOST_SIZE + 1, ..m() }, 2);
    assert_answer(NewHeader { host_size: HOST_SIZE + 1, version: 6, ..m() }, 3);
    assert_answer(NewHeader { version: 6, sector_size: 0, ..m() }, 5);
    assert_answer(NewHeader { version: 6, data_size: 0, ..m() }, 5);
    assert_answer(NewHeader { sector_size: 513, data_size: 0, ..m() }, 8);
    assert_answer(NewHeader { keys: keys(), data_size: 0, ..m() }, 1);
}

/// All rules broken at once, and then one fewer each time, from the first on.
#[test]
fn every_rule_broken() {
    let asked =
        NewHeader { magic: *b"true", code: 4, host_size: 1, version: 6, data_size: 0, sector_size: 0, ..m() };
    assert_answer_at(511, asked.clone(), 1);
    assert_answer(asked.clone(), 19);
    let asked = NewHeader { magic: *b"TRUE", ..asked };
    assert_answer(asked.clone(), 2);
    let asked = NewHeader { code: 1, ..asked };
    assert_answer(asked.clone(), 3);
    let asked = NewHeader { host_size: HOST_SIZE, ..asked };
    assert_answer(asked.clone(), 5);
    let asked = NewHeader { version: 5, ..asked };
    assert_answer(asked.clone(), 8);
    let asked = NewHeader { sector_size: 512, ..asked };
    assert_answer(asked.clone(), 10);
    assert_answer(NewHeader { data_size: 512, ..asked }, 0);
}
