//! Opening 64 candidates, against a straightforward Rust program.

use std::hint::black_box;

use ondristela::raw;
use ondristela::MAX_CANDIDATES;

use crate::headers::{self, Header, HOST_SIZE};
use crate::random::Random;
use crate::report::{Report, Row};
use crate::timing::take_turns;
use crate::{agreement, peer};

struct Inputs {
    candidates: Vec<u8>,
    codes: Vec<u8>,
}

/// Measures openings of 64 candidates.
pub fn measure(report: &mut Report) {
    agreement::check();
    report.section("Opening 64 candidates");
    let mut random = Random::new();
    let last = MAX_CANDIDATES - 1;
    measure_case(report, "no magic", 4, |_| headers::no_header(&mut random));
    measure_case(report, "headers, refused", 10, |_| headers::refused(&mut random));
    measure_case(report, "last accepted", 0, |index| {
        if index < last {
            headers::no_header(&mut random)
        } else {
            headers::accepted(&mut random)
        }
    });
}

fn measure_case(report: &mut Report, case: &str, answer: u64, header: impl FnMut(usize) -> Header) {
    let candidates = (0..MAX_CANDIDATES).map(header).collect::<Vec<_>>().concat();
    let mut inputs = Inputs { candidates, codes: vec![0; MAX_CANDIDATES] };
    agreement::check_opening(&inputs.candidates, &inputs.codes, HOST_SIZE);
    assert_eq!(raw::open(&inputs.candidates, &inputs.codes, HOST_SIZE, &mut [0; 9]), answer);
    let [ours, peer] = take_turns(&mut inputs, [open_ours, open_peer]);
    report.add(Row {
        series: "opening",
        operation: "open",
        case: case.to_owned(),
        bytes: inputs.candidates.len(),
        image_size: 0,
        ours,
        peer_name: "Rust program",
        peer,
    });
}

fn open_ours(inputs: &mut Inputs, calls: u64) {
    for _ in 0..calls {
        let Inputs { candidates, codes } = black_box(&*inputs);
        let mut layout = [0; 9];
        black_box(raw::open(candidates, codes, black_box(HOST_SIZE), &mut layout));
        black_box(&layout);
    }
}

fn open_peer(inputs: &mut Inputs, calls: u64) {
    for _ in 0..calls {
        let Inputs { candidates, codes } = black_box(&*inputs);
        let _ = black_box(peer::open(candidates, codes, black_box(HOST_SIZE)));
    }
}
