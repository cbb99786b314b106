//! The time of one call. Programs that do the same work take turns, a batch of calls each, so that the
//! machine's noise meets all of them alike.

use std::time::Duration;

use crate::clock;

/// Batches of each program.
pub const BATCHES: usize = 51;

/// At least so long takes a batch.
pub const BATCH_TIME: Duration = Duration::from_millis(2);

/// A program under measurement: it does its work on the inputs, so many times.
pub type Program<Inputs> = fn(&mut Inputs, u64);

/// Nanoseconds of one call: the median and the minimum over the batches.
#[derive(Clone, Copy)]
pub struct Timing {
    pub median: f64,
    pub minimum: f64,
}

/// The timing of each program, in their order. All are warmed up first.
pub fn take_turns<Inputs: ?Sized, const N: usize>(
    inputs: &mut Inputs,
    programs: [Program<Inputs>; N],
) -> [Timing; N] {
    let calls = programs.map(|program| calls_in_batch(inputs, program));
    let mut batches = programs.map(|_| Vec::with_capacity(BATCHES));
    for _ in 0..BATCHES {
        for ((program, calls), times) in programs.iter().zip(calls).zip(&mut batches) {
            times.push(batch(inputs, *program, calls).as_nanos() as f64 / calls as f64);
        }
    }
    batches.map(timing)
}

// The best of three tells, so that an interruption does not make the batches short.
fn calls_in_batch<Inputs: ?Sized>(inputs: &mut Inputs, program: Program<Inputs>) -> u64 {
    let mut calls = 1;
    while (0..3).any(|_| batch(inputs, program, calls) < BATCH_TIME) {
        calls *= 2;
    }
    calls
}

fn batch<Inputs: ?Sized>(inputs: &mut Inputs, program: Program<Inputs>, calls: u64) -> Duration {
    let start = clock::now();
    program(inputs, calls);
    clock::now() - start
}

fn timing(mut times: Vec<f64>) -> Timing {
    times.sort_by(f64::total_cmp);
    Timing { median: times[times.len() / 2], minimum: times[0] }
}
