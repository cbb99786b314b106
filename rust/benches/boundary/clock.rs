//! The processor time of this thread. Unlike the time of day it stands still while another program has the
//! core.

use std::ffi::{c_int, c_long};
use std::time::Duration;

#[repr(C)]
struct Time {
    seconds: c_long,
    nanoseconds: c_long,
}

extern "C" {
    fn clock_gettime(clock: c_int, time: *mut Time) -> c_int;
}

// Linux's number for the clock.
const THREAD_CPUTIME: c_int = 3;

/// The processor time that this thread has used so far.
pub fn now() -> Duration {
    let mut time = Time { seconds: 0, nanoseconds: 0 };
    // SAFETY: the pointer is that of a struct timespec, as Linux has it on 64-bit processors.
    let answer = unsafe { clock_gettime(THREAD_CPUTIME, &mut time) };
    assert_eq!(answer, 0, "this system has no clock of a thread's processor time");
    Duration::new(time.seconds as u64, time.nanoseconds as u32)
}
