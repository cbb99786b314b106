//! What the standard library lacks of the system: advisory locks, and signals that only leave a mark.

use std::ffi::c_int;
use std::fs::File;
use std::io;
use std::os::fd::AsRawFd;
use std::sync::atomic::{AtomicBool, Ordering};

#[cfg(not(all(target_os = "linux", target_pointer_width = "64")))]
compile_error!("the types and constants of system.rs are those of 64-bit Linux");

/// As a flag of an open block device: refused with `EBUSY` while the device is mounted or otherwise held.
pub const O_EXCL: c_int = 0o200;
pub const EBUSY: c_int = 16;

const LOCK_SH: c_int = 1;
const LOCK_EX: c_int = 2;
const LOCK_NB: c_int = 4;

const SIGHUP: c_int = 1;
const SIGINT: c_int = 2;
const SIGTERM: c_int = 15;
const SIG_IGN: usize = 1;

extern "C" {
    fn flock(fd: c_int, operation: c_int) -> c_int;
    fn signal(number: c_int, handler: usize) -> usize;
}

/// Locks a file against other copies of this program, and all programs that ask for such locks: alone, or
/// shared with others that only read. It does not wait. The lock ends when the file is closed.
///
/// `File::try_lock` does the same since Rust 1.89.
pub fn lock(file: &File, alone: bool) -> io::Result<()> {
    let operation = if alone { LOCK_EX } else { LOCK_SH };
    // SAFETY: the call takes two numbers, and the file is open.
    match unsafe { flock(file.as_raw_fd(), operation | LOCK_NB) } {
        0 => Ok(()),
        _ => Err(io::Error::last_os_error()),
    }
}

static CAUGHT: AtomicBool = AtomicBool::new(false);

extern "C" fn catch(_number: c_int) {
    CAUGHT.store(true, Ordering::Relaxed);
}

/// From now on a hang-up, Ctrl-C or a request to end does not end the program, but is told by `caught`. One
/// that the program was started to ignore, as `nohup` has it, stays ignored.
pub fn catch_signals() {
    for number in [SIGHUP, SIGINT, SIGTERM] {
        // SAFETY: the handler does nothing but store into an atomic, which a handler may do at any time.
        let earlier = unsafe { signal(number, catch as extern "C" fn(c_int) as usize) };
        if earlier == SIG_IGN {
            // SAFETY: this only restores what was set before.
            unsafe { signal(number, SIG_IGN) };
        }
    }
}

/// Whether a signal came since `catch_signals`.
pub fn caught() -> bool {
    CAUGHT.load(Ordering::Relaxed)
}
