//! The time since the machine started, suspension counted.

use std::ffi::c_int;

#[repr(C)]
struct Timespec {
    seconds: i64,
    nanoseconds: i64,
}

extern "C" {
    fn clock_gettime(clock: c_int, time: *mut Timespec) -> c_int;
}

/// Linux's clock that goes on while the machine is suspended; that of `Instant` stops.
const BOOTTIME: c_int = 7;

/// Milliseconds since the machine started.
///
/// # Panics
/// Where there is no such clock: without it there is no lease.
pub fn now() -> u64 {
    let mut time = Timespec {
        seconds: 0,
        nanoseconds: 0,
    };
    // SAFETY: the call stores one `timespec`, which on 64-bit Linux is two 64-bit numbers.
    let done = unsafe { clock_gettime(BOOTTIME, &mut time) };
    assert_eq!(done, 0, "no clock that counts suspension");
    time.seconds as u64 * 1000 + time.nanoseconds as u64 / 1_000_000
}
