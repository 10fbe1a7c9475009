//! The CPU time of this process.

use std::time::Duration;

#[repr(C)]
struct Timespec {
    seconds: i64,
    nanoseconds: i64,
}

/// The clock of POSIX that counts the CPU time of the process (its number on Linux).
const PROCESS_CPU_TIME: i32 = 2;

extern "C" {
    fn clock_gettime(clock: i32, time: *mut Timespec) -> i32;
}

/// The CPU time spent so far.
pub fn now() -> Duration {
    let mut time = Timespec {
        seconds: 0,
        nanoseconds: 0,
    };
    // SAFETY: the pointer is to a `timespec` of the C library's layout that lives through the call.
    let failed = unsafe { clock_gettime(PROCESS_CPU_TIME, &mut time) };
    assert_eq!(failed, 0, "no CPU clock");
    Duration::new(time.seconds as u64, time.nanoseconds as u32)
}

/// The CPU time that a task takes.
pub fn time(task: impl FnOnce()) -> Duration {
    let start = now();
    task();
    now() - start
}
