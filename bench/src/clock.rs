//! The processor time of this thread: other work on the machine doesn't count.

use std::time::Duration;

#[repr(C)]
struct Timespec {
    seconds: i64,
    nanoseconds: i64,
}

const CLOCK_THREAD_CPUTIME_ID: i32 = 3;

extern "C" {
    fn clock_gettime(clock: i32, time: *mut Timespec) -> i32;
}

/// The processor time that this thread has used so far.
pub fn used() -> Duration {
    let mut time = Timespec { seconds: 0, nanoseconds: 0 };
    // SAFETY: `time` is laid out as the 64-bit system's timespec and lives through the call.
    let failed = unsafe { clock_gettime(CLOCK_THREAD_CPUTIME_ID, &mut time) };
    assert_eq!(failed, 0, "no clock of the thread's processor time");
    Duration::new(time.seconds as u64, time.nanoseconds as u32)
}

/// The processor time that this work takes.
pub fn time_of(work: impl FnOnce()) -> Duration {
    let before = used();
    work();
    used() - before
}
