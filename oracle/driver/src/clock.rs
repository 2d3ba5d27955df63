//! The processor time that this thread has used. Other programs on the machine don't count, as they would on a wall clock.

use std::ffi::c_int;
use std::time::Duration;

#[repr(C)]
struct Timespec {
    seconds: i64,
    nanoseconds: i64,
}

unsafe extern "C" {
    fn clock_gettime(clock: c_int, time: *mut Timespec) -> c_int;
}

/// Linux's CLOCK_THREAD_CPUTIME_ID.
const THREAD: c_int = 3;

pub fn now() -> Duration {
    let mut time = Timespec {
        seconds: 0,
        nanoseconds: 0,
    };
    // SAFETY: on 64-bit Linux this is C's struct timespec, and it outlives the call.
    let status = unsafe { clock_gettime(THREAD, &raw mut time) };
    assert_eq!(status, 0, "this thread has a clock");
    Duration::new(time.seconds as u64, time.nanoseconds as u32)
}
