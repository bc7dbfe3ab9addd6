//! The processor time of this thread, so that other work on the machine counts less.

// Of the C library, which std links.
unsafe extern "C" {
    fn clock_gettime(clock: i32, time: *mut [i64; 2]) -> i32;
}

/// Linux's number of the clock.
const THREAD_CPUTIME: i32 = 3;

pub fn seconds() -> f64 {
    let mut time = [0; 2];
    // SAFETY: a timespec is two numbers of 64 bits on x86-64 Linux.
    let failed = unsafe { clock_gettime(THREAD_CPUTIME, &mut time) };
    assert_eq!(failed, 0, "the clock of this thread");
    time[0] as f64 + time[1] as f64 * 1e-9
}
