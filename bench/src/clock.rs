//! The CPU time of this process.

#[repr(C)]
struct Timespec {
    seconds: i64,
    nanoseconds: i64,
}

/// CLOCK_PROCESS_CPUTIME_ID of Linux
const PROCESS_CPU: i32 = 2;

extern "C" {
    fn clock_gettime(clock: i32, time: *mut Timespec) -> i32;
}

/// Nanoseconds of CPU that this process has used.
pub fn cpu() -> f64 {
    let mut time = Timespec {
        seconds: 0,
        nanoseconds: 0,
    };
    // the pointer is to a value of C's struct timespec on 64-bit Linux
    let failed = unsafe { clock_gettime(PROCESS_CPU, &mut time) };
    assert_eq!(failed, 0, "no CPU clock");
    time.seconds as f64 * 1e9 + time.nanoseconds as f64
}
