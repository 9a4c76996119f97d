//! The processor time of this thread, which doesn't count what other programs take meanwhile.
#![allow(unsafe_code)]

/// A time as Linux on x86-64 gives it.
#[repr(C)]
struct Timespec {
    seconds: i64,
    nanoseconds: i64,
}

/// The number of the clock of a thread's processor time on Linux.
const THREAD_CPUTIME: i32 = 3;

extern "C" {
    fn clock_gettime(clock: i32, time: *mut Timespec) -> i32;
}

/// Seconds that this thread has had of the processor.
pub fn cpu_seconds() -> f64 {
    let mut time = Timespec { seconds: 0, nanoseconds: 0 };
    // SAFETY: the C library, which std links too, writes one timespec.
    let status = unsafe { clock_gettime(THREAD_CPUTIME, &mut time) };
    assert_eq!(status, 0, "a thread has its clock");
    time.seconds as f64 + time.nanoseconds as f64 * 1e-9
}

#[cfg(test)]
mod tests {
    use super::*;
    use std::thread::sleep;
    use std::time::Duration;

    #[test]
    fn sleep_takes_no_processor() {
        let start = cpu_seconds();
        sleep(Duration::from_millis(50));
        assert!((0.0..0.02).contains(&(cpu_seconds() - start)));
    }
}
