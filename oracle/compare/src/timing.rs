//! The least time that a call takes: processor time of this thread, so that other
//! work on the machine counts little. What a call gives back is freed outside the
//! time.

use std::hint::black_box;

/// Nanoseconds of a call, over samples of 0.2 ms or one call each, for about a
/// second and at least five.
pub fn least_time<T>(mut call: impl FnMut() -> T) -> f64 {
    let once = sample(&mut call, 1);
    let calls = (200_000 / once.max(1)).clamp(1, 200);
    let samples = (1_000_000_000 / (once * calls).max(1)).clamp(5, 4000);
    least_of(samples, calls, call)
}

/// Nanoseconds of a call, over as many samples of so many calls.
pub fn least_of<T>(samples: u64, calls: u64, mut call: impl FnMut() -> T) -> f64 {
    let least = (0..samples).map(|_| sample(&mut call, calls)).min();
    least.expect("a sample") as f64 / calls as f64
}

/// Nanoseconds of so many calls.
fn sample<T>(call: &mut impl FnMut() -> T, calls: u64) -> u64 {
    let mut results = Vec::with_capacity(calls as usize);
    let start = thread_time();
    for _ in 0..calls {
        results.push(black_box(call()));
    }
    thread_time() - start
}

#[repr(C)]
struct TimeSpec {
    seconds: i64,
    nanoseconds: i64,
}

extern "C" {
    fn clock_gettime(clock: i32, time: *mut TimeSpec) -> i32;
}

/// Processor time of this thread, in nanoseconds.
fn thread_time() -> u64 {
    const THREAD_CLOCK: i32 = 3;
    let mut time = TimeSpec { seconds: 0, nanoseconds: 0 };
    // The C library writes the two numbers of x86-64 Linux's timespec.
    let failed = unsafe { clock_gettime(THREAD_CLOCK, &mut time) };
    assert_eq!(failed, 0, "a clock for threads");
    time.seconds as u64 * 1_000_000_000 + time.nanoseconds as u64
}
