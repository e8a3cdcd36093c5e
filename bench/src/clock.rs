//! Processor time of the thread, so that other programs on the machine count as little as they can.

extern "C" {
    fn clock_gettime(clock: i32, time: *mut [i64; 2]) -> i32;
}

/// The processor time of this thread in nanoseconds.
pub fn now() -> f64 {
    const THREAD: i32 = 3;
    let mut time = [0i64; 2];
    // The C library writes two 64-bit numbers, seconds and nanoseconds.
    let status = unsafe { clock_gettime(THREAD, &mut time) };
    assert_eq!(status, 0, "no clock");
    time[0] as f64 * 1e9 + time[1] as f64
}

/// Nanoseconds of one of so many calls.
pub fn time(calls: u32, mut run: impl FnMut()) -> f64 {
    let start = now();
    for _ in 0..calls {
        run();
    }
    (now() - start) / f64::from(calls)
}

pub fn median(times: &mut [f64]) -> f64 {
    times.sort_by(f64::total_cmp);
    times[times.len() / 2]
}

pub fn least(times: &[f64]) -> f64 {
    times.iter().copied().fold(f64::INFINITY, f64::min)
}
