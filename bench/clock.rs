//! Time, as it is measured here.

#[repr(C)]
#[derive(Default)]
struct Timespec {
    seconds: i64,
    nanoseconds: i64,
}

extern "C" {
    fn clock_gettime(clock: i32, time: *mut Timespec) -> i32;
}

/// This thread's processor time in seconds: what else the machine does counts least so.
fn now() -> f64 {
    const CLOCK_THREAD_CPUTIME_ID: i32 = 3;
    let mut time = Timespec::default();
    assert_eq!(unsafe { clock_gettime(CLOCK_THREAD_CPUTIME_ID, &mut time) }, 0);
    time.seconds as f64 + time.nanoseconds as f64 * 1e-9
}

/// The best time of so many runs, in seconds.
pub fn best(repeats: usize, mut run: impl FnMut()) -> f64 {
    let once = |_| {
        let began = now();
        run();
        now() - began
    };
    (0..repeats).map(once).fold(f64::INFINITY, f64::min)
}
