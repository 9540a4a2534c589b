// The time that measurements go by: the processor time of this thread, so that what other programs do meanwhile does not count.
extern "C" {
    fn clock_gettime(clock: i32, time: *mut [i64; 2]) -> i32;
}

/// Linux's number of the clock of a thread's processor time.
const THREAD_CPUTIME: i32 = 3;

fn now() -> f64 {
    let mut time = [0; 2];
    assert_eq!(unsafe { clock_gettime(THREAD_CPUTIME, &mut time) }, 0);
    time[0] as f64 + time[1] as f64 / 1e9
}

/// How many seconds f takes.
pub fn seconds(f: impl FnOnce()) -> f64 {
    let t = now();
    f();
    now() - t
}
