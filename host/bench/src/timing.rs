//! The thread's own time, and how samples of it are told.

use std::time::Duration;

/// Long enough that the clock's own grain does not show.
pub const SAMPLE: Duration = Duration::from_millis(2);
pub const DEFAULT_ROUNDS: usize = 41;

/// As C's `struct timespec` has it on 64-bit Linux.
#[repr(C)]
struct Taken {
    seconds: i64,
    nanoseconds: i64,
}

const THREAD_TIME: i32 = 3; // CLOCK_THREAD_CPUTIME_ID

extern "C" {
    fn clock_gettime(which: i32, taken: *mut Taken) -> i32;
}

/// The processor's time for this thread so far: what else the machine runs does not count.
pub fn thread_time() -> Duration {
    let mut taken = Taken { seconds: 0, nanoseconds: 0 };
    // SAFETY: it writes one `timespec`, and keeps nothing
    assert_eq!(unsafe { clock_gettime(THREAD_TIME, &mut taken) }, 0);
    Duration::new(taken.seconds as u64, taken.nanoseconds as u32)
}

/// Least, median and most.
fn spread(mut values: Vec<f64>) -> [f64; 3] {
    values.sort_by(f64::total_cmp);
    [values[0], values[values.len() / 2], values[values.len() - 1]]
}

pub fn columns(values: Vec<f64>) -> String {
    let [least, median, most] = spread(values);
    format!("{median:.2} ({least:.2} to {most:.2})")
}
