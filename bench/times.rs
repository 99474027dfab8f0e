//! Times of calls, made in turn in one run, so that their ratios hold on a busy or an emulated machine too.

use crate::fail;
use std::ptr;

/// One call with all that it needs; what it gives is put into a number.
pub type Call = dyn FnMut() -> u64;

/// A time is the least of so many rounds, each of which takes about so many nanoseconds.
const ROUNDS: usize = 60;
const ROUND: f64 = 250_000.0;

/// Nanoseconds that each of the calls takes, all of them in turn in every round.
pub fn least(calls: &mut [&mut Call]) -> Vec<f64> {
    let counts: Vec<usize> = calls.iter_mut().map(|call| count(*call)).collect();
    let mut least = vec![f64::MAX; calls.len()];
    for _ in 0..ROUNDS {
        for (place, call) in calls.iter_mut().enumerate() {
            least[place] = least[place].min(round(*call, counts[place]));
        }
    }
    least
}

/// How many calls make a round.
fn count(call: &mut Call) -> usize {
    let mut count = 1;
    while count < 1 << 16 && round(call, count) * (count as f64) < ROUND {
        count *= 2;
    }
    count
}

/// Nanoseconds a call, of so many made one after another.
fn round(call: &mut Call, count: usize) -> f64 {
    let start = now();
    for _ in 0..count {
        hide(call());
    }
    (now() - start) as f64 / count as f64
}

#[repr(C)]
struct Time {
    seconds: i64,
    nanoseconds: i64,
}

/// The clock of a thread's own processor time, which stands still while others run.
const THREAD_CLOCK: i32 = 3;

extern "C" {
    fn clock_gettime(clock: i32, time: *mut Time) -> i32;
}

fn now() -> i64 {
    let mut time = Time { seconds: 0, nanoseconds: 0 };
    // SAFETY: the struct is libc's timespec.
    if unsafe { clock_gettime(THREAD_CLOCK, &mut time) } != 0 {
        fail("no clock");
    }
    1_000_000_000 * time.seconds + time.nanoseconds
}

/// The same value, of which the compiler knows nothing any more: it can leave out no call and make none before its time.
pub fn hide<T: Copy>(value: T) -> T {
    // SAFETY: a reference to a value that can be copied.
    unsafe { ptr::read_volatile(&value) }
}
