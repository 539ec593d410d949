//! Taking times: the contenders are run in turns, and the shortest turn of each counts. What is taken is the processor's time for this thread,
//! so that a turn is no longer because other work has come in between.

use std::time::{Duration, Instant};

/// A turn is at least so long, unless one call is longer.
const TURN: f64 = 0.001;
/// So many turns each in a pass over all cases, or fewer where they would take too long.
const TURNS: usize = 25;
const FEWEST_TURNS: usize = 2;
const LONGEST: Duration = Duration::from_millis(500);

/// Seconds a call of each contender.
pub fn shortest(calls: &mut [Box<dyn FnMut() + '_>]) -> Vec<f64> {
    let counts: Vec<u32> = calls.iter_mut().map(|call| calls_in_a_turn(call)).collect();
    let mut best = vec![f64::INFINITY; calls.len()];
    let begun = Instant::now();
    for turn in 0..TURNS {
        if FEWEST_TURNS <= turn && LONGEST < begun.elapsed() {
            break;
        }
        for ((call, &count), best) in calls.iter_mut().zip(&counts).zip(&mut best) {
            *best = best.min(turn_of(call, count) / f64::from(count));
        }
    }
    best
}

/// How many calls fill a turn, found by doubling.
fn calls_in_a_turn(call: &mut dyn FnMut()) -> u32 {
    let mut count = 1;
    while turn_of(call, count) < TURN {
        count *= 2;
    }
    count
}

fn turn_of(call: &mut dyn FnMut(), count: u32) -> f64 {
    let begun = thread_seconds();
    for _ in 0..count {
        call();
    }
    thread_seconds() - begun
}

/// C's `struct timespec`.
#[repr(C)]
struct TimeSpec {
    seconds: i64,
    nanoseconds: i64,
}

const CLOCK_THREAD_CPUTIME_ID: i32 = 3;

extern "C" {
    fn clock_gettime(clock: i32, time: *mut TimeSpec) -> i32;
}

/// The processor's time that this thread has had.
fn thread_seconds() -> f64 {
    let mut time = TimeSpec { seconds: 0, nanoseconds: 0 };
    // Safety: the time is there to be written.
    let status = unsafe { clock_gettime(CLOCK_THREAD_CPUTIME_ID, &mut time) };
    assert!(status == 0, "the machine has no clock for a thread");
    time.seconds as f64 + time.nanoseconds as f64 * 1e-9
}
