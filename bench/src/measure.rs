//! Timing contestants in turn.

/// How often each contestant is timed.
pub const ROUNDS: usize = 25;

/// A contestant is timed over as many calls as take this many seconds.
const BATCH: f64 = 0.004;

/// Seconds per call of each contestant: the best of the rounds. In each round every contestant has its
/// turn, so that what else the machine does befalls all.
pub fn best_of_rounds(contestants: &mut [&mut dyn FnMut()]) -> Vec<f64> {
    let calls: Vec<u32> = contestants
        .iter_mut()
        .map(|contestant| calls_in_a_batch(*contestant))
        .collect();
    let mut best = vec![f64::INFINITY; contestants.len()];
    for _ in 0..ROUNDS {
        for (at, contestant) in contestants.iter_mut().enumerate() {
            let seconds = time(*contestant, calls[at]) / f64::from(calls[at]);
            best[at] = best[at].min(seconds);
        }
    }
    best
}

fn calls_in_a_batch(contestant: &mut dyn FnMut()) -> u32 {
    let mut calls = 1;
    while time(contestant, calls) < BATCH {
        calls *= 2;
    }
    calls
}

fn time(contestant: &mut dyn FnMut(), calls: u32) -> f64 {
    let start = thread_seconds();
    for _ in 0..calls {
        contestant();
    }
    thread_seconds() - start
}

/// `struct timespec` of 64-bit Linux.
#[repr(C)]
struct Timespec {
    seconds: i64,
    nanoseconds: i64,
}

const CLOCK_THREAD_CPUTIME_ID: i32 = 3;

extern "C" {
    fn clock_gettime(clock: i32, time: *mut Timespec) -> i32;
}

/// The processor time of this thread: what other programs take does not count.
fn thread_seconds() -> f64 {
    let mut time = Timespec {
        seconds: 0,
        nanoseconds: 0,
    };
    // The pointer is valid for one timespec; this clock is always there on Linux.
    unsafe { clock_gettime(CLOCK_THREAD_CPUTIME_ID, &mut time) };
    time.seconds as f64 + time.nanoseconds as f64 * 1e-9
}
