// Processor time of rounds: what other programs take is not in it. Taken in turns, so that a busy machine slows each alike.
use std::hint::black_box;

const TRIES: usize = 15;
const TRY: f64 = 2e6;

// Rounds of some work; what it answers keeps the work from being left out.
pub type Work<'a> = &'a mut dyn FnMut(u32) -> u64;

#[repr(C)]
struct Timespec {
    seconds: i64,
    nanoseconds: i64,
}

unsafe extern "C" {
    fn clock_gettime(clock: i32, now: *mut Timespec) -> i32;
}

// Linux's number for the processor time of the calling thread.
const THREAD: i32 = 3;

fn now() -> f64 {
    let mut now = Timespec { seconds: 0, nanoseconds: 0 };
    // The pointer is that of a live Timespec.
    let answer = unsafe { clock_gettime(THREAD, &mut now) };
    assert!(answer == 0, "this machine does not tell processor time");
    now.seconds as f64 * 1e9 + now.nanoseconds as f64
}

fn time(work: Work, rounds: u32) -> f64 {
    let start = now();
    black_box(work(rounds));
    now() - start
}

// How many rounds take about two milliseconds.
fn rounds_of(work: Work) -> u32 {
    let mut rounds = 1;
    loop {
        let taken = time(work, rounds);
        if taken > TRY / 8.0 {
            return ((TRY / taken * f64::from(rounds)) as u32).max(1);
        }
        rounds *= 2;
    }
}

// The least nanoseconds of a round of each; what a call with no rounds takes is left out.
pub fn least<const N: usize>(mut works: [Work; N]) -> [f64; N] {
    let rounds: [u32; N] = std::array::from_fn(|k| rounds_of(works[k]));
    let (mut idle, mut best) = ([f64::MAX; N], [f64::MAX; N]);
    for _ in 0..TRIES {
        for k in 0..N {
            idle[k] = idle[k].min(time(works[k], 0));
            best[k] = best[k].min(time(works[k], rounds[k]));
        }
    }
    std::array::from_fn(|k| (best[k] - idle[k]).max(0.0) / f64::from(rounds[k]))
}
