//! Thread CPU time, and runs that take turns.

#[repr(C)]
struct Timespec {
    seconds: i64,
    nanoseconds: i64,
}

extern "C" {
    fn clock_gettime(clock: i32, at: *mut Timespec) -> i32;
}

const CLOCK_THREAD_CPUTIME_ID: i32 = 3;
/// Each run is made so often; the table has the minimum and the median.
pub const ROUNDS: usize = 9;
/// A run shorter than this is repeated within one measurement.
const LONG_ENOUGH: f64 = 1e-3;

/// CPU seconds of this thread: what other processes take is not counted.
fn cpu() -> f64 {
    let mut at = Timespec { seconds: 0, nanoseconds: 0 };
    assert_eq!(unsafe { clock_gettime(CLOCK_THREAD_CPUTIME_ID, &mut at) }, 0);
    at.seconds as f64 + at.nanoseconds as f64 * 1e-9
}

/// Seconds of one call, taken over `repeats` of them.
pub fn timed<R>(repeats: usize, mut call: impl FnMut() -> R) -> f64 {
    let began = cpu();
    for _ in 0..repeats {
        std::hint::black_box(call());
    }
    (cpu() - began) / repeats as f64
}

/// Seconds of a call that can be made once only, with its answer: dropping it is not counted.
pub fn timed_once<R>(call: impl FnOnce() -> R) -> (f64, R) {
    let began = cpu();
    let answer = call();
    (cpu() - began, answer)
}

/// How often a call is to be repeated within one measurement.
pub fn repeats<R>(call: impl FnMut() -> R) -> usize {
    (LONG_ENOUGH / timed(1, call)).ceil().clamp(1.0, 500.0) as usize
}

/// The seconds of a run in each round, and their minimum and median.
#[derive(Clone, Copy)]
pub struct Times {
    rounds: [f64; ROUNDS],
    pub min: f64,
    pub median: f64,
}

impl Times {
    fn new(rounds: [f64; ROUNDS]) -> Self {
        let mut sorted = rounds;
        sorted.sort_by(f64::total_cmp);
        Times { rounds, min: sorted[0], median: sorted[ROUNDS / 2] }
    }

    /// How many times longer this took than another run of the same race.
    pub fn over(&self, other: &Times) -> Ratio {
        let rounds = Times::new(std::array::from_fn(|i| self.rounds[i] / other.rounds[i]));
        Ratio { min: self.min / other.min, median: self.median / other.median, by_round: rounds.median }
    }
}

/// By the minima; by the medians; and the median of the ratios within a round, which the machine's pace disturbs least.
#[derive(Clone, Copy)]
pub struct Ratio {
    pub min: f64,
    pub median: f64,
    pub by_round: f64,
}

/// Measures every run in each of the rounds, so that a change of the machine's pace meets all of them. A run returns its seconds.
pub fn race(runs: &mut [&mut dyn FnMut() -> f64]) -> Vec<Times> {
    let mut rounds = vec![[0.0; ROUNDS]; runs.len()];
    for round in 0..ROUNDS {
        for (run, list) in runs.iter_mut().zip(&mut rounds) {
            list[round] = run();
        }
    }
    rounds.into_iter().map(Times::new).collect()
}
