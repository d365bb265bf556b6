//! The quickest of some rounds, in microseconds: others on the machine disturb some rounds, and not all of them.

extern "C" {
    fn clock_gettime(clock: i32, time: &mut [i64; 2]) -> i32;
}

/// A steady clock. This thread's own, on a machine that is shared, at times stood still while the thread ran.
const STEADY: i32 = 4;
/// Rounds go on for so many nanoseconds, so that one of them is not disturbed.
const LONG_ENOUGH: u64 = 100_000_000;
const FEWEST: usize = 5;

/// Nanoseconds.
pub fn now() -> u64 {
    let mut time = [0; 2];
    // SAFETY: the reference is to two words of our own, as a 64-bit Linux has them.
    let code = unsafe { clock_gettime(STEADY, &mut time) };
    assert_eq!(code, 0, "the steady clock");
    time[0] as u64 * 1_000_000_000 + time[1] as u64
}

/// One way to do the work: what is made ready before the clock starts, and what is timed.
pub struct Way<'a> {
    pub prepare: Box<dyn FnMut() + 'a>,
    pub run: Box<dyn FnMut() + 'a>,
}

/// Nothing is to be made ready.
pub fn at_once<'a>(run: impl FnMut() + 'a) -> Way<'a> {
    Way { prepare: Box::new(|| ()), run: Box::new(run) }
}

/// All ways in turn, so that they meet the same machine; each round begins with another, so that none is always the first.
pub fn quickest<const N: usize>(mut ways: [Way; N]) -> [f64; N] {
    let mut best = [f64::INFINITY; N];
    let first = now();
    let mut rounds = 0;
    while rounds < FEWEST || now() - first < LONG_ENOUGH * N as u64 {
        for turn in 0..N {
            let i = (rounds + turn) % N;
            (ways[i].prepare)();
            let start = now();
            (ways[i].run)();
            best[i] = best[i].min((now() - start) as f64 / 1000.0);
        }
        rounds += 1;
    }
    best
}
