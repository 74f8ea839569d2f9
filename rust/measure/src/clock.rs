//! CPU time of this thread, and rounds in which every contender has its turn.

#[repr(C)]
struct Timespec {
    seconds: i64,
    nanoseconds: i64,
}

extern "C" {
    fn clock_gettime(clock: i32, time: *mut Timespec) -> i32;
}

/// Nanoseconds of CPU time that this thread has used.
pub fn now() -> f64 {
    const THREAD_CPUTIME: i32 = 3;
    let mut t = Timespec { seconds: 0, nanoseconds: 0 };
    // SAFETY: the structure is what 64-bit Linux asks for.
    assert_eq!(unsafe { clock_gettime(THREAD_CPUTIME, &mut t) }, 0);
    t.seconds as f64 * 1e9 + t.nanoseconds as f64
}

/// The times of one contender, in nanoseconds a call, one for each round.
pub type Runs = Vec<f64>;

pub fn median(runs: &[f64]) -> f64 {
    let mut sorted = runs.to_vec();
    sorted.sort_by(f64::total_cmp);
    sorted[sorted.len() / 2]
}

/// Times the contenders in turn, `rounds` times; a turn repeats a short call until it has lasted long enough for the clock.
pub fn race(rounds: usize, mut contenders: Vec<Option<Box<dyn FnMut() + '_>>>) -> Vec<Option<Runs>> {
    const TURN: f64 = 1e6;
    let mut repeats = vec![1usize; contenders.len()];
    for (i, c) in contenders.iter_mut().enumerate() {
        if let Some(f) = c {
            f();
            let start = now();
            f();
            repeats[i] = (TURN / (now() - start).max(50.0)).ceil() as usize;
        }
    }
    let mut runs: Vec<Option<Runs>> = contenders.iter().map(|c| c.as_ref().map(|_| vec![])).collect();
    for _ in 0..rounds {
        for (i, c) in contenders.iter_mut().enumerate() {
            if let (Some(f), Some(r)) = (c, &mut runs[i]) {
                let start = now();
                for _ in 0..repeats[i] {
                    f();
                }
                r.push((now() - start) / repeats[i] as f64);
            }
        }
    }
    runs
}
