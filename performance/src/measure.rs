//! The least time of many runs. Library and prototype take turns, so that a busy moment of the machine does not fall
//! on one of them alone.

use std::hint::black_box;
use std::time::{Duration, Instant};

const TURNS: usize = 4;
/// How long a program is run in a turn, and how long between two looks at the clock, if a run is not slower.
const TURN: Duration = Duration::from_millis(3);
const BATCH: Duration = Duration::from_micros(20);

/// Microseconds of the library and, if it has the call, of the prototype.
#[derive(Clone, Copy)]
pub struct Times {
    pub library: f64,
    pub prototype: Option<f64>,
}

impl Times {
    pub fn least(self, other: Times) -> Times {
        let prototype = self.prototype.zip(other.prototype).map(|(one, other)| one.min(other));
        Times { library: self.library.min(other.library), prototype }
    }
}

/// The least times over some turns.
pub fn in_turns(library: impl Fn() -> f64, prototype: Option<impl Fn() -> f64>) -> Times {
    let turn = || Times { library: library(), prototype: prototype.as_ref().map(|run| run()) };
    (1..TURNS).fold(turn(), |least, _| least.least(turn()))
}

/// The least time of a run in microseconds. What is made ready before a run is not counted.
pub fn least_after<T>(state: &mut T, ready: impl Fn(&mut T), run: impl Fn(&mut T) -> u64) -> f64 {
    let began = Instant::now();
    let mut least = Duration::MAX;
    while least == Duration::MAX || began.elapsed() < TURN {
        ready(state);
        let start = Instant::now();
        black_box(run(black_box(state)));
        least = least.min(start.elapsed());
    }
    least.as_secs_f64() * 1e6
}

/// The least time of a run that changes nothing, in microseconds, from batches that are long against a look at the
/// clock.
pub fn least(run: impl Fn() -> u64) -> f64 {
    let began = Instant::now();
    black_box(run());
    let batch = (BATCH.as_nanos() / began.elapsed().as_nanos().max(1)).clamp(1, 1000) as u32;
    let repeated = |_: &mut ()| (0..batch).fold(0, |_, _| black_box(run()));
    least_after(&mut (), |_| (), repeated) / f64::from(batch)
}
