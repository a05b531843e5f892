//! Times taken in turns.

use std::hint::black_box;
use std::time::{Duration, Instant};

/// How often each has its turn.
const ROUNDS: usize = 25;
/// How long a turn is, one span at least; and about how many nanoseconds a span of it that is timed by itself, one call at least.
const TURN: Duration = Duration::from_millis(10);
const SPAN: f64 = 200_000.0;

/// Nanoseconds for one call.
pub fn round<T>(calls: usize, mut f: impl FnMut() -> T) -> f64 {
    let began = Instant::now();
    for _ in 0..calls {
        black_box(f());
    }
    began.elapsed().as_nanos() as f64 / calls as f64
}

/// The same work by each: the proved library, the second translator and, where it was linked, C.
pub struct By<S> {
    pub proved: fn(&mut S),
    pub second: fn(&mut S),
    pub c: fn(&mut S),
}

/// The least nanoseconds for one call by each; none of C where it was not linked.
pub struct Times {
    pub proved: f64,
    pub second: f64,
    pub c: Option<f64>,
}

impl Times {
    /// How many times as long as C the proved library takes.
    pub fn ratio(&self) -> Option<f64> {
        Some(self.proved / self.c?)
    }
}

/// One who has turns: calls in a span, and the least time so far.
struct Turns<S> {
    run: fn(&mut S),
    calls: usize,
    least: f64,
}

impl<S> Turns<S> {
    fn new(run: fn(&mut S), state: &mut S) -> Turns<S> {
        let calls = (SPAN / round(3, || run(state))).ceil() as usize;
        Turns { run, calls, least: f64::INFINITY }
    }

    /// Spans one right after the other: in the first ones the processor learns the branches again that it forgot in the others' turns, and
    /// a short one is seldom disturbed.
    fn take(&mut self, state: &mut S) {
        let began = Instant::now();
        while began.elapsed() < TURN {
            self.least = self.least.min(round(self.calls, || (self.run)(state)));
        }
    }
}

/// All take turns on the same state, many times, and the least time of each counts, so that a disturbance of the machine does not fall on
/// one of them alone.
pub fn in_turns<S>(state: &mut S, by: By<S>) -> Times {
    let mut proved = Turns::new(by.proved, state);
    let mut second = Turns::new(by.second, state);
    let mut c = cfg!(peer).then(|| Turns::new(by.c, state));
    for i in 0..ROUNDS {
        proved.take(state);
        c.iter_mut().for_each(|c| c.take(state));
        // it is slow, and has no bar
        if i % 8 == 0 {
            second.take(state);
        }
    }
    Times { proved: proved.least, second: second.least, c: c.map(|c| c.least) }
}

/// A number with its unit, or a dash where there is none.
pub fn shown(number: Option<f64>, digits: usize, unit: &str) -> String {
    number.map_or("-".into(), |number| format!("{number:.digits$}{unit}"))
}
