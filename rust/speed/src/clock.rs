//! The time of a call.

use crate::side::{Side, Sides};
use std::time::{Duration, Instant};

/// A round of calls takes about so long.
const ROUND: Duration = Duration::from_millis(5);
/// How many rounds each side has.
const ROUNDS: usize = 20;

/// Nanoseconds a call on each side, proved and plain: of all rounds, which the
/// sides take in turn, the fastest.
pub fn nanoseconds(sides: &mut Sides) -> (f64, f64) {
    let mut both = [&mut sides.proved, &mut sides.plain].map(|side| {
        let passes = passes_of_a_round(side.as_mut());
        (side, passes, f64::INFINITY)
    });
    for _ in 0..ROUNDS {
        for (side, passes, fastest) in &mut both {
            let calls = (side.inputs() * *passes) as f64;
            let round = time(side.as_mut(), *passes).as_secs_f64() * 1e9 / calls;
            *fastest = fastest.min(round);
        }
    }
    let [proved, plain] = both.map(|(_, _, fastest)| fastest);
    (proved, plain)
}

fn time(side: &mut dyn Side, passes: usize) -> Duration {
    let start = Instant::now();
    side.run(passes);
    start.elapsed()
}

/// How many passes over the inputs take as long as a round.
fn passes_of_a_round(side: &mut dyn Side) -> usize {
    let mut passes = 1;
    while time(side, passes) < ROUND {
        passes *= 2;
    }
    passes
}
