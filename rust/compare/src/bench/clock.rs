//! Times of calls: contestants take turns; the best turn of each counts, and the
//! median.

use std::time::{Duration, Instant};

/// How long one turn of a contestant is, about, and how many it has: short ones
/// and many, so that some are not disturbed by whatever else the machine does.
pub const TURN: Duration = Duration::from_micros(100);
pub const TURNS: usize = 60;

/// Makes its call so many times and says how long that took.
pub type Contestant<'a> = Box<dyn FnMut(u64) -> Duration + 'a>;

/// Nanoseconds for one call.
#[derive(Clone, Copy, Debug, PartialEq)]
pub struct Time {
    /// By the quickest turn.
    pub best: f64,
    /// By the turn in the middle.
    pub median: f64,
}

impl Time {
    /// Of the turns of one contestant, each in nanoseconds for one call.
    pub fn of(mut turns: Vec<f64>) -> Time {
        turns.sort_by(f64::total_cmp);
        Time {
            best: turns[0],
            median: turns[turns.len() / 2],
        }
    }
}

/// A contestant whose call is a closure.
pub fn contestant<'a>(mut call: impl FnMut() + 'a) -> Contestant<'a> {
    Box::new(move |times| {
        let start = Instant::now();
        for _ in 0..times {
            call();
        }
        start.elapsed()
    })
}

/// Nanoseconds for one call of each contestant, by each of its turns.
pub fn race<const CONTESTANTS: usize>(
    mut contestants: [Contestant<'_>; CONTESTANTS],
) -> [Vec<f64>; CONTESTANTS] {
    let times = contestants.each_mut().map(times_in_a_turn);
    let mut turns = [(); CONTESTANTS].map(|()| Vec::with_capacity(TURNS));
    for _ in 0..TURNS {
        for (i, contestant) in contestants.iter_mut().enumerate() {
            turns[i].push(contestant(times[i]).as_nanos() as f64 / times[i] as f64);
        }
    }
    turns
}

/// How many calls fill a turn, found by doubling.
fn times_in_a_turn(contestant: &mut Contestant<'_>) -> u64 {
    let mut times = 1;
    while (0..3).any(|_| contestant(times) < TURN / 2) {
        times *= 2;
    }
    times
}
