//! Rounds in turn, all contestants warmed alike: nobody gains from a quiet moment or a warm cache. Machines are shared, so beside the
//! median stands the 5th percentile, which disturbed rounds do not reach.

use std::hint::black_box;
use std::time::{Duration, Instant};

/// Nanoseconds a call.
#[derive(Clone, Copy)]
pub struct Time {
    pub median: f64,
    pub fast: f64,
}

/// Does a round's calls, given the round's number, and answers a number that must be the same for every contestant.
pub type Contestant<'a> = &'a mut dyn FnMut(usize) -> u64;

const FEWEST: usize = 21;
const MOST: usize = 4001;
/// Rounds of a call that takes long by itself.
const FEW: usize = 5;
/// How long a contestant is timed, unless its rounds take longer.
pub const EACH: Duration = Duration::from_millis(400);

/// Times contestants that do `calls` calls a round, for about `each` time a contestant.
pub fn race(calls: usize, each: Duration, contestants: &mut [Contestant]) -> Vec<Time> {
    for round in 0..8 {
        let first = contestants[0](round);
        for (i, c) in contestants.iter_mut().enumerate() {
            assert_eq!(c(round), first, "contestant {i} answers another number");
        }
    }
    let mut rounds: Vec<Vec<f64>> = vec![Vec::new(); contestants.len()];
    let begin = Instant::now();
    let enough = each * contestants.len() as u32;
    while rounds[0].len() < FEWEST || rounds[0].len() < MOST && begin.elapsed() < enough {
        // every other round the other way round, so that nobody always comes first
        let (round, last) = (rounds[0].len(), contestants.len() - 1);
        for i in 0..=last {
            let i = if round % 2 == 0 { i } else { last - i };
            let t = Instant::now();
            black_box(contestants[i](round));
            rounds[i].push(t.elapsed().as_nanos() as f64 / calls as f64);
        }
    }
    rounds
        .iter_mut()
        .map(|t| {
            t.sort_by(f64::total_cmp);
            Time { median: t[t.len() / 2], fast: t[t.len() / 20] }
        })
        .collect()
}

/// The milliseconds that one long call takes, the median of a few.
pub fn long(mut call: impl FnMut() -> u32) -> f64 {
    let mut rounds = [0.0; FEW];
    for round in &mut rounds {
        let t = Instant::now();
        black_box(call());
        *round = t.elapsed().as_secs_f64() * 1e3;
    }
    rounds.sort_by(f64::total_cmp);
    rounds[FEW / 2]
}
