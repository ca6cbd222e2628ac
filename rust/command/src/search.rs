//! A searched fold: a list of calls that leaves fewer gates, then less cost, then fewer levels, than one sweep.
//!
//! The search chooses the gates that are kept, and merges every other gate into the kept gates that need it. It has its own model of gates and
//! merges, which is much faster than a call of the library; what it finds is a list of calls, and the library runs that list. So whatever is
//! wrong in the model, the mask that comes out is what the library made.
use pmn::{Call, Mask, Size};
use std::time::{Duration, Instant};

mod chance;
mod folding;
mod forms;
mod mixing;
mod pair;
mod rounds;
mod schedule;
mod sets;
mod sums;
mod ways;

use rounds::Rounds;

/// How long to look, and where chance begins.
pub struct Options {
    pub seconds: f64,
    pub seed: u64,
}

/// What was found: the list, what the library leaves of the mask by it, its size, and how many lists were tried.
pub struct Found {
    pub calls: Vec<Call>,
    pub mask: Mask,
    pub size: Size,
    pub tried: u64,
}

/// When a search ends: after so many rounds, or when the time is over, whatever comes first.
pub struct Limits<'a> {
    pub rounds: u32,
    pub time_is_over: &'a dyn Fn() -> bool,
}

/// Looks for a list of calls. `progress` is told the best size so far and how many lists were tried, a few times a second.
pub fn search(mask: &Mask, options: &Options, progress: &mut dyn FnMut(Size, u64)) -> Found {
    let begin = Instant::now();
    let limits = Limits { rounds: u32::MAX, time_is_over: &|| begin.elapsed().as_secs_f64() >= options.seconds };
    search_within(mask, options.seed, &limits, progress)
}

/// The same with other limits: as long as the time is not over, the list depends on the mask, the seed and the number of rounds alone.
pub fn search_within(mask: &Mask, seed: u64, limits: &Limits, progress: &mut dyn FnMut(Size, u64)) -> Found {
    let mut best = Found::by(mask, vec![Call::Sweep(128)]);
    let mut rounds = Rounds::of(mask.network(), mask.report(), seed);
    let mut told = Instant::now();
    let mut stop = |rounds: &Rounds| {
        if told.elapsed() > Duration::from_millis(200) {
            told = Instant::now();
            progress(rounds.best.size.min(best.size), rounds.tried);
        }
        (limits.time_is_over)()
    };
    for _ in 0..limits.rounds {
        if rounds.is_done() || stop(&rounds) {
            break;
        }
        rounds.next(&mut stop);
    }
    let mut calls = rounds.best.merges;
    calls.push(Call::Sweep(0));
    let found = Found::by(mask, calls);
    if found.size < best.size {
        best = found;
    }
    best.tried = rounds.tried;
    best
}

impl Found {
    /// What the library makes of a mask by a list.
    fn by(mask: &Mask, calls: Vec<Call>) -> Found {
        let (mask, _) = mask.run(&calls);
        let size = mask.report();
        Found { calls, mask, size, tried: 1 }
    }
}
