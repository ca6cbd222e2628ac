//! Do two masks read alike? Whatever is found, it says how it was found.
use crate::arguments::wrong;
use crate::chance::Chance;
use crate::edges::Edges;
use crate::failure::Failure;
use crate::files::Named;
use crate::progress::Progress;
use crate::solver::{self, Solver};
use pmn::{Call, Mask, Refusal};
use std::ffi::OsString;

/// Up to so many inputs every frame is read without being asked for.
pub const FEW_INPUTS: u8 = 24;

/// Up to so many inputs every frame can be asked for.
pub const MOST_INPUTS: u8 = 32;

/// How many frames are read where not all can be, and no solver decides.
pub const SOME_FRAMES: u64 = 400_000;

/// How long a solver may take, in seconds.
pub const SOLVER_SECONDS: u64 = 60;

/// How many frames are read between two looks at the clock.
const BATCH: usize = 4096;

/// How two masks were compared.
#[derive(Clone, Debug, PartialEq, Eq)]
pub enum How {
    /// every frame of this many
    EveryFrame(u64),
    /// for each output every frame of the patches that it reads in either mask, so many in all: an output alone (the library's cut) has its bit
    /// on every frame and reads no other patch
    EachOutput(u64),
    /// the question was handed to this solver
    Solver(String),
    /// the second is what this list of calls leaves of the first, run anew: the theorem over lists of calls covers it
    List,
    /// so many frames at random, and so many near the edge of some gate
    SomeFrames { random: u64, near_edge: u64 },
}

/// What came of it.
#[derive(Clone, Debug, PartialEq, Eq)]
pub enum Verdict {
    /// every frame reads the same
    Alike,
    /// a frame on which they part, with the fewest lit patches found, and the output bits of both
    Apart { frame: u64, first: u64, second: u64 },
    /// no frame of those that were read shows a difference, and not all were read
    NotSeenApart,
}

/// A verdict, and what it rests on.
#[derive(Clone, Debug, PartialEq, Eq)]
pub struct Comparison {
    /// what came of it
    pub verdict: Verdict,
    /// how it was found
    pub how: How,
}

/// Which solver to ask.
#[derive(Clone, Debug, PartialEq, Eq)]
pub enum Asked {
    /// the first that is there, if every frame is too many
    AnySolver,
    /// none
    NoSolver,
    /// this one, however many frames there are
    Named(OsString),
}

/// How to compare.
#[derive(Clone, Debug)]
pub struct Options {
    /// calls that are said to lead from the first mask to the second
    pub list: Option<Vec<Call>>,
    /// whether every frame is to be read
    pub exhaustive: bool,
    /// which solver to ask
    pub solver: Asked,
    /// how long it may take
    pub solver_seconds: u64,
    /// how many frames are read where not all are
    pub frames: u64,
    /// where chance begins
    pub seed: u64,
}

impl Default for Options {
    fn default() -> Options {
        Options { list: None, exhaustive: false, solver: Asked::AnySolver, solver_seconds: SOLVER_SECONDS, frames: SOME_FRAMES, seed: 1 }
    }
}

/// Compares two masks. Unlike numbers of inputs or outputs are refused with 19.
pub fn compare(first: &Named, second: &Named, options: &Options, progress: &mut Progress) -> Result<Comparison, Failure> {
    let names = format!("{} and {}", first.name, second.name);
    let refused = |refusal| Failure::refused(&names, refusal);
    first.mask.question_line(&second.mask, 0).map_err(refused)?;
    if options.list.as_ref().is_some_and(|calls| leads(&first.mask, calls, &second.mask)) {
        return Ok(Comparison { verdict: Verdict::Alike, how: How::List });
    }
    let pair = Pair { first: &first.mask, second: &second.mask, inputs: first.mask.network().inputs };
    if options.exhaustive && pair.inputs > MOST_INPUTS {
        return Err(wrong(format!("--exhaustive is for {MOST_INPUTS} inputs at most, and {} has {}", first.name, pair.inputs)));
    }
    if options.exhaustive || pair.inputs <= FEW_INPUTS && !matches!(options.solver, Asked::Named(_)) {
        return pair.every_frame(progress).map_err(refused);
    }
    if !matches!(options.solver, Asked::Named(_)) {
        if let Some(comparison) = pair.each_output(progress).map_err(refused)? {
            return Ok(comparison);
        }
    }
    if let Some(comparison) = by_solver(&pair, options, progress, &refused)? {
        return Ok(comparison);
    }
    if pair.inputs <= FEW_INPUTS {
        return pair.every_frame(progress).map_err(refused);
    }
    pair.some_frames(options, progress).map_err(refused)
}

/// Whether a list of calls, run by the library, leaves of the first mask the second, byte for byte.
pub fn leads(first: &Mask, calls: &[Call], second: &Mask) -> bool {
    first.run(calls).0 == *second
}

/// What a solver says, where there is one and its verdict is clear.
fn by_solver(
    pair: &Pair,
    options: &Options,
    progress: &mut Progress,
    refused: &dyn Fn(Refusal) -> Failure,
) -> Result<Option<Comparison>, Failure> {
    let found = match &options.solver {
        Asked::NoSolver => None,
        Asked::AnySolver => Solver::any(),
        Asked::Named(name) => Some(Solver::named(name)?),
    };
    let Some(solver) = found else {
        return Ok(None);
    };
    let question = pair.first.question(pair.second).map_err(refused)?;
    let how = How::Solver(solver.name.clone());
    let why = match solver.ask(&question, options.solver_seconds, progress)? {
        solver::Verdict::Unsatisfiable => return Ok(Some(Comparison { verdict: Verdict::Alike, how })),
        solver::Verdict::Satisfiable(solution) => match pair.solved(solution).map_err(refused)? {
            Some(apart) => return Ok(Some(Comparison { verdict: apart.verdict(), how })),
            None => "its solution is no frame on which the two part".to_string(),
        },
        solver::Verdict::CouldNotTell(why) => why,
    };
    progress.note(&format!("{}: {why}", solver.name));
    Ok(None)
}

/// A frame on which two masks part.
#[derive(Clone, Copy, Debug)]
struct Apart {
    frame: u64,
    first: u64,
    second: u64,
}

impl Apart {
    fn verdict(self) -> Verdict {
        Verdict::Apart { frame: self.frame, first: self.first, second: self.second }
    }

    fn lit(&self) -> u32 {
        self.frame.count_ones()
    }
}

/// Two masks with equal numbers of inputs and outputs.
struct Pair<'a> {
    first: &'a Mask,
    second: &'a Mask,
    inputs: u8,
}

impl Pair<'_> {
    /// Those frames on which the two part.
    fn apart<'f>(&self, frames: &'f [u64]) -> Result<impl Iterator<Item = Apart> + 'f, Refusal> {
        let (first, second) = (self.first.frames(frames)?, self.second.frames(frames)?);
        let readings = frames.iter().zip(first).zip(second);
        Ok(readings.filter(|((_, first), second)| first != second).map(|((frame, first), second)| Apart { frame: *frame, first, second }))
    }

    /// Every frame, those with few lit patches first: the first on which the two part has the fewest.
    fn every_frame(&self, progress: &mut Progress) -> Result<Comparison, Refusal> {
        let total = 1u64 << self.inputs;
        let apart = self.first_apart(ByLit::new(self.inputs), |read| progress.show(|| format!("{read} of {total} frames read alike")))?;
        Ok(Comparison { verdict: apart.map_or(Verdict::Alike, Apart::verdict), how: How::EveryFrame(total) })
    }

    /// For each output every frame of the patches that it reads, all others dark, where these frames are few enough.
    fn each_output(&self, progress: &mut Progress) -> Result<Option<Comparison>, Refusal> {
        let outputs = self.first.network().outputs.len() as u64;
        let alone: Vec<Alone> = (0..outputs).map(|output| Alone::of(self, output)).collect::<Result<_, _>>()?;
        let frames = |output: &Alone| 1u64.checked_shl(output.patches.len() as u32);
        let total = alone.iter().map(frames).try_fold(0u64, |sum, some| sum.checked_add(some?));
        let Some(total) = total.filter(|total| *total <= 1 << FEW_INPUTS) else {
            return Ok(None);
        };
        let mut before = 0;
        let mut best: Option<Apart> = None;
        for output in &alone {
            let pair = Pair { first: &output.first, second: &output.second, inputs: self.inputs };
            let apart = pair.first_apart(output.frames(), |read| progress.show(|| format!("{} of {total} frames read", before + read)))?;
            best = best.into_iter().chain(apart).min_by_key(|apart| (apart.lit(), apart.frame));
            before += 1 << output.patches.len();
        }
        let verdict = match best {
            Some(apart) => self.apart(&[apart.frame])?.next().map_or(Verdict::NotSeenApart, Apart::verdict),
            None => Verdict::Alike,
        };
        Ok(Some(Comparison { verdict, how: How::EachOutput(total) }))
    }

    /// The first of these frames on which the two part; `told` how many were read.
    fn first_apart(&self, mut frames: impl Iterator<Item = u64>, mut told: impl FnMut(u64)) -> Result<Option<Apart>, Refusal> {
        let mut read = 0;
        loop {
            let batch: Vec<u64> = frames.by_ref().take(BATCH).collect();
            if batch.is_empty() {
                return Ok(None);
            }
            if let Some(apart) = self.apart(&batch)?.next() {
                return Ok(Some(apart));
            }
            read += batch.len() as u64;
            told(read);
        }
    }

    /// Half of the frames at random, half near an edge.
    fn some_frames(&self, options: &Options, progress: &mut Progress) -> Result<Comparison, Refusal> {
        let (random, near_edge) = (options.frames / 2, options.frames - options.frames / 2);
        let mut chance = Chance::new(options.seed);
        let networks = [self.first.network(), self.second.network()];
        let mut edges = Edges::new([&networks[0], &networks[1]], Chance::new(chance.number()));
        let mut best = None;
        self.fewest(random, &mut best, progress, |frames| frames.push(chance.frame(self.inputs)))?;
        self.fewest(near_edge, &mut best, progress, |frames| edges.add(frames))?;
        let verdict = match best {
            Some(apart) => self.darken(apart)?.verdict(),
            None => Verdict::NotSeenApart,
        };
        Ok(Comparison { verdict, how: How::SomeFrames { random, near_edge } })
    }

    /// Of so many frames on which the two part one with the fewest lit patches.
    fn fewest(
        &self,
        count: u64,
        best: &mut Option<Apart>,
        progress: &mut Progress,
        mut add: impl FnMut(&mut Vec<u64>),
    ) -> Result<(), Refusal> {
        let mut read = 0;
        while read < count {
            let mut frames = Vec::new();
            while frames.len() < BATCH {
                add(&mut frames);
            }
            frames.truncate((count - read).min(BATCH as u64) as usize);
            read += frames.len() as u64;
            *best = self.apart(&frames)?.chain(*best).min_by_key(|apart| (apart.lit(), apart.frame));
            progress.show(|| format!("{read} of {count} frames read"));
        }
        Ok(())
    }

    /// The frame of a solver's solution, where the two part on it, with fewer lit patches where that can be had.
    fn solved(&self, solution: u64) -> Result<Option<Apart>, Refusal> {
        let frame = solution & ((1 << self.inputs) - 1);
        let Some(apart) = self.apart(&[frame])?.next() else {
            return Ok(None);
        };
        self.darken(apart).map(Some)
    }

    /// Switches lit patches off, one after another, as long as the two still part.
    fn darken(&self, mut apart: Apart) -> Result<Apart, Refusal> {
        loop {
            let lit = (0..self.inputs).filter(|patch| apart.frame >> patch & 1 == 1);
            let darker: Vec<u64> = lit.map(|patch| apart.frame ^ 1 << patch).collect();
            let Some(next) = self.apart(&darker)?.next() else {
                return Ok(apart);
            };
            apart = next;
        }
    }
}

/// One output of two masks alone, and the patches that it reads in either.
struct Alone {
    first: Mask,
    second: Mask,
    patches: Vec<u8>,
}

impl Alone {
    fn of(pair: &Pair, output: u64) -> Result<Alone, Refusal> {
        let (first, second) = (pair.first.cut(output)?, pair.second.cut(output)?);
        let read = [first.network(), second.network()].into_iter().flat_map(|network| network.gates).flat_map(|gate| gate.feeds);
        let mut patches: Vec<u8> = read.map(|feed| feed.signal).filter(|signal| *signal < pair.inputs).collect();
        patches.sort_unstable();
        patches.dedup();
        Ok(Alone { first, second, patches })
    }

    /// Every frame of its patches, those with few lit ones first.
    fn frames(&self) -> impl Iterator<Item = u64> + '_ {
        let lit = |setting: u64| (0..self.patches.len()).filter(move |place| setting >> place & 1 == 1);
        ByLit::new(self.patches.len() as u8).map(move |setting| lit(setting).fold(0, |frame, place| frame | 1 << self.patches[place]))
    }
}

/// All frames of so many inputs, by the number of lit patches and then by their number.
struct ByLit {
    inputs: u8,
    next: Option<u64>,
}

impl ByLit {
    fn new(inputs: u8) -> ByLit {
        ByLit { inputs, next: Some(0) }
    }

    /// The next greater number with as many ones, or the least one with one more.
    fn after(&self, frame: u64) -> Option<u64> {
        if frame != 0 {
            let lowest = frame & frame.wrapping_neg();
            let raised = frame + lowest;
            let next = (raised ^ frame) >> 2 >> lowest.trailing_zeros() | raised;
            if next >> self.inputs == 0 {
                return Some(next);
            }
        }
        let lit = frame.count_ones() + 1;
        (lit <= u32::from(self.inputs)).then(|| (1 << lit) - 1)
    }
}

impl Iterator for ByLit {
    type Item = u64;

    fn next(&mut self) -> Option<u64> {
        let frame = self.next?;
        self.next = self.after(frame);
        Some(frame)
    }
}

#[cfg(test)]
mod tests {
    use super::*;

    #[test]
    fn every_frame_comes_once_and_few_lit_ones_first() {
        for inputs in 1..=10 {
            let frames: Vec<u64> = ByLit::new(inputs).collect();
            let mut expected: Vec<u64> = (0..1 << inputs).collect();
            expected.sort_by_key(|frame| (frame.count_ones(), *frame));
            assert_eq!(frames, expected);
        }
        assert_eq!(ByLit::new(32).take(34).last(), Some(3));
    }
}
