//! The calls of a list, and their answers.
use crate::{Refusal, Size};

/// One call of a list, with any numbers: what is wrong in them the library refuses.
#[derive(Clone, Copy, Debug, PartialEq, Eq)]
pub enum Call {
    Merge { u: u64, v: u64, k: u64, l: u64 },
    Drop(u64),
    Collapse(u64),
    Sweep(u64),
    Preview(u64),
    Undo,
}

impl Call {
    /// The five numbers that the library takes.
    pub(crate) fn numbers(self) -> [u64; 5] {
        match self {
            Call::Merge { u, v, k, l } => [0, u, v, k, l],
            Call::Drop(signal) => [1, signal, 0, 0, 0],
            Call::Collapse(signal) => [2, signal, 0, 0, 0],
            Call::Sweep(limit) => [3, limit, 0, 0, 0],
            Call::Preview(signal) => [4, signal, 0, 0, 0],
            Call::Undo => [5, 0, 0, 0, 0],
        }
    }

    /// What the library's four numbers say of this call.
    pub(crate) fn answer(self, numbers: &[u64]) -> Answer {
        if let Some(refusal) = Refusal::of(numbers[0] as u8) {
            return Err(refusal);
        }
        Ok(match self {
            Call::Sweep(_) => Outcome::Swept(numbers[1]),
            Call::Preview(_) => Outcome::Previewed(Size { gates: numbers[1], cost: numbers[2], levels: numbers[3] }),
            _ => Outcome::Done,
        })
    }
}

/// What a call answers: accepted, with its figures, or refused.
pub type Answer = Result<Outcome, Refusal>;

/// What an accepted call gives beside the network.
#[derive(Clone, Copy, Debug, PartialEq, Eq)]
pub enum Outcome {
    Done,
    /// a sweep: the number of collapses
    Swept(u64),
    /// a preview: the size after the collapse
    Previewed(Size),
}
