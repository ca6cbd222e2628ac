//! The search itself: gates are folded and unfolded by chance, in rounds that grow longer.
use super::chance::Chance;
use super::folding::Folding;
use super::forms::Id;
use super::schedule;
use super::sets::{has, members};
use pmn::{Call, Network, Size};

/// The steps of the first round; each further round has twice as many.
const FIRST_ROUND: u64 = 1 << 14;

/// The chance that a gate which is drawn and not kept is unfolded, at the beginning of a round and at its end.
const CHANCES: [f64; 2] = [0.12, 0.0005];

/// So many steps are made between two looks at the clock.
const STEPS_AT_A_TIME: usize = 64;

/// Beyond so many forms everything is forgotten but the gates that are kept.
const MOST_FORMS: usize = 400_000;

/// The best list of merges so far, and the size that it leaves once the gates without readers are dropped.
pub struct Best {
    pub size: Size,
    pub merges: Vec<Call>,
}

/// A search that can be carried on round by round.
pub struct Rounds {
    network: Network,
    folding: Folding,
    /// the gates that no output names
    free: Vec<usize>,
    chance: Chance,
    /// the rounds made so far
    count: u32,
    /// the choices of gates tried so far
    pub tried: u64,
    pub best: Best,
}

impl Rounds {
    /// A search that begins with all gates kept.
    pub fn of(network: Network, size: Size, seed: u64) -> Rounds {
        let named = |gate: &usize| network.outputs.contains(&network.signal(*gate));
        Rounds {
            folding: Folding::of(&network),
            free: (0..network.gates.len()).filter(|gate| !named(gate)).collect(),
            network,
            chance: Chance::new(seed),
            count: 0,
            tried: 0,
            best: Best { size, merges: Vec::new() },
        }
    }

    /// Whether further rounds can find nothing: few gates have few choices, which the rounds so far have tried many times over.
    pub fn is_done(&self) -> bool {
        let choices = 1u64.checked_shl(self.free.len() as u32).unwrap_or(u64::MAX);
        self.free.is_empty() || self.tried / 256 >= choices
    }

    /// Makes a round. `stop` is asked now and then; where it says so, the round ends before its time.
    pub fn next(&mut self, stop: &mut dyn FnMut(&Rounds) -> bool) {
        if self.folding.ways.forms.count() > MOST_FORMS {
            self.forget();
        }
        let steps = FIRST_ROUND << self.count.min(30);
        self.count += 1;
        for done in (0..steps).step_by(STEPS_AT_A_TIME) {
            if stop(self) {
                return;
            }
            let chance = CHANCES[0] * (CHANCES[1] / CHANCES[0]).powf(done as f64 / steps as f64);
            for _ in 0..STEPS_AT_A_TIME {
                self.step(chance);
            }
        }
    }

    fn step(&mut self, chance: f64) {
        let gate = self.free[self.chance.below(self.free.len())];
        if !has(self.folding.kept, gate) {
            if self.chance.share() < chance {
                self.tried += 1;
                self.folding.unfold(gate);
            }
            return;
        }
        self.tried += 1;
        if self.folding.fold(gate) && self.folding.measure() <= (self.best.size.gates, self.best.size.cost) {
            self.note();
        }
    }

    /// Takes the present choice for the best, if it is better and there is an order of merges for it.
    fn note(&mut self) {
        let size = self.folding.size();
        if size >= self.best.size {
            return;
        }
        let wanted: Vec<Id> = members(self.folding.kept).map(|gate| self.folding.forms[gate]).collect();
        let network = &self.network;
        if let Some(merges) = schedule::merges(&self.folding.ways.forms, network.inputs.into(), network.gates.len(), &wanted) {
            self.best = Best { size, merges };
        }
    }

    /// Forgets all forms but those of the gates that are kept.
    fn forget(&mut self) {
        self.folding = self.folding.anew(&self.network);
    }
}
