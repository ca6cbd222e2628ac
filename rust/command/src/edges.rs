//! Frames near the edge of a gate: random frames that are pushed, patch by patch, to where the gate's sum is closest to its threshold, and
//! as far as that allows to where the sums of the gates below it are.
//! The sums are worked out here only to choose frames; what a mask reads on them the library says.
use crate::chance::Chance;
use pmn::Network;

/// How often every patch is tried.
const ROUNDS: usize = 2;

/// A gate of a network with all that it stands on.
struct Aim<'a> {
    network: &'a Network,
    gate: usize,
    /// the gates below it that it needs, in their order
    below: Vec<usize>,
    /// the patches that it or they read
    patches: Vec<u8>,
}

/// Frames near the edges of all gates of two networks, gate by gate in turn.
pub struct Edges<'a> {
    aims: Vec<Aim<'a>>,
    next: usize,
    chance: Chance,
}

impl<'a> Edges<'a> {
    /// All gates of two networks that have equal numbers of inputs.
    pub fn new(networks: [&'a Network; 2], chance: Chance) -> Edges<'a> {
        let of = |network: &'a Network| (0..network.gates.len()).map(move |gate| Aim::new(network, gate));
        let aims = networks.into_iter().flat_map(of).collect();
        Edges { aims, next: 0, chance }
    }

    /// Adds frames near the edge of the next gate; at least one.
    pub fn add(&mut self, frames: &mut Vec<u64>) {
        let turn = self.next;
        self.next = (turn + 1) % self.aims.len();
        let aim = &mut self.aims[turn];
        let mut frame = self.chance.frame(aim.network.inputs);
        let mut distance = aim.distance(frame);
        frames.push(frame);
        for _ in 0..ROUNDS {
            self.chance.shuffle(&mut aim.patches);
            for patch in &aim.patches {
                let pushed = frame ^ 1 << patch;
                let reached = aim.distance(pushed);
                if reached < distance {
                    (frame, distance) = (pushed, reached);
                    frames.push(frame);
                }
            }
        }
        frames.extend(aim.patches.iter().map(|patch| frame ^ 1 << patch));
    }
}

impl<'a> Aim<'a> {
    fn new(network: &'a Network, gate: usize) -> Aim<'a> {
        let mut needed = vec![false; usize::from(network.inputs) + gate + 1];
        needed[usize::from(network.signal(gate))] = true;
        for below in (0..=gate).rev() {
            if needed[usize::from(network.signal(below))] {
                network.gates[below].feeds.iter().for_each(|feed| needed[usize::from(feed.signal)] = true);
            }
        }
        let patches = (0..network.inputs).filter(|patch| needed[usize::from(*patch)]).collect();
        let below = (0..gate).filter(|below| needed[usize::from(network.signal(*below))]).collect();
        Aim { network, gate, below, patches }
    }

    /// How far the gate's sum is from the edge between T - 1 and T, in halves; then how far those of the gates below it are, in all.
    fn distance(&self, frame: u64) -> (u64, u64) {
        let mut bits = [false; 256];
        for patch in 0..self.network.inputs {
            bits[usize::from(patch)] = frame >> patch & 1 == 1;
        }
        let mut others = 0;
        for below in &self.below {
            let excess = self.excess(*below, &bits);
            bits[usize::from(self.network.signal(*below))] = excess >= 0;
            others += halves(excess);
        }
        (halves(self.excess(self.gate, &bits)), others)
    }

    /// A gate's sum less its threshold.
    fn excess(&self, gate: usize, bits: &[bool; 256]) -> i64 {
        let gate = &self.network.gates[gate];
        let sum: i64 = gate.feeds.iter().filter(|feed| bits[usize::from(feed.signal)]).map(|feed| i64::from(feed.weight)).sum();
        sum - i64::from(gate.threshold)
    }
}

/// The distance from the edge of a sum that exceeds the threshold by so much.
fn halves(excess: i64) -> u64 {
    (2 * excess + 1).unsigned_abs()
}

#[cfg(test)]
mod tests {
    use super::*;
    use pmn::{Feed, Gate};

    /// Ten patches lit and ten dark, half of which come through a gate of their own.
    fn one_setting_of_twenty() -> Network {
        let feed = |signal| Feed { signal, weight: if signal % 2 == 0 { 1 } else { -1 } };
        let below = Gate { feeds: (0..10).map(feed).collect(), threshold: 5 };
        let above = Gate { feeds: (10..20).chain([40]).map(feed).collect(), threshold: 6 };
        Network { version: 1, on_margin: 0, off_margin: 1, inputs: 40, gates: vec![below, above], outputs: vec![41] }
    }

    #[test]
    fn the_edge_of_a_rare_vote_is_reached() {
        let network = one_setting_of_twenty();
        let mut edges = Edges::new([&network, &network], Chance::new(1));
        let mut frames = Vec::new();
        (0..1000).for_each(|_| edges.add(&mut frames));
        let reached = frames.iter().filter(|frame| *frame & 0xfffff == 0x55555).count();
        assert!(reached > 100, "{reached} of {}", frames.len());
        assert!(frames.iter().all(|frame| frame >> 40 == 0));
    }
}
