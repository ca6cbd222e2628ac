//! Pairs of networks to compare: what the library's calls make of a network, which is like it, near misses, which most often are not, and
//! both networks read on every frame.
use crate::generate::Random;
use crate::reference::{self, Board, Net};
use crate::{pair, run, LONGEST_FILE};

/// The network after a list of calls by the library, and how many of them it accepted.
fn after(net: &Net, calls: &[[u64; 5]]) -> (Net, usize) {
    let mut answers = vec![0u64; 1 + 4 * calls.len()];
    let mut out = vec![0u8; LONGEST_FILE];
    assert_eq!(run(&reference::write(net), &calls.concat(), &mut answers, &mut out), 0);
    let accepted = answers[1..].chunks(4).filter(|answer| answer[0] == 0).count();
    (reference::read(&out[..answers[0] as usize]).unwrap(), accepted)
}

/// The network's fold: after a sweep.
pub fn swept(net: &Net) -> Net {
    after(net, &[[3, 128, 0, 0, 0]]).0
}

/// The list in any order.
fn shuffled<T>(r: &mut Random, mut list: Vec<T>) -> Vec<T> {
    for i in (1..list.len()).rev() {
        list.swap(i, r.below(i as u64 + 1) as usize);
    }
    list
}

/// Another fold: gates collapsed in any order until none can be.
pub fn folded(r: &mut Random, net: &Net) -> Net {
    let signals = net.inputs as u64..(net.inputs + net.gates.len()) as u64;
    let calls: Vec<[u64; 5]> = shuffled(r, signals.collect()).into_iter().map(|s| [2, s, 0, 0, 0]).collect();
    match after(net, &calls) {
        (net, 0) => net,
        (net, _) => folded(r, &net),
    }
}

/// The network after single merges, each of them alone: as many as can be made of these, in any order, or so many of them.
pub fn merges(r: &mut Random, net: &Net, most: usize) -> Vec<Net> {
    let file = reference::write(net);
    let votes = |g: usize| net.gates[g].feeds.iter().map(move |f| (f.0 as u64, (net.inputs + g) as u64));
    let edges: Vec<(u64, u64)> = (0..net.gates.len()).flat_map(votes).filter(|edge| edge.0 >= net.inputs as u64).collect();
    let merged = |(u, v)| {
        let mut numbers = [0; 2];
        let found = pair(&file, u, v, &mut numbers) == 0;
        found.then(|| after(net, &[[0, u, v, numbers[0], numbers[1]]]).0)
    };
    shuffled(r, edges).into_iter().filter_map(merged).take(most).collect()
}

/// The network with one number changed, in a file of version 1, since it may break the margins; none where the number is off the scale then,
/// or a weight 0.
fn changed(net: &Net, change: impl FnOnce(&mut Net)) -> Option<Net> {
    let mut other = Net { board: Board::VERSION_1, ..net.clone() };
    change(&mut other);
    reference::read(&reference::write(&other)).ok()
}

/// Every threshold moved by one, up and down.
pub fn moved_thresholds(net: &Net) -> Vec<Net> {
    let places = (0..net.gates.len()).flat_map(|g| [(g, 1), (g, -1)]);
    places.filter_map(|(g, step)| changed(net, |other| other.gates[g].threshold += step)).collect()
}

/// Every weight moved by one, up and down.
pub fn moved_weights(net: &Net) -> Vec<Net> {
    let feeds = |g: usize| (0..net.gates[g].feeds.len()).flat_map(move |i| [(g, i, 1), (g, i, -1)]);
    let places = (0..net.gates.len()).flat_map(feeds);
    places.filter_map(|(g, i, step)| changed(net, |other| other.gates[g].feeds[i].1 += step)).collect()
}

/// How many frames are read at once.
const LANES: u64 = 64;

/// The output bits of a network on the 64 frames from one on, each output's in one word.
fn words(net: &Net, from: u64) -> Vec<u64> {
    let input = |i: usize| (0..LANES).fold(0, |word, lane| word | ((from + lane) >> i & 1) << lane);
    let mut values: Vec<u64> = (0..net.inputs).map(input).collect();
    for gate in &net.gates {
        let mut sums = [0i32; LANES as usize];
        for &(signal, weight) in &gate.feeds {
            let lit = values[signal];
            sums.iter_mut().zip(0..).for_each(|(sum, lane)| *sum += weight as i32 * (lit >> lane & 1) as i32);
        }
        values.push(sums.iter().zip(0..).fold(0, |word, (&sum, lane)| word | ((i64::from(sum) >= gate.threshold) as u64) << lane));
    }
    net.outputs.iter().map(|&s| values[s]).collect()
}

/// The first frame on which two networks differ, of all frames: for few inputs.
pub fn parting_frame(first: &Net, second: &Net) -> Option<u64> {
    let all = 1u64 << first.inputs;
    let differ = |from: u64| words(first, from).iter().zip(words(second, from)).fold(0, |word, (one, other)| word | (one ^ other));
    let parting = |from: u64| Some(from + u64::from(differ(from).trailing_zeros())).filter(|&frame| differ(from) != 0 && frame < all);
    (0..all).step_by(LANES as usize).find_map(parting)
}

#[cfg(test)]
mod tests {
    use super::*;
    use crate::generate::network;

    #[test]
    fn the_first_parting_frame() {
        let mut r = Random::new(6);
        let mut parted = 0;
        for _ in 0..300 {
            let net = network(&mut r, 8, 5);
            if net.inputs > 10 {
                continue;
            }
            for other in moved_thresholds(&net) {
                let want = (0..1 << net.inputs).find(|&x| reference::frame(&net, x) != reference::frame(&other, x));
                assert_eq!(parting_frame(&net, &other), want);
                parted += want.is_some() as usize;
            }
        }
        assert!(parted > 300);
    }
}
