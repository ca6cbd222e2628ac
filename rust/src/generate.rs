//! Networks and files for tests and benchmarks, from a fixed seed.
use crate::reference::{Board, Gate, Net};
use std::ops::Range;

/// A small generator of numbers: the same sequence in every run.
pub struct Random(u64);

impl Random {
    pub fn new(seed: u64) -> Self {
        Random(seed.wrapping_mul(0x9E37_79B9_7F4A_7C15) | 1)
    }

    pub fn next(&mut self) -> u64 {
        self.0 ^= self.0 << 13;
        self.0 ^= self.0 >> 7;
        self.0 ^= self.0 << 17;
        self.0.wrapping_mul(0x2545_F491_4F6C_DD1D)
    }

    /// A number below n.
    pub fn below(&mut self, n: u64) -> u64 {
        (self.next() >> 11) % n
    }

    pub fn between(&mut self, low: i64, high: i64) -> i64 {
        low + self.below((high - low + 1) as u64) as i64
    }
}

/// How many votes of a network are against, in quarters: none, some, half or all.
fn quarters_against(r: &mut Random) -> u64 {
    [0, 1, 2, 4][r.below(4) as usize]
}

/// A weight of a size, against in so many cases of four.
fn vote(r: &mut Random, size: i64, against: u64) -> i64 {
    if r.below(4) < against {
        -size
    } else {
        size
    }
}

fn on_scale(z: i64) -> i64 {
    z.clamp(-1_000_000, 1_000_000)
}

/// The least and the greatest sum of the feeds that are 1.
pub fn ends(feeds: &[(usize, i64)]) -> (i64, i64) {
    (feeds.iter().map(|f| f.1.min(0)).sum(), feeds.iter().map(|f| f.1.max(0)).sum())
}

/// The signals in rising order, each once and with a weight.
fn with_weights(r: &mut Random, mut signals: Vec<usize>, weight: impl Fn(&mut Random) -> i64) -> Vec<(usize, i64)> {
    signals.sort();
    signals.dedup();
    signals.into_iter().map(|s| (s, weight(r))).collect()
}

fn feeds(r: &mut Random, own: usize, most: u64, weight: impl Fn(&mut Random) -> i64) -> Vec<(usize, i64)> {
    let count = r.below(most.min(own as u64) + 1);
    let mut signals: Vec<usize> = vec![];
    for _ in 0..count {
        // near signals more often, so that gates read gates
        let s = if r.below(2) == 0 { r.below(own as u64) as usize } else { own - 1 - r.below(own.min(6) as u64) as usize };
        signals.push(s);
    }
    with_weights(r, signals, weight)
}

/// A network of small gates, many of which fold: votes for and against whose thresholds lie near the ends of their sums.
pub fn network(r: &mut Random, most_gates: u64, most_feeds: u64) -> Net {
    let most_inputs = if r.below(4) == 0 { 40 } else { 6 };
    let inputs = 1 + r.below(most_inputs) as usize;
    let gates = 1 + r.below(most_gates) as usize;
    let mut net = Net { board: Board::VERSION_1, inputs, gates: vec![], outputs: vec![] };
    let style = r.below(4);
    let against = quarters_against(r);
    for g in 0..gates {
        let feeds = feeds(r, inputs + g, most_feeds, |r| {
            let size = match style {
                0 => 1,
                1 => r.between(1, 4),
                2 => r.between(1, 3),
                _ if r.below(20) == 0 => r.between(1, 1_000_000),
                _ => r.between(1, 9),
            };
            vote(r, size, against)
        });
        let (low, high) = ends(&feeds);
        let threshold = match r.below(4) {
            0 => on_scale(high),
            1 => on_scale(low + 1),
            _ => r.between(on_scale(low - 1), on_scale(high + 1)),
        };
        net.gates.push(Gate { feeds, threshold });
    }
    let most_outputs = if r.below(3) == 0 { 16 } else { 2 };
    let outputs = 1 + r.below(most_outputs);
    for _ in 0..outputs {
        let top = r.below(gates as u64);
        net.outputs.push(inputs + if r.below(3) == 0 { top as usize } else { gates - 1 });
    }
    net
}

/// A chain: each gate reads the gate before it, a few inputs and now and then the gate before that, for or against, and asks for all of
/// them or for one. Most gates fold until k or l leaves the dial. Now and then a threshold is off by one: a near miss.
pub fn chain(r: &mut Random) -> Net {
    let inputs = 1 + r.below(8) as usize;
    let gates = 2 + r.below(7) as usize;
    let largest = [1, 1, 3, 9][r.below(4) as usize];
    let against = quarters_against(r);
    let mut net = Net { board: Board::VERSION_1, inputs, gates: vec![], outputs: vec![inputs + gates - 1] };
    for g in 0..gates {
        let own = inputs + g;
        let mut signals: Vec<usize> = (0..r.below(4)).map(|_| r.below(inputs as u64) as usize).collect();
        if g > 0 {
            signals.push(own - 1);
        }
        if g > 1 && r.below(4) == 0 {
            signals.push(own - 2);
        }
        let feeds = with_weights(r, signals, |r| {
            let size = r.between(1, largest);
            vote(r, size, against)
        });
        let (low, high) = ends(&feeds);
        let miss = if r.below(6) == 0 { r.between(-1, 1) } else { 0 };
        let threshold = miss + if r.below(2) == 0 { high } else { low + 1 };
        net.gates.push(Gate { feeds, threshold });
    }
    net
}

/// A chain of inverters: each gate is 1 if the gate before it is 0, or now and then another gate below it. The weights go up to 1, 4, 40
/// or the scale's end, so that pairs have 1 and 1, or more, or there is none.
pub fn inverters(r: &mut Random) -> Net {
    let gates = 2 + r.below(9) as usize;
    let largest = [1, 4, 40, 1_000_000][r.below(4) as usize];
    let mut net = Net { board: Board::VERSION_1, inputs: 1, gates: vec![], outputs: vec![gates] };
    for g in 0..gates {
        let below = if r.below(6) == 0 { r.below(g as u64 + 1) as usize } else { g };
        let size = r.between(1, largest);
        net.gates.push(Gate { feeds: vec![(below, -size)], threshold: -r.between(0, size - 1) });
    }
    net
}

/// Two gates, or three, of which the first votes against the second and for or against the third, and which share feeds.
pub fn against(r: &mut Random) -> Net {
    let inputs = 1 + r.below(4) as usize;
    let readers = 1 + r.below(2) as usize;
    let any_weight = |r: &mut Random| {
        let size = r.between(1, 4);
        vote(r, size, 2)
    };
    let some_inputs = |r: &mut Random| (0..1 + r.below(inputs as u64)).map(|_| r.below(inputs as u64) as usize).collect();
    let signals = some_inputs(r);
    let feeds = with_weights(r, signals, any_weight);
    let (low, high) = ends(&feeds);
    let first = Gate { feeds: feeds.clone(), threshold: r.between(low, high + 1) };
    let mut net = Net { board: Board::VERSION_1, inputs, gates: vec![first], outputs: vec![] };
    for reader in 0..readers {
        let mut own = if r.below(3) == 0 {
            // the first gate's own feeds: their weights may cancel
            feeds.clone()
        } else {
            let signals = some_inputs(r);
            with_weights(r, signals, any_weight)
        };
        let size = r.between(1, 6);
        own.push((inputs, if reader == 0 { -size } else { vote(r, size, 2) }));
        let (low, high) = ends(&own);
        net.gates.push(Gate { feeds: own, threshold: r.between(low, high + 1) });
        net.outputs.push(inputs + 1 + reader);
    }
    net
}

/// Two gates of which the first votes against the second, with numbers that are off the scale, or just not, once they are multiplied.
pub fn heavy(r: &mut Random) -> Net {
    let heavy = |r: &mut Random| {
        let size = on_scale(1_000_000 / r.between(1, 4) + r.between(-1, 1));
        vote(r, size, 2)
    };
    let weight = |r: &mut Random| if r.below(2) == 0 { heavy(r) } else { vote(r, 1, 2) };
    let threshold = |r: &mut Random, feeds: &[(usize, i64)]| match r.below(5) {
        0 => on_scale(ends(feeds).0 + 1),
        1 => on_scale(ends(feeds).1),
        2 => r.between(0, 1),
        // 1 less the threshold of the complement
        3 => on_scale(1 - heavy(r)),
        _ => heavy(r),
    };
    let signals = (0..1 + r.below(2)).map(|_| r.below(2) as usize).collect();
    let feeds = with_weights(r, signals, weight);
    let u = Gate { threshold: threshold(r, &feeds), feeds };
    let signals = (0..r.below(3)).map(|_| r.below(3) as usize).collect();
    let mut feeds = with_weights(r, signals, weight);
    feeds.push((3, -weight(r).abs()));
    let v = Gate { threshold: threshold(r, &feeds), feeds };
    Net { board: Board::VERSION_1, inputs: 3, gates: vec![u, v], outputs: vec![4] }
}

/// Two gates with 15, 16 or 17 distinct feeds, each of which asks for all or for one of its feeds; the first votes for or against.
pub fn wide(r: &mut Random) -> Net {
    let inputs = 15 + r.below(3) as usize;
    let split = r.between(2, inputs as i64 - 1) as usize;
    let mut gate = |signals: Vec<usize>| {
        let feeds = with_weights(r, signals, |r| vote(r, 1, 2));
        let (low, high) = ends(&feeds);
        Gate { threshold: if r.below(2) == 0 { high } else { low + 1 }, feeds }
    };
    let gates = vec![gate((0..split).collect()), gate((split..=inputs).collect())];
    Net { board: Board::VERSION_1, inputs, gates, outputs: vec![inputs + 1] }
}

/// A gate with so many readers, and a pair for each: it asks for all or for one of two inputs, and a reader, which it votes for or against,
/// for all or for one of its feeds, which are other inputs and now and then the reader before it.
pub fn fan(r: &mut Random, readers: usize) -> Net {
    let inputs = 8;
    let mut net = Net { board: Board::VERSION_1, inputs, gates: vec![], outputs: vec![] };
    for own in inputs..=inputs + readers {
        let mut signals = vec![0, 1];
        if own > inputs {
            signals = (0..r.below(3)).map(|_| 2 + r.below(6) as usize).chain([inputs]).collect();
            if own > inputs + 1 && r.below(3) == 0 {
                signals.push(own - 1);
            }
        }
        let feeds = with_weights(r, signals, |r| vote(r, 1, 2));
        let (low, high) = ends(&feeds);
        net.gates.push(Gate { threshold: if r.below(2) == 0 { high } else { low + 1 }, feeds });
    }
    net.outputs = (0..1 + r.below(16)).map(|_| inputs + 1 + r.below(readers as u64) as usize).collect();
    net
}

/// The network said the other way round: gate u, which is no output, replaced by its complement, and each vote of it by the opposite one,
/// so that all other gates are as they were. None where a number would leave the scale.
pub fn mirrored(net: &Net, u: usize) -> Option<Net> {
    let mut other = net.clone();
    let gate = &mut other.gates[u - net.inputs];
    gate.threshold = 1 - gate.threshold;
    gate.feeds.iter_mut().for_each(|f| f.1 = -f.1);
    for reader in &mut other.gates {
        if let Some(feed) = reader.feeds.iter_mut().find(|f| f.0 == u) {
            reader.threshold -= feed.1;
            feed.1 = -feed.1;
        }
    }
    other.gates.iter().all(|g| g.threshold == on_scale(g.threshold)).then_some(other)
}

/// The network with every second gate said the other way round: in a chain, every vote of a gate becomes the opposite one.
pub fn alternating(net: &Net) -> Net {
    let gates = (net.inputs..net.inputs + net.gates.len()).step_by(2);
    gates.filter(|u| !net.outputs.contains(u)).fold(net.clone(), |net, u| mirrored(&net, u).unwrap())
}

// ---- networks for games

/// Ten pins: gates that each copy the signal so many below their own, in layers of ten over ten inputs or more, and a first output for each
/// gate of the last layer, with any outputs after these.
pub fn pins(r: &mut Random, layers: usize) -> Net {
    let inputs = 10 + r.below(4) as usize;
    let gates = 10 * layers;
    let copy = |r: &mut Random, g: usize| {
        let weight = r.between(1, 3);
        let below = if g < 10 { g } else { inputs + g - 10 };
        Gate { feeds: vec![(below, weight)], threshold: r.between(1, weight) }
    };
    let gates: Vec<Gate> = (0..gates).map(|g| copy(r, g)).collect();
    let outputs = (inputs + gates.len() - 10..inputs + gates.len()).collect();
    let net = Net { board: Board::VERSION_1, inputs, gates, outputs };
    let more = r.below(7) as usize;
    with_outputs(r, net, 10 + more)
}

/// The network with outputs at any gates after its own, so many in all.
pub fn with_outputs(r: &mut Random, mut net: Net, count: usize) -> Net {
    while net.outputs.len() < count {
        let gate = r.below(net.gates.len() as u64) as usize;
        net.outputs.push(net.inputs + gate);
    }
    net
}

// ---- networks with margins

/// The widest margins that every gate keeps, each up to 255: the sums that reach T are so far above it, all others so far below.
pub fn widest(net: &Net) -> (i64, i64) {
    let (mut on, mut off) = (255, 255);
    for gate in &net.gates {
        for sum in gate.sums() {
            if sum >= gate.threshold {
                on = on.min(sum - gate.threshold);
            } else {
                off = off.min(gate.threshold - sum);
            }
        }
    }
    (on, off)
}

/// A network like this one as a file of version 2 has it, with margins that its gates keep: weights and thresholds are multiplied by a
/// factor, which parts the sums, and at times the weights are then moved a little; each threshold is placed anew between the two sums
/// beside it; and each margin is the widest one, one less, or any below. A merge puts together how its two thresholds lie between their
/// sums, so that many a pair needs greater multipliers than without margins, or there is none.
pub fn tolerant(r: &mut Random, net: &Net) -> Net {
    let mut out = net.clone();
    let numbers = net.gates.iter().flat_map(|gate| gate.feeds.iter().map(|f| f.1).chain([gate.threshold]));
    let most = 1_000_000 / numbers.map(|z| z.abs().max(1)).max().unwrap();
    let factor = most.min([1, 2, 3, 5, 8, 20, 101, 601][r.below(8) as usize]);
    let moved = if r.below(3) == 0 { factor / 8 } else { 0 };
    // how far below the next sum that reaches it a threshold is: near it, near the other end, half, a third or a quarter of the way, or
    // anywhere; at times for each gate anew
    let place = |r: &mut Random| match r.below(5) {
        0 => r.below(factor.min(3) as u64) as i64,
        1 => factor - 1 - r.below(factor.min(3) as u64) as i64,
        2 => (factor - 1) / 2,
        3 => factor / r.between(3, 4),
        _ => r.below(factor as u64) as i64,
    };
    let (below, anew) = (place(r), r.below(6) == 0);
    for gate in &mut out.gates {
        for feed in &mut gate.feeds {
            feed.1 = on_scale(factor * feed.1 + r.between(-moved, moved));
        }
        let below = if anew { place(r) } else { below };
        let middle = factor * gate.threshold - factor / 2;
        let sums = gate.sums();
        let next = sums.iter().filter(|&&sum| sum >= middle).min();
        let last = sums.iter().filter(|&&sum| sum < middle).max();
        gate.threshold = on_scale(match (last, next) {
            (Some(last), Some(next)) => (last + 1).max(next - below),
            (None, next) => next.unwrap() - below,
            (Some(last), None) => last + factor - below,
        });
    }
    let (on, off) = widest(&out);
    let inside = |r: &mut Random, least: i64, widest: i64| match r.below(4) {
        0 | 1 => widest,
        2 => least.max(widest - 1),
        _ => r.between(least, widest),
    };
    out.board = Board::version_2(inside(r, 0, on), inside(r, 1, off));
    out
}

/// The network, or in a quarter of the cases one like it with margins.
pub fn on_some_board(r: &mut Random, net: Net) -> Net {
    if r.below(4) == 0 {
        tolerant(r, &net)
    } else {
        net
    }
}

/// The network with one of its margins one too wide for some gate, and the other one kept. None where no sum is so near that a margin could
/// reach it.
pub fn near_miss(r: &mut Random, net: &Net) -> Option<Net> {
    let (on, off) = widest(net);
    let too_far_on = |r: &mut Random| Board::version_2(on + 1, r.between(1, off));
    let too_far_off = |r: &mut Random| Board::version_2(r.between(0, on), off + 1);
    let board = match (on < 255, off < 255) {
        (true, true) if r.below(2) == 0 => too_far_on(r),
        (_, true) => too_far_off(r),
        (true, false) => too_far_on(r),
        (false, false) => return None,
    };
    Some(Net { board, ..net.clone() })
}

/// A file with some bytes changed, taken away or added.
pub fn damaged(r: &mut Random, file: &[u8]) -> Vec<u8> {
    let mut out = file.to_vec();
    for _ in 0..1 + r.below(3) {
        if out.is_empty() {
            break;
        }
        let at = r.below(out.len() as u64) as usize;
        match r.below(8) {
            0 => out.truncate(at),
            1 => out.push(r.next() as u8),
            2 => {
                out.remove(at);
            }
            3 => out.insert(at, r.next() as u8),
            4 => out[at] = out[at].wrapping_add(1),
            5 => out[at] = out[at].wrapping_sub(1),
            6 => out[at] ^= 0x80,
            _ => out[at] = r.next() as u8,
        }
    }
    out
}

// ---- networks for benchmarks

/// The largest network: 40 inputs, 128 gates of 16 feeds, 16 outputs.
pub fn largest(r: &mut Random) -> Net {
    let inputs = 40;
    let mut net = Net { board: Board::VERSION_1, inputs, gates: vec![], outputs: vec![] };
    for g in 0..128 {
        let mut signals: Vec<usize> = vec![];
        while signals.len() < 16 {
            let s = r.below((inputs + g) as u64) as usize;
            if !signals.contains(&s) {
                signals.push(s);
            }
        }
        signals.sort();
        let feeds = with_weights(r, signals, |r| {
            let size = r.between(1, 1_000_000);
            vote(r, size, 1)
        });
        net.gates.push(Gate { feeds, threshold: 500_000 });
    }
    net.outputs = (0..16).map(|j| inputs + 112 + j).collect();
    net
}

/// The largest network with margins, both 10: its weights are multiples of 20, and its thresholds lie in the middle between two.
pub fn largest_tolerant(r: &mut Random) -> Net {
    let mut net = largest(r);
    for gate in &mut net.gates {
        gate.feeds.iter_mut().for_each(|f| f.1 = 20 * (f.1 / 20 + f.1.signum()).clamp(-50_000, 50_000));
        gate.threshold += 10;
    }
    net.board = Board::version_2(10, 10);
    net
}

/// Two gates with 16 distinct feeds, each 1 if all of its feeds are, whose merge agrees with k and l only where these are equal: its
/// nearest sum below is then k below its threshold. Without margins the pair is 1 and 1; with the off margin n it is n and n, or there is
/// none where n is above 32.
pub fn narrow(off: i64) -> Net {
    let all_of = |signals: Range<usize>| Gate { threshold: 401 * signals.len() as i64 - 200, feeds: signals.map(|s| (s, 401)).collect() };
    let gates = vec![all_of(0..15), all_of(15..17)];
    Net { board: Board::version_2(200, off), inputs: 16, gates, outputs: vec![17] }
}

/// Two gates with n distinct feeds and no pair: every pair disagrees on the last setting, on which all feeds are 1, and on no other.
pub fn last_setting_only(n: usize) -> Net {
    let u = Gate { feeds: (0..n).map(|s| (s, 33)).collect(), threshold: 33 * n as i64 - 32 };
    let v = Gate { feeds: vec![(n, 1)], threshold: 2 };
    Net { board: Board::VERSION_1, inputs: n, gates: vec![u, v], outputs: vec![n + 1] }
}

/// Two gates with 16 distinct feeds whose merge with 1 and 1 differs where `least` of them or more are lit: u is 1 where one fewer is, and
/// v never is; it agrees where `least` is 17.
pub fn lit_from(least: u32) -> Net {
    let u = Gate { feeds: (0..16).map(|s| (s, 1)).collect(), threshold: least as i64 - 1 };
    let v = Gate { feeds: vec![(16, 1)], threshold: 2 };
    Net { board: Board::VERSION_1, inputs: 16, gates: vec![u, v], outputs: vec![17] }
}

/// Two gates by the weights of each on 16 inputs, 0 for none: the second has the threshold `off` and counts the first with `off - on`.
fn two_gates(us: [i64; 16], vs: [i64; 16], own: i64, on: i64, off: i64) -> Net {
    let feeds = |weights: [i64; 16]| (0..16).map(|s| (s, weights[s])).filter(|f| f.1 != 0).collect::<Vec<_>>();
    let mut other = feeds(vs);
    other.push((16, off - on));
    Net {
        board: Board::VERSION_1,
        inputs: 16,
        gates: vec![Gate { feeds: feeds(us), threshold: own }, Gate { feeds: other, threshold: off }],
        outputs: vec![17],
    }
}

/// Two gates with 16 distinct feeds that only 31 and 32 serve: one great weight and seven small ones each, and thresholds that leave k / l
/// no more than 30 / 31 to 32 / 33.
pub fn ratio_31_32() -> Net {
    let (mut us, mut vs) = ([0; 16], [0; 16]);
    us[..7].fill(1);
    vs[8..15].fill(1);
    us[7] = 64 * 480;
    vs[15] = 62 * 480;
    two_gates(us, vs, 31 * 480, 32 * 480, 72 * 480)
}

/// The pairs with 16 distinct feeds that take the most whole passes over the settings, of all that a search over weights has found: the
/// first with a search that tries setting by setting, the next two with one that tries 256 at a time and remembers what differed, the last
/// two with one that finds the tightest bounds of k / l first.
pub fn most_passes() -> [Net; 5] {
    [
        two_gates(
            [34, -8, -40, 7, -16, -12, -31, -32, 45, 39, -11, -41, -13, -14, 16, 22],
            [111, 0, -32, 37, 2, 2, -1, 4, -4, 1, -44, 38, -1, 0, 1, 30],
            9,
            -27,
            -20,
        ),
        two_gates(
            [0, 0, 0, 4, 1, 3, 150, 33, 0, 1, 0, 0, 1, 1, 1, 1],
            [-1, -1, 1, -1, 24, 57, 30, 37, 1, 0, 1, 1, 0, 0, 0, 0],
            12,
            -4,
            5,
        ),
        two_gates(
            [-227, 0, 4, 760, 151, 160, 9, 1851, -2010, 241, 1823, 715, 795, 2, -173, -3297],
            [-132, -169, 86, -154, 1986, 0, 3000, -802, 0, 1415, 2576, 2, 260, 2081, -39571, 574],
            44192,
            -119060,
            -8303,
        ),
        two_gates(
            [51327, 50942, 10109, 6935, 0, -786566, 65335, 1, 36847, 8192, -9152, 1979, 0, -10159, -9465, 151],
            [-16429, -16282, -801269, 4102, 3, -4864, 2, 8268, -30045, 0, 8508, 17378, -32162, 0, -14495, 32449],
            -155318,
            -162295,
            121182,
        ),
        two_gates(
            [-7159, 0, -3657, -8207, 0, 12564, -1404, -5381, -2052, 6352, -7419, -21217, -32012, -16, 7930, 28862],
            [-24574, 3, 8197, -8196, -61372, -8196, 0, -2, 0, 16383, 0, 4, 2, 14, 8185, -4],
            -3834,
            -16410,
            -13646,
        ),
    ]
}

/// Two gates with 16 distinct feeds and weights at random, up to the scale's end; thresholds near an end of their sums or in the middle.
pub fn wide_pair(r: &mut Random) -> Net {
    let largest = [1, 3, 9, 40, 1000, 20_000, 1_000_000][r.below(7) as usize];
    let against = quarters_against(r);
    let style = r.below(3);
    let (mut us, mut vs) = ([0; 16], [0; 16]);
    for s in 0..16 {
        let own = r.below(2) == 0;
        let weight = |r: &mut Random| {
            let size = r.between(1, largest);
            vote(r, size, against)
        };
        if style > 0 || own {
            us[s] = weight(r);
        }
        // at most 15 of v's feeds are inputs: the last place is u's
        if s < 15 && (style == 2 || !own) {
            vs[s] = weight(r);
        }
    }
    us[15] = us[15].max(1);
    let threshold = |r: &mut Random, weights: [i64; 16]| {
        let (low, high) = ends(&weights.map(|w| (0, w)));
        on_scale(match r.below(4) {
            0 => high,
            1 => low + 1,
            _ => r.between(low, high + 1),
        })
    };
    let own = threshold(r, us);
    let off = threshold(r, vs);
    let b = on_scale(r.between(1, largest * 8));
    let on = if r.below(2) == 0 { off - b } else { off + b };
    two_gates(us, vs, own, on, off)
}

/// A chain in which no gate folds, with n distinct feeds for each pair of neighbours (n even): every gate is 1 if all of its feeds are, and
/// neighbours have no input in common, so that u can be 1 and one input of v's 0; no multipliers up to 32 tell that from all inputs 1.
pub fn standing_chain(gates: usize, n: usize) -> Net {
    let inputs = n - 1;
    let gate = |g: usize| {
        let own = if g % 2 == 0 { 0..n / 2 } else { n / 2..inputs };
        let mut feeds: Vec<(usize, i64)> = own.map(|s| (s, 33)).collect();
        if g > 0 {
            feeds.push((inputs + g - 1, 33));
        }
        let threshold = 33 * feeds.len() as i64 - 32;
        Gate { feeds, threshold }
    };
    Net { board: Board::VERSION_1, inputs, gates: (0..gates).map(gate).collect(), outputs: vec![inputs + gates - 1] }
}

/// A full network in which no gate folds: 128 gates, each with 15 inputs and the gate before it (the first with 16 inputs), and weights at
/// random.
pub fn full_standing(r: &mut Random) -> Net {
    let inputs = 16;
    let mut net = Net { board: Board::VERSION_1, inputs, gates: vec![], outputs: vec![inputs + 127] };
    for g in 0..128 {
        let mut signals: Vec<usize> = (0..inputs).collect();
        if g > 0 {
            signals[15] = inputs + g - 1;
        }
        let feeds: Vec<(usize, i64)> = signals.into_iter().map(|s| (s, r.between(1, 1000))).collect();
        let threshold = feeds.iter().map(|f| f.1).sum::<i64>() / 2;
        net.gates.push(Gate { feeds, threshold });
    }
    net
}

/// A full network that folds into one gate: 128 gates, each 1 if all of its 16 feeds are, 15 inputs and the gate before it (the first 16
/// inputs).
pub fn full_folding() -> Net {
    let inputs = 16;
    let gate = |g: usize| {
        let mut feeds: Vec<(usize, i64)> = (0..inputs).map(|s| (s, 1)).collect();
        if g > 0 {
            feeds[15] = (inputs + g - 1, 1);
        }
        Gate { feeds, threshold: 16 }
    };
    Net { board: Board::VERSION_1, inputs, gates: (0..128).map(gate).collect(), outputs: vec![inputs + 127] }
}

/// A chain that folds into one gate: each is 1 if an input or the gate before it is, with 16 inputs in turn.
pub fn folding_chain(gates: usize) -> Net {
    let inputs = 16;
    let gate = |g: usize| {
        let mut feeds = vec![(g % inputs, 1)];
        if g > 0 {
            feeds.push((inputs + g - 1, 1));
        }
        Gate { feeds, threshold: 1 }
    };
    Net { board: Board::VERSION_1, inputs, gates: (0..gates).map(gate).collect(), outputs: vec![inputs + gates - 1] }
}

/// A lattice on 16 inputs: each gate reads the 16 signals before it, with votes at random, and the output names the last, which needs every
/// gate. The number of ways down to the inputs nearly doubles with each gate.
pub fn lattice(r: &mut Random, gates: usize) -> Net {
    let inputs = 16;
    let mut net = Net { board: Board::VERSION_1, inputs, gates: vec![], outputs: vec![inputs + gates - 1] };
    for g in 0..gates {
        let feeds = with_weights(r, (g..g + 16).collect(), |r| {
            let size = r.between(1, 1000);
            vote(r, size, 2)
        });
        let (low, high) = ends(&feeds);
        net.gates.push(Gate { feeds, threshold: (low + high) / 2 });
    }
    net
}

/// Gates of which the lower half stands, with 16 distinct feeds, and the upper half folds gate by gate, so that a sweep begins again at the
/// lower half each time.
pub fn mixed_chain(gates: usize) -> Net {
    let mut net = standing_chain(gates / 2, 16);
    let stood = net.inputs + gates / 2;
    for own in stood..net.inputs + gates {
        let mut feeds = vec![(own % net.inputs, 1)];
        if own > stood {
            feeds.push((own - 1, 1));
        }
        net.gates.push(Gate { feeds, threshold: 1 });
    }
    net.outputs.push(net.inputs + gates - 1);
    net
}

/// A gate that is 1 if all of its feeds are, with the weights 33: a sum is 32 above its threshold where all are 1, and 1 below it where all
/// but one are.
fn all_of(signals: impl Iterator<Item = usize>) -> Gate {
    let mut feeds: Vec<(usize, i64)> = signals.map(|s| (s, 33)).collect();
    feeds.sort();
    Gate { threshold: 33 * feeds.len() as i64 - 32, feeds }
}

/// Outputs that share what folds: 16, each 1 if 6 gates of its own are, which stand and are the lowest, and 8 copies of inputs, the same for
/// all outputs. Every collapse of a copy changes every output, so that all 96 pairs of a gate that stands are searched again.
pub fn shared_grid() -> Net {
    let inputs = 40;
    let mut net = Net { board: Board::VERSION_1, inputs, gates: vec![], outputs: vec![] };
    let three = |g: usize| (0..3).map(move |i| 8 + (3 * g + i) % 32);
    (0..96).for_each(|g| net.gates.push(all_of(three(g))));
    let copies = inputs + 96;
    (0..8).for_each(|s| net.gates.push(Gate { feeds: vec![(s, 33)], threshold: 33 }));
    for output in 0..16 {
        let own = inputs + 6 * output;
        net.gates.push(all_of((own..own + 6).chain(copies..copies + 8)));
        net.outputs.push(copies + 8 + output);
    }
    net
}

/// Low gates with so many readers each, all of which would fold but the last, so that nothing folds of the low gates: 8 gates of 8 inputs,
/// and a chain of readers, each 1 if all low gates and the reader before it are. The last reader's sums are 32 above its threshold.
pub fn many_readers(readers: usize) -> Net {
    let inputs = 8;
    let every = |signals: Range<usize>| Gate { threshold: signals.len() as i64, feeds: signals.map(|s| (s, 1)).collect() };
    let mut net = Net { board: Board::VERSION_1, inputs, gates: vec![every(0..inputs); 8], outputs: vec![inputs + 8 + readers - 1] };
    for reader in 0..readers {
        let own = inputs + 8 + reader;
        let signals = (inputs..inputs + 8).chain((reader > 0).then_some(own - 1));
        let mut gate = all_of(signals);
        if reader + 1 < readers {
            gate.threshold += 32;
        }
        net.gates.push(gate);
    }
    net
}

/// Outputs that are never 1, 16 of them, with 6 gates each that are 1 if their 11 inputs are: every pair has 16 distinct feeds, and each k and
/// l differs where all of the 11 are 1 only.
pub fn late_grid() -> Net {
    let inputs = 16;
    let mut net = Net { board: Board::VERSION_1, inputs, gates: vec![], outputs: vec![] };
    (0..96).for_each(|g| net.gates.push(all_of((0..11).map(move |i| (g + i) % 16))));
    for output in 0..16 {
        let own = inputs + 6 * output;
        net.gates.push(Gate { feeds: (own..own + 6).map(|s| (s, 1)).collect(), threshold: 7 });
        net.outputs.push(inputs + 96 + output);
    }
    net
}

/// Gates that fold with 1 and 1 into one that asks for all or for one of its feeds, with margins of 1 and 255, which every fold keeps:
/// weights 500 times as great, and thresholds 1 lower still. Each merge takes a threshold down by 1 more.
pub fn heavier(net: &Net) -> Net {
    let mut out = net.clone();
    for gate in &mut out.gates {
        gate.feeds.iter_mut().for_each(|f| f.1 *= 500);
        gate.threshold = 500 * gate.threshold - 1;
    }
    out.board = Board::version_2(1, 255);
    out
}
