//! Files of version 2 and their margins, the library against the independent implementation with fixed seeds: margins at and beside each
//! bound, cut and damaged files of both versions, merges, pairs, previews and lists of calls that margins decide, witnesses, the converter,
//! and every other call on such files. Each test counts what it came to, and asks for so much of it.
use std::collections::BTreeMap;
use yovrenik_tests::exact;
use yovrenik_tests::generate::{
    against, chain, damaged, heavy, inverters, largest, largest_tolerant, narrow, near_miss, network, tolerant, wide, wide_pair, widest,
    Random,
};
use yovrenik_tests::reference::{self as paper, Board, Gate, Net};
use yovrenik_tests::*;

const MARK: u64 = 0xA5A5_A5A5_A5A5_A5A5;

fn code<T>(answer: &Result<T, u8>) -> u8 {
    match answer {
        Ok(_) => 0,
        Err(code) => *code,
    }
}

/// How often a run came to what.
#[derive(Default)]
struct Reached(BTreeMap<String, u64>);

impl Reached {
    fn count(&mut self, what: &str, happened: bool) {
        *self.0.entry(what.to_string()).or_default() += happened as u64;
    }

    /// Prints what the run came to, and asks for so much of it.
    fn at_least(&self, wanted: &[(&str, u64)]) {
        println!("reached: {:#?}", self.0);
        for &(what, least) in wanted {
            let count = self.0.get(what).copied().unwrap_or(0);
            assert!(count >= least, "{what}: {count} of {least}");
        }
    }
}

/// A network of some kind, with margins that it keeps.
fn some_network(r: &mut Random) -> Net {
    let net = match r.below(8) {
        0..=2 => chain(r),
        3 => inverters(r),
        4 => against(r),
        5 => heavy(r),
        _ => network(r, 9, 4),
    };
    tolerant(r, &net)
}

/// Whether the margins ask for anything.
fn has_margins(net: &Net) -> bool {
    (net.board.on, net.board.off) != (0, 1)
}

/// The same gates as version 1 has them.
fn bare(net: &Net) -> Net {
    Net { board: Board::VERSION_1, ..net.clone() }
}

/// The library's file after a list, and the answers to its calls, four numbers each.
fn after_calls(file: &[u8], calls: &[[u64; 5]]) -> (Vec<u64>, Vec<u8>) {
    let mut answers = vec![MARK; 1 + 4 * calls.len()];
    let mut out = vec![170u8; 11_000];
    assert_eq!(run(file, &calls.concat(), &mut answers, &mut out), 0);
    out.truncate(answers.remove(0) as usize);
    (answers, out)
}

// ---- files

/// A gate that the inputs feed in turn, as a file of version 2.
fn one_gate(weights: &[i64], threshold: i64, on: i64, off: i64) -> Vec<u8> {
    let feeds = weights.iter().copied().enumerate().collect();
    paper::write(&Net { board: Board::version_2(on, off), inputs: 16, gates: vec![Gate { feeds, threshold }], outputs: vec![16] })
}

/// Margins at and beside those that a gate keeps, where its nearest sums are so far above its threshold and so far below it, or there is
/// none: 24 is given exactly where a margin is wider.
fn at_and_beside(reached: &mut Reached, weights: &[i64], threshold: i64, above: Option<i64>, below: Option<i64>) {
    let beside = |least: i64, nearest: Option<i64>| {
        let mut margins: Vec<i64> = nearest.map_or(vec![], |n| vec![n - 1, n, n + 1]);
        margins.extend([least, 255]);
        margins.retain(|m| (least..=255).contains(m));
        margins.sort();
        margins.dedup();
        margins
    };
    for on in beside(0, above) {
        for off in beside(1, below) {
            let (on_breaks, off_breaks) = (above.is_some_and(|a| on > a), below.is_some_and(|b| off > b));
            let file = one_gate(weights, threshold, on, off);
            let want = if on_breaks || off_breaks { 24 } else { 0 };
            assert_eq!(check(&file), want, "{weights:?} {threshold} {on} {off}");
            assert_eq!(code(&paper::read(&file)), want, "{weights:?} {threshold} {on} {off}");
            reached.count("kept", want == 0);
            reached.count("kept, the on margin at its bound", want == 0 && above == Some(on));
            reached.count("kept, the off margin at its bound", want == 0 && below == Some(off));
            reached.count("24 by the on margin alone, one too wide", above == Some(on - 1) && !off_breaks);
            reached.count("24 by the off margin alone, one too wide", below == Some(off - 1) && !on_breaks);
            reached.count("24 by both", on_breaks && off_breaks);
        }
    }
}

/// Gates by hand: without feeds, with one feed at an end of the scale, and with sixteen.
#[test]
fn bounds_by_hand() {
    let mut reached = Reached::default();
    // without feeds the sum is 0
    for distance in [0, 1, 2, 100, 254, 255, 256, 1_000_000] {
        at_and_beside(&mut reached, &[], -distance, Some(distance), None);
        if distance > 0 {
            at_and_beside(&mut reached, &[], distance, None, Some(distance));
        }
    }
    for distance in [1, 2, 254, 255, 256, 999_999] {
        for n in [1, 16] {
            let (end, many) = (1_000_000, vec![1_000_000; n]);
            at_and_beside(&mut reached, &many, distance, Some(end - distance), Some(distance));
            at_and_beside(&mut reached, &many, end - distance, Some(distance), Some(end - distance));
            let against = vec![-end; n];
            at_and_beside(&mut reached, &against, -distance, Some(distance), Some(end - distance));
            at_and_beside(&mut reached, &against, distance - end, Some(end - distance), Some(distance));
        }
    }
    // F's first gate, with the sums 0, 3, 4 and 7
    for (threshold, above, below) in [(0, 0, None), (1, 2, Some(1)), (3, 0, Some(3)), (4, 0, Some(1)), (5, 2, Some(1)), (7, 0, Some(3))] {
        at_and_beside(&mut reached, &[4, 3], threshold, Some(above), below);
    }
    at_and_beside(&mut reached, &[4, 3], 8, None, Some(1));
    reached.at_least(&[
        ("kept", 250),
        ("kept, the on margin at its bound", 50),
        ("kept, the off margin at its bound", 50),
        ("24 by the on margin alone, one too wide", 50),
        ("24 by the off margin alone, one too wide", 50),
        ("24 by both", 20),
    ]);
}

/// Weights of which every setting has a sum of its own, in any order and of both signs: the sums are some multiples of a gap without a
/// hole between the least and the greatest.
fn parted(r: &mut Random, n: usize, gap: i64) -> Vec<i64> {
    let mut weights: Vec<i64> = (0..n).map(|i| if r.below(2) == 0 { gap << i } else { -gap << i }).collect();
    for i in (1..n).rev() {
        weights.swap(i, r.below(i as u64 + 1) as usize);
    }
    weights
}

fn sum_on(weights: &[i64], setting: u64) -> i64 {
    weights.iter().enumerate().filter(|(i, _)| setting >> i & 1 == 1).map(|(_, w)| w).sum()
}

/// The settings to try with so many feeds: all, or where they are many, none lit, one, all, all but one, and any.
fn settings(r: &mut Random, n: usize) -> Vec<u64> {
    let all = (1u64 << n) - 1;
    if n < 8 {
        return (0..=all).collect();
    }
    let ones = (0..n).flat_map(|i| [1 << i, all ^ 1 << i]);
    [0, all].into_iter().chain(ones).chain((0..40).map(|_| r.next() & all)).collect()
}

/// Every setting counts, whatever the number of feeds: only one of them has the sum that a margin reaches.
#[test]
fn every_setting_counts() {
    let mut r = Random::new(81);
    let mut reached = Reached::default();
    let mut tried = [0; 17];
    for n in 0..=16 {
        for setting in settings(&mut r, n) {
            let gap = r.between(1, (500_000 >> n).clamp(15, 300));
            let weights = parted(&mut r, n, gap);
            let above = r.between(0, gap - 1);
            let sum = sum_on(&weights, setting);
            let threshold = sum - above;
            if threshold.abs() <= 1_000_000 {
                let least: i64 = weights.iter().map(|w| w.min(&0)).sum();
                at_and_beside(&mut reached, &weights, threshold, Some(above), (sum > least).then_some(gap - above));
                tried[n] += 1;
            }
        }
    }
    println!("settings tried by the number of feeds: {tried:?}");
    assert!((0..=16).all(|n| tried[n] >= 55.min(1 << n)));
    reached.at_least(&[
        ("kept", 5_000),
        ("kept, the on margin at its bound", 2_000),
        ("kept, the off margin at its bound", 2_000),
        ("24 by the on margin alone, one too wide", 1_500),
        ("24 by the off margin alone, one too wide", 1_500),
        ("24 by both", 3_000),
    ]);
}

/// Where the bytes of gate g end in the file of a network.
fn end_of_gate(net: &Net, g: usize) -> usize {
    let head = if net.board.version == 2 { 10 } else { 8 };
    head + net.gates[..=g].iter().map(|gate| 5 + 5 * gate.feeds.len()).sum::<usize>()
}

/// Both versions cut at every byte, and a file whose margins are too wide: it is cut short before that gate's end, and then its margin
/// speaks, whatever follows.
#[test]
fn every_cut() {
    let mut r = Random::new(82);
    let mut reached = Reached::default();
    for _ in 0..400 {
        let net = some_network(&mut r);
        for net in [bare(&net), net.clone()] {
            let file = paper::write(&net);
            for end in 0..=file.len() {
                let want = if end < 8 { 1 } else { 4 };
                assert_eq!(check(&file[..end]), if end < file.len() { want } else { 0 }, "{net:?} {end}");
                reached.count("cut", end < file.len());
            }
        }
        let Some(broken) = near_miss(&mut r, &net) else { continue };
        let at = broken.gates.iter().position(|gate| !gate.keeps(broken.board)).unwrap();
        let (file, from) = (paper::write(&broken), end_of_gate(&broken, at));
        for end in 8..=file.len() {
            assert_eq!(check(&file[..end]), if end < from { 4 } else { 24 }, "{broken:?} {end}");
        }
        for _ in 0..8 {
            let mut other = file[..from].to_vec();
            let rest = r.below(30);
            other.extend((0..rest).map(|_| r.next() as u8));
            assert_eq!(check(&other), 24, "{broken:?}");
        }
        reached.count("too wide for the first gate", at == 0);
        reached.count("too wide for a later gate", at > 0);
        reached.count("too wide for the last of several gates", at > 0 && at + 1 == broken.gates.len());
        reached.count("too wide, the on margin", broken.board.on > widest(&broken).0);
        reached.count("too wide, the off margin", broken.board.off > widest(&broken).1);
    }
    reached.at_least(&[
        ("cut", 50_000),
        ("too wide for the first gate", 100),
        ("too wide for a later gate", 70),
        ("too wide for the last of several gates", 20),
        ("too wide, the on margin", 100),
        ("too wide, the off margin", 100),
    ]);
}

/// Every version, on a file of each: 1 and 2 are read, any other gives 2, and the file of the one version is none of the other.
#[test]
fn every_version() {
    let mut r = Random::new(83);
    let net = some_network(&mut r);
    for net in [bare(&net), net] {
        let mut file = paper::write(&net);
        let mut read = 0;
        for version in 0..=u16::MAX {
            file[3..5].copy_from_slice(&version.to_le_bytes());
            let want = paper::read(&file);
            assert_eq!(check(&file), code(&want));
            assert_eq!(code(&want) == 2, version != 1 && version != 2);
            read += want.is_ok() as u32;
        }
        assert_eq!(read, 1);
    }
}

/// The head of a version 2 file, field by field: a missing byte is 4 before that field's value, and one off its limits 3.
#[test]
fn heads() {
    let mut r = Random::new(84);
    let mut codes = BTreeMap::new();
    let limits: [(u8, u8); 5] = [(0, 255), (1, 255), (1, 40), (1, 128), (1, 16)];
    for round in 0..20_000 {
        let length = r.below(6) as usize;
        let field = |r: &mut Random, (low, high): (u8, u8)| match r.below(8) {
            0 => r.next() as u8,
            1 => low.wrapping_sub(1),
            2 => high.wrapping_add(1),
            3 => low,
            4 => high,
            _ => r.between(low as i64, high as i64) as u8,
        };
        let fields: Vec<u8> = limits[..length].iter().map(|&limit| field(&mut r, limit)).collect();
        let off_limits = fields.iter().zip(limits).any(|(field, (low, high))| !(low..=high).contains(field));
        let want = match length {
            0..=2 => 1,
            _ if off_limits => 3,
            _ => 4,
        };
        let file = [b"PMN\x02\x00", &fields[..]].concat();
        assert_eq!((check(&file), code(&paper::read(&file))), (want, want), "round {round}: {file:?}");
        *codes.entry((length, want)).or_insert(0) += 1;
    }
    println!("heads by their number of fields and code: {codes:?}");
    assert!((3..6).all(|n| codes[&(n, 3)] >= 500 && codes[&(n, 4)] >= 300));
}

/// Damaged files of version 2, with margins that are kept or one too wide: the first fault in the file's order speaks.
#[test]
fn damaged_files() {
    let mut r = Random::new(85);
    let mut codes = [0; 25];
    for round in 0..60_000 {
        let mut net = some_network(&mut r);
        if round % 2 == 0 {
            net = near_miss(&mut r, &net).unwrap_or(net);
        }
        let file = damaged(&mut r, &paper::write(&net));
        let want = paper::read(&file);
        assert_eq!(check(&file), code(&want), "{file:?}");
        codes[code(&want) as usize] += 1;
    }
    println!("damaged files of version 2 by their code: {codes:?}");
    assert!(codes[..10].iter().all(|&count| count >= 400) && codes[24] >= 10_000);
}

// ---- merges and pairs

/// The edges of a network: a gate, and one that it feeds.
fn edges(net: &Net) -> Vec<(usize, usize)> {
    let gates = net.inputs..net.inputs + net.gates.len();
    gates.flat_map(|u| net.readers(u).into_iter().map(move |v| (u, v))).collect()
}

/// Multipliers for a merge: those of the pair, with the margins or without them, some that agree, small ones, or any.
fn multipliers(r: &mut Random, net: &Net, u: usize, v: usize) -> (u64, u64) {
    let (plain, u, v) = (bare(net), u as u64, v as u64);
    let small = |r: &mut Random| (1 + r.below(8), 1 + r.below(8));
    let pair = match r.below(6) {
        0 => exact::pair_with_margins(net, u, v),
        1 => exact::pair(&plain, u, v),
        2 | 3 => (0..20).map(|_| small(r)).find(|&(k, l)| paper::merge(&plain, u, v, k, l).is_ok()).ok_or(16),
        4 => Ok(small(r)),
        _ => Ok((1 + r.below(34), 1 + r.below(34))),
    };
    pair.unwrap_or((1, 1))
}

/// One merge by the library against the paper, its witness, and what the file is afterwards; the answer is its code.
fn merge_agrees(net: &Net, file: &[u8], [u, v, k, l]: [u64; 4]) -> u8 {
    let want = paper::merge(net, u, v, k, l);
    let (answers, after) = after_calls(file, &[[0, u, v, k, l]]);
    assert_eq!(answers, [code(&want) as u64, 0, 0, 0], "{net:?} {u} {v} {k} {l}");
    assert_eq!(after, want.as_ref().map_or(file.to_vec(), paper::write), "{net:?} {u} {v} {k} {l}");
    let mut answer = [MARK; 2];
    assert_eq!(witness(file, u, v, k, l, &mut answer), code(&want), "{net:?} {u} {v} {k} {l}");
    match paper::witnesses(net, u, v, k, l) {
        Ok(settings) if !settings.is_empty() => assert!(settings.contains(&answer[0]) && answer[1] == MARK, "{net:?} {u} {v} {k} {l}"),
        _ => assert_eq!(answer, [MARK; 2], "{net:?} {u} {v} {k} {l}"),
    }
    code(&want)
}

/// Small multipliers that agree without margins and with which the merged gate's sums come nearer to its threshold than those of the
/// network's gates, from above if possible, and the same gates with margins at the merged gate's bounds or one wider.
fn at_the_bound(r: &mut Random, net: &Net, u: usize, v: usize) -> Option<(Net, u64, u64)> {
    let plain = bare(net);
    let (on, off) = widest(net);
    let nearest = |gate: &Gate| widest(&Net { gates: vec![gate.clone()], ..plain.clone() });
    let all = (1..=8).flat_map(|k| (1..=8).map(move |l| (k, l)));
    let merged = all.filter_map(|(k, l)| Some((k, l, nearest(paper::merge(&plain, u as u64, v as u64, k, l).ok()?.gate(v)))));
    let (above, below): (Vec<_>, Vec<_>) = merged.filter(|&(_, _, (a, b))| a < on || b < off).partition(|&(_, _, (a, _))| a < on);
    let choice = if above.is_empty() { below } else { above };
    let &(k, l, (a, b)) = choice.get(r.below(choice.len().max(1) as u64) as usize)?;
    let board = Board::version_2(on.min(a + r.between(0, 1)), off.min(b + r.between(0, 1)));
    Some((Net { board, ..net.clone() }, k, l))
}

/// Merges with margins: each with what it would be without them, which says whether it agrees.
#[test]
fn merges() {
    let mut r = Random::new(86);
    let mut reached = Reached::default();
    for round in 0..30_000 {
        let net = some_network(&mut r);
        let edges = edges(&net);
        if edges.is_empty() || !has_margins(&net) {
            continue;
        }
        let (u, v) = edges[r.below(edges.len() as u64) as usize];
        let at_the_bound = if round % 2 == 0 { at_the_bound(&mut r, &net, u, v) } else { None };
        let (k, l) = multipliers(&mut r, &net, u, v);
        let (net, k, l) = at_the_bound.unwrap_or((net, k, l));
        let merge = [u as u64, v as u64, k, l];
        let got = merge_agrees(&net, &paper::write(&net), merge);
        let without = paper::merge(&bare(&net), u as u64, v as u64, k, l);
        let against = net.gate(v).weight(u).unwrap() < 0;
        let dropped = |gate: &Gate| gate.feeds.len() < paper::distinct(&net, u as u64, v as u64).unwrap().len();
        let (on, off) = (net.board.on, net.board.off);
        match (got, &without) {
            (0, Ok(next)) => {
                reached.count("accepted", true);
                reached.count("accepted, a vote against", against);
                reached.count("accepted, a feed dropped", dropped(next.gate(v)));
            }
            (24, Ok(next)) => {
                let gate = next.gate(v);
                let keeps = |on, off| gate.keeps(Board::version_2(on, off));
                reached.count("24, agrees", true);
                reached.count("24, agrees, a vote against", against);
                reached.count("24, agrees, a feed dropped", dropped(gate));
                reached.count("24, agrees, no feed left", gate.feeds.is_empty());
                reached.count("24, agrees, by the on margin alone", keeps(0, off));
                reached.count("24, agrees, by the off margin alone", keeps(on, 1));
                reached.count("24, agrees, by both", !keeps(0, off) && !keeps(on, 1));
                reached.count("24, agrees, a vote against that would keep them exchanged", against && keeps(off - 1, on + 1));
            }
            (24, Err(15)) => {
                reached.count("24, disagrees", true);
                reached.count("24, disagrees, a vote against", against);
            }
            (15, Err(15)) => {
                reached.count("15", true);
                reached.count("15, a vote against", against);
            }
            (6 | 7 | 14, Err(code)) => {
                assert_eq!(got, *code);
                reached.count("6, 7 or 14 as without margins", true);
            }
            _ => panic!("{net:?} {merge:?}: {got}, and without margins {without:?}"),
        }
    }
    reached.at_least(&[
        ("accepted", 8_000),
        ("accepted, a vote against", 4_500),
        ("accepted, a feed dropped", 300),
        ("24, agrees", 3_000),
        ("24, agrees, a vote against", 2_500),
        ("24, agrees, a feed dropped", 50),
        ("24, agrees, no feed left", 50),
        ("24, agrees, by the on margin alone", 300),
        ("24, agrees, by the off margin alone", 2_500),
        ("24, agrees, by both", 2),
        ("24, agrees, a vote against that would keep them exchanged", 1_500),
        ("24, disagrees", 900),
        ("24, disagrees, a vote against", 500),
        ("15", 1_500),
        ("15, a vote against", 1_000),
        ("6, 7 or 14 as without margins", 500),
    ]);
}

/// Every setting of the distinct feeds counts in a merge: u and v are never 1 and far from it, u votes against v, and only one setting
/// brings the merged gate as near to its threshold as a margin reaches. The merged gate is 1 on some setting, which is 15 where no margin
/// is broken.
#[test]
fn every_setting_counts_in_a_merge() {
    let mut r = Random::new(87);
    let mut reached = Reached::default();
    for n in 2..=16 {
        for setting in settings(&mut r, n) {
            let gap = r.between(2, (200_000 >> n).clamp(6, 60));
            // the weights of the merged gate with 1 and 1
            let weights = parted(&mut r, n, gap);
            let split = r.between(1, n as i64 - 1) as usize;
            let (above, sum) = (r.between(0, gap - 1), sum_on(&weights, setting));
            let high = |weights: &[i64]| weights.iter().map(|w| w.max(&0)).sum::<i64>();
            // both thresholds are out of reach, and the merged one, own less u's and 1 more, is `above` below the sum
            let us: Vec<i64> = weights[..split].iter().map(|w| -w).collect();
            let (mut tu, mut tv) = (high(&us) + 300, high(&weights[split..]) + 300);
            let missing = sum - above - (tv - tu + 1);
            *(if missing > 0 { &mut tv } else { &mut tu }) += missing.abs();
            // k and l: all distances are as many times as great
            let times = r.between(1, 3);
            let multiplied = weights.iter().copied().chain([sum - above]).map(|z| times * z.abs());
            if multiplied.chain([tu, tv]).any(|z| z > 1_000_000) {
                continue;
            }
            let u = Gate { feeds: us.into_iter().enumerate().collect(), threshold: tu };
            let mut feeds: Vec<(usize, i64)> = (split..n).map(|i| (i, weights[i])).collect();
            feeds.push((n, -1));
            let v = Gate { feeds, threshold: tv };
            let some_below = sum > weights.iter().map(|w| w.min(&0)).sum();
            for (wider_on, wider_off) in [(0, 0), (1, 0), (0, 1)] {
                let on = times * above + wider_on;
                let off = if some_below { times * (gap - above) + wider_off } else { 255 };
                let (on_breaks, off_breaks) = (wider_on == 1, wider_off == 1 && some_below);
                let want = if on_breaks || off_breaks { 24 } else { 15 };
                let net = Net { board: Board::version_2(on, off), inputs: n, gates: vec![u.clone(), v.clone()], outputs: vec![n + 1] };
                let call = [n as u64, n as u64 + 1, times as u64, times as u64];
                assert_eq!(merge_agrees(&net, &paper::write(&net), call), want, "{net:?} {call:?}");
                reached.count("15", want == 15);
                reached.count("24 by the on margin", on_breaks);
                reached.count("24 by the off margin", off_breaks);
                reached.count("24, 16 distinct feeds", want == 24 && n == 16);
            }
        }
    }
    reached.at_least(&[("15", 500), ("24 by the on margin", 500), ("24 by the off margin", 500), ("24, 16 distinct feeds", 100)]);
}

/// Pairs with margins, and what they are without them.
#[test]
fn pairs() {
    let mut r = Random::new(88);
    let mut reached = Reached::default();
    for _ in 0..8_000 {
        let net = some_network(&mut r);
        if !has_margins(&net) {
            continue;
        }
        let (file, plain) = (paper::write(&net), bare(&net));
        for (u, v) in edges(&net).into_iter().take(4) {
            let want = paper::pair(&net, u as u64, v as u64);
            let mut answer = [MARK; 3];
            let got = pair(&file, u as u64, v as u64, &mut answer);
            assert_eq!((got, answer), want.map_or_else(|k| (k, [MARK; 3]), |(k, l)| (0, [k, l, MARK])), "{net:?} {u} {v}");
            let against = net.gate(v).weight(u).unwrap() < 0;
            match (want, exact::pair(&plain, u as u64, v as u64)) {
                (Ok((k, l)), Ok(without)) => {
                    reached.count("as without margins", (k, l) == without);
                    reached.count("other than without margins", (k, l) != without);
                    reached.count("other, a vote against", against && (k, l) != without);
                    reached.count("other, a greater k", k > without.0);
                    reached.count("other, a greater l", l > without.1);
                    assert!(k + l > without.0 + without.1 || (k + l == without.0 + without.1 && k >= without.0), "{net:?} {u} {v}");
                }
                (Err(16), Ok(_)) => {
                    reached.count("none, and one without margins", true);
                    reached.count("none, and one without margins, a vote for", !against);
                    reached.count("none, and one without margins, a vote against", against);
                }
                (Err(16), Err(16)) => reached.count("none with or without", true),
                (Err(7), Err(7)) => reached.count("7", true),
                other => panic!("{net:?} {u} {v}: {other:?}"),
            }
        }
    }
    reached.at_least(&[
        ("as without margins", 4_500),
        ("other than without margins", 3_500),
        ("other, a vote against", 2_500),
        ("other, a greater k", 3_000),
        ("other, a greater l", 1_200),
        ("none, and one without margins", 800),
        ("none, and one without margins, a vote for", 25),
        ("none, and one without margins, a vote against", 800),
        ("none with or without", 1_200),
    ]);
}

/// Pairs with 16 distinct feeds, for which trying every candidate setting by setting takes too long, against the exact method's form for
/// any margins, and previews by them.
#[test]
fn wide_pairs() {
    let mut r = Random::new(89);
    let mut reached = Reached::default();
    for round in 0..1_600 {
        let net = if round % 2 == 0 { wide_pair(&mut r) } else { wide(&mut r) };
        let net = tolerant(&mut r, &net);
        let (u, v) = (net.inputs as u64, net.inputs as u64 + 1);
        let file = paper::write(&net);
        let want = exact::pair_with_margins(&net, u, v);
        let (mut answer, mut shown) = ([MARK; 2], [MARK; 3]);
        let got = pair(&file, u, v, &mut answer);
        assert_eq!((got, answer), want.map_or_else(|k| (k, [MARK; 2]), |(k, l)| (0, [k, l])), "{net:?}");
        let previewed = paper::preview_by(&net, u, exact::pair_with_margins);
        assert_eq!(preview(&file, u, &mut shown), code(&previewed));
        assert_eq!(shown, previewed.unwrap_or([MARK; 3]));
        let without = exact::pair(&bare(&net), u, v);
        reached.count("7", want == Err(7));
        reached.count("found", want.is_ok() && has_margins(&net));
        reached.count("other than without margins", want.is_ok() && want != without);
        reached.count("none, and one without margins", want == Err(16) && without.is_ok());
        reached.count("none with or without", without == Err(16));
    }
    for off in 1..=40 {
        let net = narrow(off);
        let mut answer = [MARK; 2];
        let got = pair(&paper::write(&net), 16, 17, &mut answer);
        assert_eq!((got, answer), if off <= 32 { (0, [off as u64; 2]) } else { (16, [MARK; 2]) });
        let mut answer = [MARK; 2];
        assert_eq!((pair(&paper::write(&bare(&net)), 16, 17, &mut answer), answer), (0, [1, 1]));
    }
    reached.at_least(&[
        ("7", 150),
        ("found", 250),
        ("other than without margins", 100),
        ("none, and one without margins", 15),
        ("none with or without", 500),
    ]);
}

// ---- lists of calls

/// A call of some kind: merges of an edge, drops, collapses, sweeps and previews.
fn some_call(r: &mut Random, net: &Net) -> [u64; 5] {
    // now and then one past the last gate
    let past = (r.below(20) == 0) as u64;
    let gate = net.inputs as u64 + r.below(net.gates.len() as u64 + past);
    let edges = edges(net);
    match r.below(8) {
        0..=2 if !edges.is_empty() => {
            let (u, v) = edges[r.below(edges.len() as u64) as usize];
            let (k, l) = multipliers(r, net, u, v);
            [0, u as u64, v as u64, k, l]
        }
        3 => [1, gate, r.next(), r.next(), r.next()],
        4 => [3, if r.below(8) == 0 { r.below(200) } else { r.below(4) }, 0, 0, r.next()],
        5 => [4, gate, r.next(), r.next(), r.next()],
        _ => [2, gate, r.next(), 0, 0],
    }
}

/// One call by the paper: its code, its three numbers, and the network that it leaves; and what it would be without margins.
fn apply(reached: &mut Reached, net: &Net, call: &[u64; 5]) -> (u8, [u64; 3], Net) {
    let plain = bare(net);
    let answer = match call[0] {
        0 => {
            let answer = paper::merge(net, call[1], call[2], call[3], call[4]);
            reached.count("merge accepted", answer.is_ok());
            reached.count("merge 24", answer == Err(24));
            reached.count("merge 15", answer == Err(15));
            answer
        }
        1 => paper::drop_gate(net, call[1]),
        2 => {
            let answer = paper::collapse(net, call[1]);
            let without = paper::collapse(&plain, call[1]);
            reached.count("collapse accepted", answer.is_ok());
            let other_gates = matches!((&answer, &without), (Ok(one), Ok(other)) if one.gates != other.gates);
            reached.count("collapse other than without margins", other_gates);
            reached.count("collapse 16, and accepted without margins", answer == Err(16) && without.is_ok());
            answer
        }
        3 => match paper::sweep(net, call[1]) {
            Ok((next, collapses)) => {
                let (other, without) = paper::sweep(&plain, call[1]).unwrap();
                reached.count("sweep with collapses", !collapses.is_empty());
                reached.count("sweep with more collapses without margins", collapses.len() < without.len());
                let other_gates = collapses.len() == without.len() && next.gates != other.gates;
                reached.count("sweep with as many, and other gates without margins", other_gates);
                return (0, [collapses.len() as u64, 0, 0], next);
            }
            Err(code) => Err(code),
        },
        _ => {
            let answer = paper::preview(net, call[1]);
            let without = paper::preview(&plain, call[1]);
            reached.count("preview accepted", answer.is_ok());
            reached.count("preview accepted, other than without margins", answer.is_ok() && answer != without);
            reached.count("preview 16, and accepted without margins", answer == Err(16) && without.is_ok());
            return (code(&answer), answer.unwrap_or_default(), net.clone());
        }
    };
    match answer {
        Ok(next) => (0, [0; 3], next),
        Err(code) => (code, [0; 3], net.clone()),
    }
}

/// Lists of calls on files with margins: answers, the file afterwards, which is of version 2 with the same margins and keeps them, and the
/// same readings as before.
#[test]
fn lists_of_calls() {
    let mut r = Random::new(90);
    let mut reached = Reached::default();
    for round in 0..8_000 {
        let net = some_network(&mut r);
        let file = paper::write(&net);
        let (mut list, mut want, mut now) = (vec![], vec![], net.clone());
        for _ in 0..r.below(7) {
            let call = some_call(&mut r, &now);
            let (code, numbers, next) = apply(&mut reached, &now, &call);
            want.push(code as u64);
            want.extend(numbers);
            list.push(call);
            now = next;
        }
        let (answers, after) = after_calls(&file, &list);
        assert_eq!(answers, want, "{net:?} {list:?}");
        assert_eq!(after, paper::write(&now), "{net:?} {list:?}");
        assert_eq!((&after[..7], check(&after)), (&file[..7], 0), "{net:?} {list:?}");
        for _ in 0..4 {
            let x = r.next() >> (64 - net.inputs);
            let (mut one, mut other) = ([MARK; 2], [MARK; 2]);
            assert_eq!((frame(&file, x, &mut one), frame(&after, x, &mut other)), (0, 0));
            assert_eq!(one, other, "{net:?} {list:?} on {x}");
        }
        // just enough room, one byte less, and a byte and a place after it
        let mut answers = vec![MARK; 2 + want.len()];
        let mut out = vec![170u8; after.len() + 1];
        if round % 4 == 0 {
            assert_eq!(run(&file, &list.concat(), &mut answers, &mut out[..after.len() - 1]), 18);
            assert!(answers.iter().all(|&a| a == MARK) && out.iter().all(|&b| b == 170));
        }
        assert_eq!(run(&file, &list.concat(), &mut answers, &mut out), 0);
        assert_eq!((&answers[1..=want.len()], answers[want.len() + 1]), (&want[..], MARK));
        assert_eq!((&out[..after.len()], out[after.len()]), (&after[..], 170));
    }
    reached.at_least(&[
        ("merge accepted", 2_500),
        ("merge 24", 900),
        ("merge 15", 900),
        ("collapse accepted", 2_000),
        ("collapse other than without margins", 450),
        ("collapse 16, and accepted without margins", 150),
        ("sweep with collapses", 1_200),
        ("sweep with more collapses without margins", 75),
        ("sweep with as many, and other gates without margins", 250),
        ("preview accepted", 800),
        ("preview accepted, other than without margins", 200),
        ("preview 16, and accepted without margins", 70),
    ]);
}

/// The file of the largest network has 10,906 bytes in version 2 and as many less two in version 1: a list on it needs that much room.
#[test]
fn the_longest_file() {
    let net = largest_tolerant(&mut Random::new(91));
    for (net, length) in [(bare(&net), LONGEST_FILE - 2), (net, LONGEST_FILE)] {
        let file = paper::write(&net);
        assert_eq!((file.len(), check(&file), paper::read(&file)), (length, 0, Ok(net)));
        for room in [length - 1, length, length + 1, LONGEST_FILE + 1] {
            let (mut answers, mut out) = ([MARK; 1], vec![170u8; room]);
            let got = run(&file, &[], &mut answers, &mut out);
            if room < length {
                assert_eq!((got, answers), (18, [MARK]));
                assert!(out.iter().all(|&b| b == 170));
            } else {
                assert_eq!((got, answers), (0, [length as u64]));
                assert_eq!(&out[..length], &file[..]);
                assert!(out[length..].iter().all(|&b| b == 170));
            }
        }
    }
}

// ---- the converter

/// The converter on a file, with room for a byte less, all of the other file, and more, and with no place, one and more.
fn convert_agrees(reached: &mut Reached, file: &[u8]) {
    let read = paper::read(file);
    let whole = paper::convert(file, LONGEST_FILE);
    let length = whole.as_ref().map_or(file.len(), |other| other.len());
    for room in [0, length.saturating_sub(1), length, length + 1, 11_000] {
        for places in [0, 1, 3] {
            let mut out = vec![170u8; room];
            let mut answer = vec![MARK; places];
            let got = convert(file, &mut out, &mut answer);
            let want = match (&read, places) {
                (Ok(_), 0) => Err(18),
                _ => paper::convert(file, room),
            };
            match &want {
                Ok(other) => {
                    assert_eq!(got, 0, "{file:?}");
                    assert_eq!((&out[..other.len()], answer[0]), (&other[..], other.len() as u64), "{file:?}");
                    assert!(out[other.len()..].iter().all(|&b| b == 170) && answer[1..].iter().all(|&a| a == MARK));
                }
                Err(code) => {
                    assert_eq!(got, *code, "{file:?}");
                    assert!(out.iter().all(|&b| b == 170) && answer.iter().all(|&a| a == MARK));
                }
            }
            let wide = whole == Err(25);
            reached.count("1 into 2", want.is_ok() && file[3] == 1);
            reached.count("2 into 1", want.is_ok() && file[3] == 2);
            reached.count("as read", read.is_err());
            reached.count("as read, 24", code(&read) == 24);
            reached.count("25", want == Err(25));
            reached.count("25, with no room for any file", want == Err(25) && room == 0);
            reached.count("18, no place, before 25", want == Err(18) && places == 0 && wide);
            reached.count("18, no place", want == Err(18) && places == 0 && !wide);
            reached.count("18, one byte too few", want == Err(18) && places > 0 && room == length - 1);
        }
    }
    if let Ok(other) = &whole {
        assert_eq!(paper::convert(other, LONGEST_FILE).as_deref(), Ok(file));
        let mut back = vec![170u8; file.len()];
        let mut answer = [MARK; 1];
        assert_eq!((convert(other, &mut back, &mut answer), answer), (0, [file.len() as u64]));
        assert_eq!(back, file);
        reached.count("there and back", true);
    }
}

#[test]
fn converter() {
    let mut r = Random::new(92);
    let mut reached = Reached::default();
    for _ in 0..3_000 {
        let net = some_network(&mut r);
        let near = near_miss(&mut r, &net);
        let second = Net { board: Board::version_2(0, 1), ..net.clone() };
        for net in [bare(&net), second.clone(), net].iter().chain(&near) {
            let file = paper::write(net);
            convert_agrees(&mut reached, &file);
            convert_agrees(&mut reached, &damaged(&mut r, &file));
        }
        // the bytes by hand: two more, or two fewer, after the version
        let (one, two) = (paper::write(&bare(&second)), paper::write(&second));
        assert_eq!(two, [&b"PMN\x02\x00\x00\x01"[..], &one[5..]].concat());
        let mut out = vec![170u8; two.len()];
        assert_eq!((convert(&one, &mut out, &mut [MARK]), &out), (0, &two));
    }
    let net = largest(&mut r);
    convert_agrees(&mut reached, &paper::write(&net));
    convert_agrees(&mut reached, &paper::write(&Net { board: Board::version_2(0, 1), ..net }));
    convert_agrees(&mut reached, &paper::write(&largest_tolerant(&mut r)));
    reached.at_least(&[
        ("1 into 2", 15_000),
        ("2 into 1", 15_000),
        ("as read", 100_000),
        ("as read, 24", 40_000),
        ("25", 15_000),
        ("25, with no room for any file", 3_000),
        ("18, no place, before 25", 5_000),
        ("18, no place", 20_000),
        ("18, one byte too few", 10_000),
        ("there and back", 6_000),
    ]);
}

/// Every pair of margins on a gate that keeps them all: the converter takes 0 and 1, and no other.
#[test]
fn every_margin() {
    let mut taken = vec![];
    for on in 0..=255 {
        for off in 0..=255 {
            // the sums are 0 and 600, with 300 between
            let file = one_gate(&[600], 300, on, off);
            let mut out = [170u8; 100];
            let got = convert(&file, &mut out, &mut [MARK]);
            assert_eq!(got, code(&paper::convert(&file, 100)));
            assert_eq!(got, if off == 0 { 3 } else { 25 * ((on, off) != (0, 1)) as u8 });
            if got == 0 {
                taken.push((on, off));
            }
        }
    }
    assert_eq!(taken, [(0, 1)]);
}

// ---- the other calls

/// Frames, reports, lines, parts, distinct feeds and writes of files of version 2: as the paper says, and as the file of version 1 with the
/// same gates says; a write gives the version that was read.
#[test]
fn other_calls() {
    let mut r = Random::new(93);
    let (mut framed, mut parted, mut lined, mut fed) = (0, 0, 0, 0);
    for _ in 0..2_000 {
        let net = some_network(&mut r);
        let plain = bare(&net);
        let (file, first) = (paper::write(&net), paper::write(&plain));
        let (mut out, mut answer) = (vec![170u8; 11_000], [MARK; 4]);
        assert_eq!((write(&file, &mut out, &mut answer), answer), (0, [file.len() as u64, MARK, MARK, MARK]));
        assert_eq!(&out[..file.len()], &file[..]);
        assert!(out[file.len()..].iter().all(|&b| b == 170));
        assert_eq!(write(&file, &mut out[..file.len() - 1], &mut answer), 18);

        let list: Vec<u64> = (0..5).map(|_| r.next() >> (64 - net.inputs)).collect();
        let mut words = [MARK; 6];
        assert_eq!(frames(&file, &list, &mut words), 0);
        for (i, &x) in list.iter().enumerate() {
            let (bits, ones) = paper::frame(&net, x).unwrap();
            for file in [&file, &first] {
                answer = [MARK; 4];
                assert_eq!((frame(file, x, &mut answer), answer), (0, [bits, ones, MARK, MARK]), "{net:?} {x}");
            }
            assert_eq!(words[i], bits);
            framed += 1;
        }
        assert_eq!(words[5], MARK);
        answer = [MARK; 4];
        assert_eq!(frame(&file, 1 << net.inputs, &mut answer), 10);
        let [gates, cost, levels] = paper::report(&net);
        assert_eq!((report(&file, &mut answer), answer), (0, [gates, cost, levels, MARK]), "{net:?}");

        for signal in 0..(net.inputs + net.gates.len() + 1) as u64 {
            let want = paper::part(&file, signal);
            assert_eq!(want, paper::part(&first, signal));
            for file in [&file, &first] {
                out.fill(170);
                answer = [MARK; 4];
                let got = part(file, signal, &mut out, &mut answer);
                let bytes = want.as_deref().unwrap_or(&[]);
                let length = if want.is_ok() { bytes.len() as u64 } else { MARK };
                assert_eq!((got, answer), (code(&want), [length, MARK, MARK, MARK]), "{net:?} {signal}");
                assert_eq!(&out[..bytes.len()], bytes);
                assert!(out[bytes.len()..].iter().all(|&b| b == 170));
            }
            parted += want.is_ok() as u32;
        }
        for (u, v) in edges(&net).into_iter().take(2) {
            let mut want = [MARK; 18];
            if let Ok(signals) = paper::distinct(&net, u as u64, v as u64) {
                want[0] = signals.len() as u64;
                signals.iter().enumerate().for_each(|(i, &s)| want[1 + i] = s as u64);
                fed += 1;
            }
            let mut places = [MARK; 18];
            assert_eq!(distinct(&file, u as u64, v as u64, &mut places), code(&paper::distinct(&net, u as u64, v as u64)));
            assert_eq!(places, want, "{net:?} {u} {v}");
        }

        // the question of files of both versions, before and after a sweep
        let (_, after) = after_calls(&file, &[[3, 128, 0, 0, 0]]);
        let want = paper::question(&net, &paper::read(&after).unwrap()).unwrap();
        for n in 0..=want.len() {
            for file in [&file, &first] {
                let (mut out, mut answer) = ([170u8; 254], [MARK; 2]);
                let got = line(file, &after, n as u64, &mut out, &mut answer);
                match want.get(n) {
                    Some(text) => {
                        assert_eq!((got, answer), (0, [text.len() as u64, MARK]), "{net:?} {n}");
                        assert_eq!(&out[..text.len()], text.as_bytes());
                        lined += 1;
                    }
                    None => assert_eq!((got, answer), (21, [MARK; 2])),
                }
            }
        }
    }
    println!("{framed} frames, {parted} parts, {lined} lines, {fed} lists of distinct feeds");
    assert!(framed >= 10_000 && parted >= 8_000 && lined >= 30_000 && fed >= 2_000);
}

/// A file whose margins are too wide is refused by every call, before all else, and nothing that was lent is touched.
#[test]
fn every_call_refuses_too_wide_margins() {
    let mut r = Random::new(94);
    let mut refused = 0;
    for _ in 0..2_000 {
        let good = some_network(&mut r);
        let Some(broken) = near_miss(&mut r, &good) else { continue };
        let (good, broken) = (paper::write(&good), paper::write(&broken));
        let (mut answer, mut out) = ([MARK; 20], vec![170u8; 11_000]);
        assert_eq!(check(&broken), 24);
        assert_eq!(frame(&broken, u64::MAX, &mut answer), 24);
        assert_eq!(frames(&broken, &[u64::MAX; 65], &mut answer), 24);
        assert_eq!(pair(&broken, 0, 0, &mut answer), 24);
        assert_eq!(witness(&broken, 0, 0, 0, 0, &mut answer), 24);
        assert_eq!(distinct(&broken, 0, 0, &mut answer), 24);
        assert_eq!(report(&broken, &mut answer), 24);
        assert_eq!(preview(&broken, 0, &mut answer), 24);
        assert_eq!(write(&broken, &mut out, &mut answer), 24);
        assert_eq!(convert(&broken, &mut out, &mut answer), 24);
        assert_eq!(cut(&broken, 0, &mut out, &mut answer), 24);
        assert_eq!(part(&broken, 0, &mut out, &mut answer), 24);
        assert_eq!(run(&broken, &[5], &mut answer, &mut out), 24);
        assert_eq!((line(&broken, &good, 0, &mut out, &mut answer), line(&good, &broken, 0, &mut out, &mut answer)), (24, 24));
        assert!(answer.iter().all(|&a| a == MARK) && out.iter().all(|&b| b == 170));
        // with no place either
        assert_eq!((frame(&broken, 0, &mut []), convert(&broken, &mut [], &mut []), run(&broken, &[], &mut [], &mut [])), (24, 24, 24));
        refused += 1;
    }
    println!("{refused} files were refused by every call");
    assert!(refused >= 1_000);
}
