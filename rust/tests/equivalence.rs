//! The comparison of two files: against all frames by the independent implementation where inputs are few, on pairs of 40 inputs that are
//! alike or part on one frame by the way that they are made, and against the solver clasp where it is installed; with budgets from 0 on, in
//! both orders, on files of both versions; and its refusals.
use std::collections::BTreeMap;
use std::path::Path;
use std::thread;
use yovrenik_tests::generate::{against, chain, damaged, full_folding, heavy, inverters, largest, near_miss, network, on_some_board};
use yovrenik_tests::generate::{lattice, mixed_chain, shared_grid, Random};
use yovrenik_tests::pairs::{folded, merges, moved_thresholds, moved_weights, parting_frame, swept};
use yovrenik_tests::reference::{self as paper, Net};
use yovrenik_tests::structures::{adder, chain_from, chain_to, multiplier, rack, sorters, tangle, Adding, Carries, Sorting};
use yovrenik_tests::*;

const MARK: u64 = 0xA5A5_A5A5_A5A5_A5A5;

/// The budget with which masks and their folds are to be decided.
const STEPS: u64 = 1_000_000;

/// Up to so many inputs a comparison always decides.
const ALWAYS: usize = 20;

/// Whether the library says that two networks part, with a budget; none where it is undecided, which it never is up to 20 inputs. It takes no
/// more steps than the budget; a frame is one on which the two differ; and the places after the third are as they were.
fn said(first: &Net, second: &Net, budget: u64) -> Option<bool> {
    let mut answer = [MARK; 5];
    assert_eq!(compare(&paper::write(first), &paper::write(second), budget, &mut answer), 0);
    let [verdict, frame, steps, rest @ ..] = answer;
    assert!(steps <= budget && rest == [MARK; 2], "{answer:?} with {budget}");
    match verdict {
        1 => {
            assert_ne!(paper::frame(first, frame).unwrap().0, paper::frame(second, frame).unwrap().0);
            Some(true)
        }
        0 => {
            assert_eq!(frame, 0);
            Some(false)
        }
        _ => {
            assert_eq!((verdict, frame), (2, 0));
            assert!(first.inputs > ALWAYS, "undecided with {budget}: {first:?} {second:?}");
            None
        }
    }
}

/// Whether two networks part by a budget, in both orders; none where one of them is undecided. With 0, 1 and 100 steps nothing is said that is
/// unlike it.
fn parted(first: &Net, second: &Net, budget: u64) -> Option<bool> {
    let both = |budget: u64| [said(first, second, budget), said(second, first, budget)];
    let [one, other] = both(budget);
    let known = one.or(other);
    for some in [0, 1, 100].into_iter().flat_map(both).chain([other]).flatten() {
        assert_eq!(known, Some(some), "{first:?} {second:?}");
    }
    one.and(other)
}

/// One of a list, any.
fn any<T>(r: &mut Random, mut list: Vec<T>) -> Option<T> {
    (!list.is_empty()).then(|| list.swap_remove(r.below(list.len() as u64) as usize))
}

/// What a network is compared with: its folds, one merge, near misses of its fold by a threshold and by a weight, its outputs in another order
/// and the other version of the file.
fn others(r: &mut Random, net: &Net) -> Vec<Net> {
    let fold = swept(net);
    let mut turned = net.clone();
    turned.outputs.reverse();
    let mut others = vec![turned, folded(r, net)];
    others.extend(merges(r, net, 1));
    for _ in 0..3 {
        others.extend(any(r, moved_thresholds(&fold)));
        others.extend(any(r, moved_weights(&fold)));
    }
    if let Ok(file) = paper::convert(&paper::write(&fold), LONGEST_FILE) {
        others.push(paper::read(&file).unwrap());
    }
    others.push(fold);
    others
}

// ---- refusals

/// The code of a comparison of two files with so many places.
fn refusal(first: &[u8], second: &[u8], places: usize) -> u8 {
    match (paper::read(first), paper::read(second)) {
        (Err(code), _) | (_, Err(code)) => code,
        _ if places < 3 => 18,
        (Ok(one), Ok(other)) if one.inputs != other.inputs || one.outputs.len() != other.outputs.len() => 19,
        _ => 0,
    }
}

/// Any two of a file, damaged ones, one that breaks its margins and one of another network, with 0 to 5 places.
#[test]
fn refusals_in_their_order() {
    let mut r = Random::new(51);
    let mut codes: BTreeMap<(u8, &str), u32> = BTreeMap::new();
    let mut before = paper::write(&network(&mut r, 4, 3));
    for _ in 0..2_000 {
        let net = network(&mut r, 6, 5);
        let net = on_some_board(&mut r, net);
        let file = paper::write(&net);
        let mut files = vec![file.clone(), paper::write(&swept(&net)), damaged(&mut r, &file), damaged(&mut r, &file), before];
        files.extend(near_miss(&mut r, &net).map(|net| paper::write(&net)));
        for _ in 0..12 {
            let [first, second] = [0; 2].map(|_| &files[r.below(files.len() as u64) as usize]);
            let mut answer = [MARK; 5];
            let places = r.below(6) as usize;
            let code = compare(first, second, r.below(100), &mut answer[..places]);
            assert_eq!(code, refusal(first, second, places), "{first:?} {second:?} {places}");
            let written = if code == 0 { 3 } else { 0 };
            assert!(answer[written..].iter().all(|&place| place == MARK));
            assert!(answer[..written].iter().all(|&place| place != MARK));
            let whose = if paper::read(first).is_err() { "first" } else { "second or none" };
            *codes.entry((code, whose)).or_default() += 1;
        }
        before = file;
    }
    println!("comparisons by their code: {codes:?}");
    for code in (1..=9).chain([24]) {
        assert!(["first", "second or none"].iter().all(|whose| codes.contains_key(&(code, whose))), "{code}");
    }
    assert!([0, 18, 19].iter().all(|code| codes[&(*code, "second or none")] >= 500));
    assert_eq!((compare(&[], &[], 0, &mut []), compare(&before, &[], 0, &mut []), compare(&before, &before, 0, &mut [])), (1, 1, 18));
}

// ---- few inputs

/// Random networks of up to 12 inputs against what they are compared with, and against the network before.
#[test]
fn as_on_all_frames() {
    let mut r = Random::new(52);
    let (mut alike, mut apart) = (0, 0);
    let mut before = network(&mut r, 4, 3);
    for round in 0..160 {
        let net = match round % 8 {
            0 => chain(&mut r),
            1 => inverters(&mut r),
            2 => against(&mut r),
            3 => heavy(&mut r),
            4 => tangle(&mut r, 12, 20, 2..7, 5),
            _ => network(&mut r, 12, 6),
        };
        if net.inputs > 12 {
            continue;
        }
        let net = on_some_board(&mut r, net);
        let mut others = others(&mut r, &net);
        if before.inputs == net.inputs && before.outputs.len() == net.outputs.len() {
            others.push(before);
        }
        for other in others {
            let parts = parting_frame(&net, &other).is_some();
            assert_eq!(parted(&net, &other, STEPS), Some(parts), "{net:?} {other:?}");
            assert_eq!(said(&net, &other, u64::MAX), Some(parts));
            (alike, apart) = (alike + !parts as u32, apart + parts as u32);
        }
        before = net;
    }
    println!("{alike} pairs are alike, {apart} are apart");
    assert!(alike >= 700 && apart >= 150);
}

/// Up to 20 inputs a comparison decides whatever the budget is: structures made in two ways, near misses of them, chains that part on one
/// frame, and full networks.
#[test]
fn always_up_to_20_inputs() {
    let mut r = Random::new(53);
    let mut pairs = vec![
        (adder(10, 11, Carries::Ripple), adder(10, 11, Carries::LookAhead(3))),
        (adder(9, 3, Carries::Groups(4)), adder(9, 3, Carries::LookAhead(2))),
        (multiplier(5, 5, Adding::Rows), multiplier(5, 5, Adding::Columns)),
        (sorters(1, 16, 0..16, Sorting::Merging), sorters(1, 16, 0..16, Sorting::Counting)),
        (sorters(2, 9, 3..6, Sorting::Bubbling), sorters(2, 9, 3..6, Sorting::Merging)),
    ];
    let near = pairs.iter().map(|(one, other)| (one.clone(), any(&mut r, moved_thresholds(other)).unwrap()));
    let near: Vec<(Net, Net)> = near.collect();
    pairs.extend(near);
    for inputs in 17..=20 {
        let frame = r.next() >> (64 - inputs) & !1;
        let (to, from) = (chain_to(frame, inputs), chain_from(frame, inputs));
        pairs.extend([(folded(&mut r, &to), last_moved(&to)), (folded(&mut r, &from), first_moved(&from))]);
    }
    let full = [lattice(&mut r, 128), tangle(&mut r, 20, 128, 16..17, 9)];
    pairs.extend(full.map(|net| (net.clone(), any(&mut r, moved_weights(&net)).unwrap())));
    for (one, other) in &pairs {
        let parts = parting_frame(one, other).is_some();
        assert!([0, 1, 10_000].iter().all(|&budget| said(one, other, budget) == Some(parts)));
    }
    let (one, other) = &pairs[0];
    assert_eq!((said(one, other, u64::MAX), said(other, one, u64::MAX)), (Some(false), Some(false)));
}

// ---- 40 inputs

/// The network with the last gate's threshold one higher.
fn last_moved(net: &Net) -> Net {
    let mut other = net.clone();
    other.gates.last_mut().unwrap().threshold += 1;
    other
}

/// The network with the first gate's threshold one higher.
fn first_moved(net: &Net) -> Net {
    let mut other = net.clone();
    other.gates[0].threshold += 1;
    other
}

/// The frame that a comparison gives of two networks that are apart.
fn frame_given(first: &Net, second: &Net) -> u64 {
    let mut answer = [MARK; 3];
    assert_eq!(compare(&paper::write(first), &paper::write(second), STEPS, &mut answer), 0);
    assert_eq!(answer[0], 1);
    answer[1]
}

/// Chains of 40 patches that part on one frame of all: the last gate's threshold moved by one, or the first gate's; as they are, and folded.
#[test]
fn one_frame_of_all() {
    let mut r = Random::new(54);
    for round in 0..12 {
        let frame = [0, (1 << 40) - 2, r.next() >> 24 & !1][round.min(2)];
        let (to, from) = (chain_to(frame, 40), chain_from(frame, 40));
        let (to_folded, from_folded) = (folded(&mut r, &to), folded(&mut r, &from));
        let pairs = [
            (&to, last_moved(&to)),
            (&to, last_moved(&to_folded)),
            (&to_folded, last_moved(&to)),
            (&from, first_moved(&from)),
            (&from_folded, first_moved(&from)),
        ];
        for (one, other) in pairs {
            assert_eq!(parted(one, &other, STEPS), Some(true));
            assert_eq!((frame_given(one, &other), frame_given(&other, one)), (frame, frame));
            assert_eq!(said(one, &other, u64::MAX), Some(true));
        }
        assert_eq!((parted(&to, &to_folded, STEPS), parted(&from, &from_folded, u64::MAX)), (Some(false), Some(false)));
    }
}

/// Masks of 40 patches, and networks that fold.
fn masks(r: &mut Random) -> Vec<Net> {
    let mut nets: Vec<Net> = (2..14).map(|width| rack(r, width)).collect();
    nets.extend([Carries::Ripple, Carries::Groups(3), Carries::LookAhead(4)].map(|carries| adder(20, 12, carries)));
    nets.extend([sorters(10, 4, 1..2, Sorting::Merging), sorters(1, 24, 0..2, Sorting::Bubbling), multiplier(20, 2, Adding::Rows)]);
    nets.extend([full_folding(), mixed_chain(64), shared_grid()]);
    nets.extend([1..4, 2..6, 2..9].map(|feeds| tangle(r, 40, 128, feeds, 9)));
    nets.into_iter().map(|net| on_some_board(r, net)).collect()
}

/// The same numbers again, whatever the places held before, and on another thread at the same time.
#[test]
fn the_same_again() {
    let mut r = Random::new(57);
    for net in masks(&mut r) {
        let fold = swept(&net);
        let near = any(&mut r, moved_thresholds(&fold)).unwrap();
        let files = [&net, &fold, &near].map(paper::write);
        for budget in [0, 1, 10_000] {
            let all = |before: u64| {
                let mut answers = [before; 6];
                assert_eq!(compare(&files[0], &files[1], budget, &mut answers[..3]), 0);
                assert_eq!(compare(&files[0], &files[2], budget, &mut answers[3..]), 0);
                answers
            };
            let (one, other) = thread::scope(|scope| {
                let other = scope.spawn(|| all(0));
                (all(MARK), other.join().unwrap())
            });
            assert_eq!((one, all(1)), (other, other));
        }
    }
}

/// Every mask and its fold, two folds of it, and single merges are found alike.
#[test]
fn folds_are_alike() {
    let mut r = Random::new(55);
    let full = [largest(&mut r), tangle(&mut r, 40, 128, 16..17, 9), lattice(&mut r, 128)];
    for net in masks(&mut r).into_iter().chain(full) {
        let (fold, other) = (swept(&net), folded(&mut r, &net));
        assert_eq!((parted(&net, &fold, STEPS), parted(&fold, &other, STEPS)), (Some(false), Some(false)), "{net:?}");
        for merged in merges(&mut r, &net, 2) {
            assert_eq!(said(&net, &merged, STEPS), Some(false), "{net:?}");
        }
    }
}

/// Near misses of folds: nearly all are decided, and as clasp decides them where it is installed.
#[test]
fn near_misses() {
    let mut r = Random::new(56);
    let path = Path::new(env!("CARGO_TARGET_TMPDIR")).join("near_misses.opb");
    let there = solver::is_there();
    let (mut pairs, mut undecided, mut apart, mut asked) = (0, 0, 0, 0);
    for net in masks(&mut r) {
        let fold = swept(&net);
        for other in (0..2).flat_map(|_| [any(&mut r, moved_thresholds(&fold)), any(&mut r, moved_weights(&fold))]).flatten() {
            let parts = parted(&net, &other, STEPS);
            let solvable = if there { solver::ask(&path, &paper::write(&net), &paper::write(&other), 1).solvable } else { None };
            assert!(parts.is_none() || solvable.is_none() || parts == solvable, "{net:?} {other:?}");
            (pairs, undecided, apart) = (pairs + 1, undecided + parts.is_none() as u32, apart + (parts == Some(true)) as u32);
            asked += solvable.is_some() as u32;
        }
    }
    println!("{pairs} near misses, {apart} apart and {undecided} undecided; clasp decides {asked} of them");
    assert!(pairs >= 90 && apart >= 40 && 100 * undecided <= pairs);
}
