//! The searched fold: never worse than a sweep, the list is what the library was given, the same list for the same seed, and no reading changes.
mod common;
#[path = "../../src/processor.rs"]
mod processor;

use common::{random_mask, sample, Random};
use pmn::{Call, Mask};
use pmn_command::comparison::{compare, How, Options, Verdict};
use pmn_command::files::Named;
use pmn_command::progress::Progress;
use pmn_command::search::{search, search_within, Found, Limits};

const SAMPLES: [&str; 9] = [
    "corner_pin.pmn",
    "f.pmn",
    "far_fold.pmn",
    "full_rack.pmn",
    "no_fold.pmn",
    "shadow_rack.pmn",
    "strapped_pin.pmn",
    "strict_pin.pmn",
    "tolerant_rack.pmn",
];

/// So many rounds, however long they take.
fn rounds(mask: &Mask, seed: u64, rounds: u32) -> Found {
    search_within(mask, seed, &Limits { rounds, time_is_over: &|| false }, &mut |_, _| ())
}

/// Two-input gates on earlier signals, of all eight kinds that one vote can be: an and-inverter circuit.
fn circuit(random: &mut Random, inputs: u8, gates: u8) -> Mask {
    const KINDS: [(i32, i32, i32); 8] = [(1, 1, 2), (1, -1, 1), (-1, 1, 1), (-1, -1, 0), (1, 1, 1), (-1, -1, -1), (1, -1, 0), (-1, 1, 0)];
    let mut below = |most: u64| random.below(most);
    let gate = |own: u8, below: &mut dyn FnMut(u64) -> u64| {
        let near = u64::from(own).min(10);
        let second = own - 1 - below(near) as u8;
        let first = below(u64::from(second.max(1))) as u8;
        let (one, two, threshold) = KINDS[below(8) as usize];
        if first == second {
            return (vec![(second, 1)], 1);
        }
        (vec![(first, one), (second, two)], threshold)
    };
    let list: Vec<_> = (0..gates).map(|g| gate(inputs + g, &mut below)).collect();
    let outputs: Vec<u8> = (0..4).map(|place| inputs + gates - 1 - place).collect();
    Mask::read(&common::mask(inputs, &list, &outputs)).unwrap()
}

/// What was found is what the library makes of the mask by the list, and is no larger than after a sweep.
fn test_found(mask: &Mask, found: &Found) {
    let (after, _) = mask.run(&found.calls);
    assert_eq!(after, found.mask);
    assert_eq!(after.report(), found.size);
    let swept = mask.run(&[Call::Sweep(128)]).0.report();
    assert!(found.size <= swept, "{:?} {swept:?}", found.size);
}

/// The two read alike, decided by frames.
fn test_alike(before: &Mask, after: &Mask) {
    let named = |name: &str, mask: &Mask| Named { name: name.to_string(), mask: mask.clone() };
    let compared = compare(&named("before", before), &named("after", after), &Options::default(), &mut Progress::new()).unwrap();
    assert_eq!(compared.verdict, Verdict::Alike);
    assert!(matches!(compared.how, How::EveryFrame(_) | How::EachOutput(_)));
}

#[test]
fn samples_are_folded_no_worse_than_by_a_sweep() {
    for name in SAMPLES {
        let mask = Mask::read(&sample(name)).unwrap();
        let found = rounds(&mask, 1, 2);
        test_found(&mask, &found);
        test_alike(&mask, &found.mask);
    }
}

#[test]
fn circuits_are_folded_further_than_by_a_sweep() {
    let mut random = Random(11);
    let (mut swept, mut searched) = (0, 0);
    for _ in 0..6 {
        let mask = circuit(&mut random, 12, 60);
        let found = rounds(&mask, 5, 2);
        test_found(&mask, &found);
        test_alike(&mask, &found.mask);
        swept += mask.run(&[Call::Sweep(128)]).0.report().gates;
        searched += found.size.gates;
    }
    assert!(searched < swept, "{searched} {swept}");
}

#[test]
fn any_masks_keep_their_readings() {
    let mut random = Random(3);
    for _ in 0..12 {
        let mask = Mask::read(&random_mask(&mut random, 8, 12)).unwrap();
        let found = rounds(&mask, 9, 1);
        test_found(&mask, &found);
        test_alike(&mask, &found.mask);
    }
}

#[test]
fn the_same_seed_finds_the_same_list() {
    let mask = circuit(&mut Random(7), 10, 50);
    let (one, two) = (rounds(&mask, 4, 1), rounds(&mask, 4, 1));
    assert_eq!(one.calls, two.calls);
    assert_eq!(one.mask, two.mask);
}

#[test]
fn the_time_ends_a_search() {
    let mask = circuit(&mut Random(8), 16, 100);
    let thread = processor::this_thread();
    let begin = processor::seconds(&thread).unwrap();
    let found = search(&mask, &pmn_command::search::Options { seconds: 0.3, seed: 1 }, &mut |_, _| ());
    test_found(&mask, &found);
    assert!(processor::seconds(&thread).unwrap() - begin < 10.0);
}
