//! Lists of frames that the library reads in one pass, against single readings by the independent implementation and by the library, on
//! random, full and damaged files with fixed seeds.
use std::collections::BTreeMap;
use yovrenik_tests::generate::{
    against, chain, damaged, heavy, inverters, largest, largest_tolerant, near_miss, network, on_some_board, tolerant, wide, Random,
};
use yovrenik_tests::reference::{self as paper, Net};
use yovrenik_tests::*;

const MARK: u64 = 0xA5A5_A5A5_A5A5_A5A5;

/// How often each code was answered.
type Codes = BTreeMap<u8, u32>;

/// A list of frames read in one pass, with so many places, against single readings by the paper: the code, the words, and every place
/// after them.
fn frames_agree(codes: &mut Codes, file: &[u8], want: &Result<Net, u8>, list: &[u64], places: usize) {
    let mut answers = vec![MARK; places];
    let got = frames(file, list, &mut answers);
    match want.as_ref().map_err(|&k| k).and_then(|net| paper::frames(net, list, places)) {
        Ok(words) => {
            assert_eq!((got, &answers[..list.len()]), (0, &words[..]));
            assert!(answers[list.len()..].iter().all(|&a| a == MARK));
        }
        Err(k) => {
            assert_eq!(got, k);
            assert!(answers.iter().all(|&a| a == MARK));
        }
    }
    *codes.entry(got).or_default() += 1;
}

/// Frames that fit so many inputs.
fn fitting(r: &mut Random, inputs: usize, count: usize) -> Vec<u64> {
    (0..count).map(|_| r.next() >> (64 - inputs)).collect()
}

/// The same frame with a bit at some place past the inputs.
fn long(r: &mut Random, inputs: usize, frame: u64) -> u64 {
    frame | 1 << (inputs as u64 + r.below(64 - inputs as u64))
}

/// A list of up to 66 frames with places for one less, all, or more of them; at times one frame is long.
fn some_frames(r: &mut Random, codes: &mut Codes, file: &[u8]) {
    let want = paper::read(file);
    let inputs = want.as_ref().map_or(40, |net| net.inputs);
    let count = r.below(67) as usize;
    let mut list = fitting(r, inputs, count);
    if count > 0 && r.below(4) == 0 {
        let at = r.below(count as u64) as usize;
        list[at] = long(r, inputs, list[at]);
    }
    let places = [count.saturating_sub(1), count, count, count + 1, count + r.below(10) as usize][r.below(5) as usize];
    frames_agree(codes, file, &want, &list, places);
}

#[test]
fn random_and_damaged_files() {
    let mut r = Random::new(10);
    let mut codes = Codes::new();
    for _ in 0..4_000 {
        let net = network(&mut r, 12, 16);
        let net = on_some_board(&mut r, net);
        let file = paper::write(&net);
        for _ in 0..3 {
            some_frames(&mut r, &mut codes, &file);
            let broken = damaged(&mut r, &file);
            some_frames(&mut r, &mut codes, &broken);
        }
        if let Some(net) = near_miss(&mut r, &net) {
            some_frames(&mut r, &mut codes, &paper::write(&net));
        }
    }
    println!("lists of frames by their code: {codes:?}");
    assert!([0, 10, 24, 26].iter().all(|k| codes[k] >= 1_000));
    assert!((1..10).all(|k| codes.contains_key(&k)));
}

/// Every number of frames from 0 to 66 with too few, all and more places, and a long frame at every place, on networks of all kinds and on
/// full ones.
#[test]
fn every_number_of_frames() {
    let mut r = Random::new(11);
    let mut nets = vec![largest(&mut r), largest(&mut r), wide(&mut r), heavy(&mut r), chain(&mut r), inverters(&mut r), against(&mut r)];
    nets.extend((0..10).map(|_| network(&mut r, 12, 16)));
    let net = network(&mut r, 12, 16);
    nets.push(tolerant(&mut r, &net));
    let mut codes = Codes::new();
    for net in nets {
        let inputs = net.inputs;
        let file = paper::write(&net);
        let want = Ok(net);
        for count in 0..=66 {
            let list = fitting(&mut r, inputs, count);
            for places in [0, count.saturating_sub(1), count, count + 1, 66, 70] {
                frames_agree(&mut codes, &file, &want, &list, places);
            }
            for at in 0..count {
                let mut list = list.clone();
                list[at] = long(&mut r, inputs, list[at]);
                let places = count + r.below(3) as usize - r.below(2) as usize;
                frames_agree(&mut codes, &file, &want, &list, places);
            }
        }
    }
    println!("lists of frames by their code: {codes:?}");
    assert!([0, 10, 26].iter().all(|k| codes[k] >= 1_000));
}

/// A list of frames says of each frame what the call for one frame says.
#[test]
fn frames_as_single_ones() {
    let mut r = Random::new(12);
    for n in 0..300 {
        let net = match n {
            0..10 => largest(&mut r),
            10 => largest_tolerant(&mut r),
            _ => network(&mut r, 60, 16),
        };
        let file = paper::write(&net);
        let list = fitting(&mut r, net.inputs, 64);
        let mut answers = [MARK; 64];
        assert_eq!(frames(&file, &list, &mut answers), 0);
        for (&x, &word) in list.iter().zip(&answers) {
            let mut answer = [MARK; 2];
            assert_eq!((frame(&file, x, &mut answer), answer[0]), (0, word));
        }
    }
}
