//! The program `alley`, which `tests/library/make` puts into target/bin, against the independent implementation: byte for byte on random alleys with
//! refused lanes, on every cut of one, on 65,535 lanes and more, and on the sample. The one pass of the benchmarks is compared too.
use std::io::Write;
use std::process::{Command, Stdio};
use yovrenik_tests::direct;
use yovrenik_tests::generate::{damaged, largest, largest_tolerant, near_miss, network, on_some_board, tolerant, Random};
use yovrenik_tests::reference as paper;

/// What the program prints for an alley file on standard input, which comes in parts of a size.
fn printed(alley: &[u8], part: usize) -> String {
    let program = concat!(env!("CARGO_MANIFEST_DIR"), "/../target/bin/alley");
    let mut child = Command::new(program).stdin(Stdio::piped()).stdout(Stdio::piped()).spawn().expect("`tests/library/make alley` makes the program");
    let mut input = child.stdin.take().unwrap();
    let bytes = alley.to_vec();
    // the program passes over what follows the last lane, and may end the pipe early
    let writer = std::thread::spawn(move || bytes.chunks(part).all(|chunk| input.write_all(chunk).is_ok()));
    let output = child.wait_with_output().unwrap();
    writer.join().unwrap();
    assert!(output.status.success() && output.stderr.is_empty());
    String::from_utf8(output.stdout).unwrap()
}

/// The answer is the sheet.
fn agrees(alley: &[u8]) -> String {
    let want = paper::alley(alley);
    assert_eq!(printed(alley, 1 << 16), want);
    assert_eq!(printed(alley, 1000), want);
    assert_eq!(String::from_utf8(direct::alley(alley)).unwrap(), want);
    want
}

/// How many lanes of a sheet are refused with a number; 0 counts those that are not refused.
fn refusals(sheet: &str) -> [usize; 25] {
    let mut counts = [0; 25];
    for line in sheet.lines().filter(|line| !line.starts_with("total")) {
        let words: Vec<&str> = line.split(' ').collect();
        assert_eq!(words.len(), 3);
        counts[if words[1] == "refused" { words[2].parse().unwrap() } else { 0 }] += 1;
    }
    counts
}

fn lane(file: &[u8]) -> Vec<u8> {
    let mut out = (file.len() as u16).to_le_bytes().to_vec();
    out.extend_from_slice(file);
    out
}

/// A lane's file: a network's, in a quarter of the cases with margins, one whose margins are one too wide, a damaged one, one with a long
/// tail, any bytes, or none.
fn file(r: &mut Random) -> Vec<u8> {
    let net = network(r, 20, 6);
    let net = on_some_board(r, net);
    let mut file = paper::write(&net);
    match r.below(9) {
        8 => file = near_miss(r, &net).map_or(file, |net| paper::write(&net)),
        0 | 1 => file = damaged(r, &file),
        2 => file.resize(file.len() + r.below(50_000) as usize, 0),
        3 => file = (0..r.below(65_536)).map(|_| r.next() as u8).collect(),
        4 => file.clear(),
        _ => {}
    }
    file
}

fn alley(r: &mut Random, lanes: u64) -> Vec<u8> {
    (0..lanes).flat_map(|_| lane(&file(r))).collect()
}

#[test]
fn random_alleys() {
    let mut r = Random::new(31);
    let mut counts = [0; 25];
    for _ in 0..80 {
        let lanes = r.below(60);
        let file = alley(&mut r, lanes);
        for (sum, count) in counts.iter_mut().zip(refusals(&agrees(&file))) {
            *sum += count;
        }
        agrees(&file[..r.below(file.len() as u64 + 1) as usize]);
    }
    println!("lanes that are read, and refused with 1 to 24: {counts:?}");
    assert!(counts[0] >= 500 && counts[1..10].iter().all(|&count| count >= 10) && counts[24] >= 100);
}

#[test]
fn every_cut() {
    let mut r = Random::new(32);
    let nets = [network(&mut r, 3, 3), network(&mut r, 3, 3), network(&mut r, 3, 3)];
    let drifting = tolerant(&mut r, &nets[1]);
    let file: Vec<u8> = nets.iter().chain([&drifting]).flat_map(|net| lane(&paper::write(net))).collect();
    for end in 0..=file.len() {
        let counts = refusals(&agrees(&file[..end]));
        assert_eq!(counts[1..].iter().sum::<usize>(), counts[4]);
    }
}

#[test]
fn most_lanes() {
    let mut r = Random::new(33);
    let files: Vec<Vec<u8>> = (0..100).map(|_| lane(&paper::write(&network(&mut r, 9, 4)))).collect();
    let mut alley: Vec<u8> = (0..65_535).flat_map(|i: usize| files[i % 100].clone()).collect();
    let sheet = agrees(&alley);
    assert_eq!(refusals(&sheet)[0], 65_535);
    // a stray byte, or one lane more, is passed over
    alley.push(1);
    assert_eq!(agrees(&alley), sheet);
    alley.pop();
    alley.extend(&files[0]);
    assert_eq!(agrees(&alley), sheet);
    // lanes without a file: 65,535 of them, and an odd byte
    assert_eq!(refusals(&agrees(&[0; 131_071]))[1], 65_535);
    // the longest lanes, and sums above 32 bits
    let mut file = paper::write(&largest(&mut r));
    let costly = lane(&file).repeat(3_000);
    file.resize(65_535, 0);
    assert_eq!(refusals(&agrees(&lane(&file).repeat(40)))[9], 40);
    let sheet = agrees(&costly);
    // the largest file of version 2, with margins
    assert_eq!(refusals(&agrees(&lane(&paper::write(&largest_tolerant(&mut r))).repeat(3)))[0], 3);
    let cost: u64 = sheet.trim_end().rsplit(' ').next().unwrap().parse().unwrap();
    assert!(cost > u32::MAX as u64);
}

#[test]
fn sample() {
    let path = concat!(env!("CARGO_MANIFEST_DIR"), "/../samples/six_lanes.alley");
    let sheet = agrees(&std::fs::read(path).unwrap());
    assert_eq!(sheet, "1 20 90\n2 30 80\n3 refused 4\n4 20 90\n5 refused 1\n6 4 21\ntotal 74 281\n");
}
