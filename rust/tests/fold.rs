//! The program `fold`, which `tests/library/make` puts into target/bin, against the independent implementation: byte for byte on random, folding,
//! damaged, overlong and empty files.
use std::io::Write;
use std::process::{Command, Stdio};
use yovrenik_tests::generate::{
    alternating, chain, damaged, folding_chain, heavier, inverters, largest, largest_tolerant, near_miss, network, on_some_board, Random,
};
use yovrenik_tests::reference::{self as paper, Board, Net};
use yovrenik_tests::LONGEST_FILE;

/// What the program prints for a file on standard input.
fn printed(file: &[u8]) -> String {
    let program = concat!(env!("CARGO_MANIFEST_DIR"), "/../target/bin/fold");
    let mut child = Command::new(program).stdin(Stdio::piped()).stdout(Stdio::piped()).spawn().expect("`tests/library/make fold` makes the program");
    // a file that is longer than the program reads may end the pipe early
    let _ = child.stdin.take().unwrap().write_all(file);
    let output = child.wait_with_output().unwrap();
    assert!(output.status.success() && output.stderr.is_empty());
    String::from_utf8(output.stdout).unwrap()
}

fn agrees(file: &[u8]) {
    assert_eq!(printed(file), paper::fold(file), "{file:?}");
}

/// The same for the file of a network; the answer is how many gates that vote against a reader are folded.
fn agrees_on(net: &Net) -> usize {
    let (after, collapses) = paper::sweep(net, 128).unwrap();
    assert_eq!(printed(&paper::write(net)), paper::folded(net, &after, collapses.len()), "{net:?}");
    collapses.iter().filter(|(before, u)| !before.voted_against(*u as usize).is_empty()).count()
}

const SAMPLES: &str = concat!(env!("CARGO_MANIFEST_DIR"), "/../samples");

#[test]
fn samples() {
    let files = std::fs::read_dir(SAMPLES).unwrap().map(|f| f.unwrap().path());
    let files: Vec<_> = files.filter(|p| p.extension().is_some_and(|e| e == "pmn")).collect();
    assert!(files.len() >= 9);
    for path in files {
        agrees(&std::fs::read(path).unwrap());
    }
}

/// The samples of version 2: the rack folds as that of version 1 does, and the pin's margins alone keep it from folding.
#[test]
fn samples_with_margins() {
    let sample = |name: &str| paper::read(&std::fs::read(format!("{SAMPLES}/{name}.pmn")).unwrap()).unwrap();
    let size = |net: &Net| printed(&paper::write(net)).lines().take(4).collect::<Vec<_>>().join(", ");
    let (rack, tolerant, strict) = (sample("full_rack"), sample("tolerant_rack"), sample("strict_pin"));
    assert_eq!((tolerant.board, strict.board), (Board::version_2(2, 4), Board::version_2(8, 17)));
    assert_eq!(size(&rack), "gates 20 10, cost 90 100, levels 2 1, folded 10");
    assert_eq!(size(&tolerant), "gates 20 10, cost 860 940, levels 2 1, folded 10");
    assert_eq!(paper::ways(&strict, &sample("f")), Ok(0));
    assert_eq!(size(&strict), "gates 2 2, cost 442 442, levels 2 2, folded 0");
    assert_eq!(size(&Net { board: Board::VERSION_1, ..strict }), "gates 2 1, cost 442 426, levels 2 1, folded 1");
}

#[test]
fn random_networks() {
    let mut r = Random::new(21);
    let (mut against, mut with_margins) = (0, 0);
    for round in 0..200 {
        let net = match round % 8 {
            0 | 1 => chain(&mut r),
            2 => inverters(&mut r),
            _ => network(&mut r, 16, 5),
        };
        let net = on_some_board(&mut r, net);
        with_margins += (net.board.on + net.board.off > 1) as u32;
        against += agrees_on(&net);
        agrees(&damaged(&mut r, &paper::write(&net)));
        if let Some(net) = near_miss(&mut r, &net) {
            assert_eq!(printed(&paper::write(&net)), "refused 24\n", "{net:?}");
        }
    }
    println!("{against} gates that voted against a reader were folded, {with_margins} networks had margins other than 0 and 1");
    assert!(against >= 300 && with_margins >= 20);
}

#[test]
fn ends_of_the_format() {
    agrees(b"");
    agrees(b"PMN");
    agrees(&paper::write(&folding_chain(128)));
    // half of it with every vote of a gate against
    assert_eq!(agrees_on(&alternating(&folding_chain(64))), 63);
    agrees(&paper::write(&heavier(&folding_chain(128))));
    // the largest files of both versions, whose gates are too wide to fold, one byte less, and with a tail of several lengths
    let (first, second) = (largest(&mut Random::new(3)), largest_tolerant(&mut Random::new(3)));
    for (net, length) in [(first, LONGEST_FILE - 2), (second, LONGEST_FILE)] {
        let file = paper::write(&net);
        assert_eq!(file.len(), length);
        agrees(&file[..length - 1]);
        for tail in [1, 2, 4_096, 70_000] {
            let mut long = file.clone();
            long.resize(length + tail, 0);
            assert_eq!(printed(&long), "refused 9\n");
            long[0] = 0;
            agrees(&long);
        }
    }
}
