//! The program `ways` against the sum of the independent implementation: networks before and after a change, unlike and damaged files.
use std::path::PathBuf;
use std::process::Command;
use yovrenik_tests::generate::{chain, damaged, inverters, near_miss, network, on_some_board, Random};
use yovrenik_tests::reference::{self as paper, Board, Gate, Net};

/// What the program prints for two files, and whether it succeeds.
fn printed(first: &[u8], second: &[u8]) -> (String, bool) {
    let folder = PathBuf::from(env!("CARGO_TARGET_TMPDIR"));
    let paths = [(folder.join("first.pmn"), first), (folder.join("second.pmn"), second)].map(|(path, file)| {
        std::fs::write(&path, file).unwrap();
        path
    });
    let output = Command::new(env!("CARGO_BIN_EXE_ways")).args(paths).output().unwrap();
    assert!(output.stderr.is_empty());
    (String::from_utf8(output.stdout).unwrap(), output.status.success())
}

/// The same by the paper, for files with few inputs.
fn wanted(first: &[u8], second: &[u8]) -> (String, bool) {
    match paper::read(first).and_then(|one| paper::read(second).and_then(|other| paper::ways(&one, &other))) {
        Ok(sum) => (format!("{sum}\n"), true),
        Err(code) => (format!("refused {code}\n"), false),
    }
}

/// A network of one gate with so many inputs, the last of which feeds it, and so many outputs.
fn one_gate(inputs: usize, threshold: i64, outputs: usize) -> Net {
    Net { board: Board::VERSION_1, inputs, gates: vec![Gate { feeds: vec![(inputs - 1, 1)], threshold }], outputs: vec![inputs; outputs] }
}

// one test, since its parts share two files
#[test]
fn as_the_sum() {
    let mut r = Random::new(41);
    let (mut counted, mut none, mut refused) = (0, 0, 0);
    let mut before = one_gate(1, 1, 1);
    for round in 0..120 {
        let net = match round % 4 {
            0 => chain(&mut r),
            1 => inverters(&mut r),
            _ => network(&mut r, 8, 4),
        };
        if net.inputs > 8 {
            continue;
        }
        let net = on_some_board(&mut r, net);
        // a threshold elsewhere may break the margins
        let mut moved = Net { board: Board::VERSION_1, ..net.clone() };
        let g = r.below(net.gates.len() as u64) as usize;
        moved.gates[g].threshold += if moved.gates[g].threshold > 0 { -1 } else { 1 };
        let mut turned = net.clone();
        turned.outputs.reverse();
        let file = paper::write(&net);
        for other in [paper::write(&moved), paper::write(&turned), paper::write(&before), damaged(&mut r, &file)] {
            let want = wanted(&file, &other);
            match want.0.as_str() {
                "0\n" => none += 1,
                _ if want.1 => counted += 1,
                _ => refused += 1,
            }
            assert_eq!(printed(&file, &other), want, "{net:?}");
        }
        before = net;
    }
    println!("{counted} pairs with a difference, {none} without, {refused} refused");
    assert!(counted >= 50 && none >= 50 && refused >= 100);

    // 16 outputs that differ on half of the frames, or on all; the most inputs, and one more
    let file = |inputs, threshold, outputs| paper::write(&one_gate(inputs, threshold, outputs));
    assert_eq!(printed(&file(24, 1, 16), &file(24, 0, 16)), (format!("{}\n", (1u64 << 23) * 65_535), true));
    assert_eq!(printed(&file(9, 2, 16), &file(9, 0, 16)), (format!("{}\n", (1u64 << 9) * 65_535), true));
    assert_eq!(printed(&file(25, 1, 1), &file(25, 1, 1)), ("too many inputs: 25, at most 24\n".into(), false));
    assert_eq!(printed(&file(25, 1, 1), &file(24, 1, 1)), ("refused 19\n".into(), false));
    assert_eq!(printed(&file(2, 1, 2), &file(2, 1, 1)), ("refused 19\n".into(), false));
    assert_eq!(printed(b"", &file(2, 1, 1)), ("refused 1\n".into(), false));

    // files of version 2, which have their inputs elsewhere, with each other and with one of version 1; margins that are one too wide
    let second = |inputs, threshold, outputs| Net { board: Board::version_2(0, 1), ..one_gate(inputs, threshold, outputs) };
    let (one, other) = (paper::write(&second(7, 1, 3)), paper::write(&second(7, 2, 3)));
    assert_eq!(printed(&one, &other), (format!("{}\n", 64 * 7), true));
    assert_eq!((printed(&one, &file(7, 2, 3)), printed(&file(7, 1, 3), &other)), (printed(&one, &other), printed(&one, &other)));
    assert_eq!(printed(&paper::write(&second(25, 1, 1)), &file(25, 1, 1)), ("too many inputs: 25, at most 24\n".into(), false));
    let broken = paper::write(&near_miss(&mut r, &second(7, 1, 3)).unwrap());
    assert_eq!((printed(&broken, &one), printed(&one, &broken)), (("refused 24\n".into(), false), ("refused 24\n".into(), false)));
}
