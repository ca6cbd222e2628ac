//! Writes questions of the library into a folder, for a solver: each file's name says whether the question has a solution, and how many,
//! as found by trying every frame with the independent implementation.
//!
//!     questions FOLDER COUNT
use std::{env, fs, path::Path};
use yovrenik_tests::generate::{chain, inverters, network, on_some_board, Random};
use yovrenik_tests::reference::{self, Board, Net};
use yovrenik_tests::{line, run, LONGEST_FILE};

/// The text of the library's question for two files.
fn question(first: &[u8], second: &[u8]) -> Vec<u8> {
    let mut text = vec![];
    let mut out = [0u8; 254];
    let mut answer = [0u64; 1];
    for n in 0.. {
        match line(first, second, n, &mut out, &mut answer) {
            0 => text.extend(&out[..answer[0] as usize]),
            21 => break,
            code => panic!("line {n} is refused with {code}"),
        }
    }
    text
}

/// Whether two networks differ on some frame.
fn differ(first: &Net, second: &Net) -> bool {
    (0..1u64 << first.inputs).any(|x| reference::frame(first, x) != reference::frame(second, x))
}

/// The network after a sweep by the library.
fn swept(file: &[u8]) -> Vec<u8> {
    let mut answers = [0u64; 5];
    let mut out = vec![0u8; LONGEST_FILE];
    assert_eq!(run(file, &[3, 128, 0, 0, 0], &mut answers, &mut out), 0);
    out.truncate(answers[0] as usize);
    out
}

/// The network with one threshold moved by one, in a file of version 1, since it may break the margins.
fn moved(r: &mut Random, net: &Net) -> Net {
    let mut other = Net { board: Board::VERSION_1, ..net.clone() };
    let g = r.below(net.gates.len() as u64) as usize;
    let step = if r.below(2) == 0 { 1 } else { -1 };
    let t = other.gates[g].threshold + step;
    other.gates[g].threshold = t.clamp(-1_000_000, 1_000_000);
    other
}

/// The second network with its outputs at other gates, as long as the question has at most so many solutions.
fn rewired(r: &mut Random, first: &Net, second: &Net) -> Net {
    const MOST: u64 = 100_000;
    let gates = second.gates.len();
    let mut other = second.clone();
    for j in 0..second.outputs.len() {
        let mut next = other.clone();
        let step = 1 + r.below(gates.max(2) as u64 - 1) as usize;
        next.outputs[j] = second.inputs + (second.outputs[j] - second.inputs + step) % gates;
        if reference::ways(first, &next).unwrap() > MOST {
            break;
        }
        other = next;
    }
    other
}

fn store(folder: &Path, number: usize, first: &Net, second: &Net) {
    let word = if differ(first, second) { "satisfiable" } else { "unsatisfiable" };
    let ways = reference::ways(first, second).unwrap();
    let text = question(&reference::write(first), &reference::write(second));
    fs::write(folder.join(format!("{number:04}.{word}.{ways}.opb")), text).unwrap();
}

fn main() {
    let words: Vec<String> = env::args().collect();
    let [_, folder, count] = words.as_slice() else { panic!("questions FOLDER COUNT") };
    let folder = Path::new(folder);
    let count: usize = count.parse().unwrap();
    let mut r = Random::new(11);
    let (mut number, mut against) = (0, 0);
    while number < 3 * count {
        let net = match r.below(8) {
            0 | 1 => chain(&mut r),
            2 => inverters(&mut r),
            _ => network(&mut r, 12, 5),
        };
        if net.inputs > 12 {
            continue;
        }
        let net = on_some_board(&mut r, net);
        let after = reference::read(&swept(&reference::write(&net))).unwrap();
        store(folder, number, &net, &after);
        store(folder, number + 1, &net, &moved(&mut r, &after));
        store(folder, number + 2, &net, &rewired(&mut r, &net, &after));
        number += 3;
        let collapses = reference::sweep(&net, 128).unwrap().1;
        against += collapses.iter().any(|(before, u)| !before.voted_against(*u as usize).is_empty()) as usize;
    }
    println!("in {against} of {count} random networks the sweep folds a gate that votes against a reader");
    assert!(count < 100 || 4 * against >= count);
}
