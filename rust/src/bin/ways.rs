//! Prints how many solutions a solver should count for the question of two PMN files: the sum over all frames of 2 to the power t, less 1,
//! where t is the number of outputs that differ on the frame. It reads every frame of both with the library, so it takes few inputs.
//!
//!     ways FIRST SECOND
//!
//! Where a file is refused, or the two are unlike (19), it prints `refused` and the number; its status is 1 then, and for too many inputs.
use std::{env, fs, process::ExitCode};
use yovrenik_tests::{frames, line};

/// With as many, the largest files take about ten seconds.
const MOST_INPUTS: u8 = 24;

/// The number of inputs of a file that is read: the first count, which in version 2 stands after the margins.
fn inputs(file: &[u8]) -> u8 {
    file[if file[3] == 2 { 7 } else { 5 }]
}

/// The output bits on up to 64 frames, by the library.
fn words(file: &[u8], run: &[u64]) -> [u64; 64] {
    let mut answers = [0u64; 64];
    assert_eq!(frames(file, run, &mut answers), 0);
    answers
}

/// What a run of up to 64 frames adds to the sum.
fn share(first: &[u8], second: &[u8], run: &[u64]) -> u64 {
    let (one, other) = (words(first, run), words(second, run));
    (0..run.len()).map(|i| (1u64 << (one[i] ^ other[i]).count_ones()) - 1).sum()
}

fn ways(first: &[u8], second: &[u8]) -> Result<u64, String> {
    // the question's header is refused as the question is: each file as a read refuses it, then unlike networks
    let code = line(first, second, 0, &mut [0u8; 254], &mut [0u64; 1]);
    if code != 0 {
        return Err(format!("refused {code}"));
    }
    let inputs = inputs(first);
    if inputs > MOST_INPUTS {
        return Err(format!("too many inputs: {inputs}, at most {MOST_INPUTS}"));
    }
    let all = 1u64 << inputs;
    let runs = (0..all).step_by(64).map(|x| (x..all.min(x + 64)).collect::<Vec<u64>>());
    Ok(runs.map(|run| share(first, second, &run)).sum())
}

fn main() -> ExitCode {
    let words: Vec<String> = env::args().collect();
    let [_, first, second] = words.as_slice() else {
        eprintln!("ways FIRST SECOND");
        return ExitCode::FAILURE;
    };
    let (Ok(first), Ok(second)) = (fs::read(first), fs::read(second)) else {
        eprintln!("a file cannot be opened");
        return ExitCode::FAILURE;
    };
    match ways(&first, &second) {
        Ok(sum) => {
            println!("{sum}");
            ExitCode::SUCCESS
        }
        Err(reason) => {
            println!("{reason}");
            ExitCode::FAILURE
        }
    }
}
