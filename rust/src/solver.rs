//! The question of two files, put to the solver clasp, where it is installed.
use crate::line;
use std::fs;
use std::path::Path;
use std::process::{Command, Stdio};
use std::time::{Duration, Instant};

/// The text of the library's question for two files.
pub fn question(first: &[u8], second: &[u8]) -> Vec<u8> {
    let mut text = vec![];
    let mut out = [0u8; 254];
    let mut answer = [0u64; 1];
    for n in 0.. {
        match line(first, second, n, &mut out, &mut answer) {
            0 => text.extend(&out[..answer[0] as usize]),
            21 => break,
            code => panic!("line {n} is refused with {code}"),
        }
    }
    text
}

/// What clasp says of a question: whether it has a solution, none if the time was over before; how long its process took, and how long it
/// says that it took itself.
pub struct Said {
    pub solvable: Option<bool>,
    pub taken: Duration,
    pub itself: Duration,
}

/// Whether clasp is on the PATH.
pub fn is_there() -> bool {
    Command::new("clasp").arg("--version").stdout(Stdio::null()).status().is_ok_and(|status| status.success())
}

/// Puts the question of two files to clasp, for so many seconds at most. The question is written to a file of this name.
pub fn ask(path: &Path, first: &[u8], second: &[u8], seconds: u32) -> Said {
    fs::write(path, question(first, second)).unwrap();
    let began = Instant::now();
    let output = Command::new("clasp").arg(format!("--time-limit={seconds}")).arg(path).output().unwrap();
    let taken = began.elapsed();
    let text = String::from_utf8_lossy(&output.stdout);
    let after = |start: &str| text.lines().find_map(|line| line.strip_prefix(start));
    let solvable = match after("s ") {
        Some("SATISFIABLE") => Some(true),
        Some("UNSATISFIABLE") => Some(false),
        _ => None,
    };
    let figure = |rest: &str| rest.trim_start_matches([' ', ':']).split('s').next()?.parse().ok();
    let itself = after("c CPU Time").and_then(figure).map_or(taken, Duration::from_secs_f64);
    Said { solvable, taken, itself }
}
