//! Questions handed to a pseudo-Boolean solver, clasp or minisat+, where there is one.
use crate::failure::Failure;
use crate::progress::Progress;
use crate::temporary::Directory;
use std::env;
use std::ffi::OsStr;
use std::fs::{self, File};
use std::path::{Path, PathBuf};
use std::process::{Child, Command, Stdio};
use std::thread;
use std::time::{Duration, Instant};

/// The solvers that are looked for, in this order.
const SOLVERS: [&str; 2] = ["clasp", "minisat+"];

/// The least time between two looks at a solver that works.
const PAUSE: Duration = Duration::from_millis(5);

/// A solver that is there.
#[derive(Clone, Debug, PartialEq, Eq)]
pub struct Solver {
    /// as it was found or named
    pub name: String,
    program: PathBuf,
}

/// What a solver says of a question.
#[derive(Clone, Debug, PartialEq, Eq)]
pub enum Verdict {
    /// a solution: bit i is the variable x1 + i, for the first 64
    Satisfiable(u64),
    /// there is no solution
    Unsatisfiable,
    /// why there is no verdict
    CouldNotTell(String),
}

impl Solver {
    /// The first solver on the PATH.
    pub fn any() -> Option<Solver> {
        SOLVERS.iter().find_map(|name| Solver::on_the_path(name))
    }

    /// A solver by its name on the PATH, or by the path of its program.
    pub fn named(word: &OsStr) -> Result<Solver, Failure> {
        let name = word.to_string_lossy().into_owned();
        let found = match Path::new(word).components().count() {
            1 => Solver::on_the_path(&name),
            _ => Some(Solver { name: name.clone(), program: PathBuf::from(word) }).filter(|solver| is_program(&solver.program)),
        };
        found.ok_or_else(|| Failure::file(&name, "there is no such solver on the PATH"))
    }

    fn on_the_path(name: &str) -> Option<Solver> {
        let program = on_the_path(name)?;
        Some(Solver { name: name.to_string(), program })
    }

    /// Asks the solver, for so many seconds at most.
    pub fn ask(&self, question: &str, seconds: u64, progress: &mut Progress) -> Result<Verdict, Failure> {
        let directory = Directory::new()?;
        let asked = directory.write("question.opb", question)?;
        let said = directory.path("verdict");
        let place = File::create(&said).map_err(|error| Failure::system(&said.to_string_lossy(), &error))?;
        let started = Command::new(&self.program).arg(&asked).stdin(Stdio::null()).stdout(place).stderr(Stdio::null()).spawn();
        let child = started.map_err(|error| Failure::system(&self.name, &error))?;
        if !self.wait(child, Duration::from_secs(seconds), progress)? {
            return Ok(Verdict::CouldNotTell(format!("no verdict within {seconds} seconds")));
        }
        let text = fs::read(&said).map_err(|error| Failure::system(&said.to_string_lossy(), &error))?;
        Ok(verdict(&String::from_utf8_lossy(&text)))
    }

    /// Waits for the solver, and says whether it ended by itself.
    fn wait(&self, mut child: Child, limit: Duration, progress: &mut Progress) -> Result<bool, Failure> {
        let start = Instant::now();
        loop {
            if child.try_wait().map_err(|error| Failure::system(&self.name, &error))?.is_some() {
                return Ok(true);
            }
            if start.elapsed() >= limit {
                let _ = child.kill();
                let _ = child.wait();
                return Ok(false);
            }
            progress.show(|| format!("{} works since {} s", self.name, start.elapsed().as_secs()));
            thread::sleep(PAUSE);
        }
    }
}

/// The file of a program on the PATH.
pub fn on_the_path(name: &str) -> Option<PathBuf> {
    let path = env::var_os("PATH")?;
    env::split_paths(&path).map(|directory| directory.join(name)).find(|program| is_program(program))
}

#[cfg(unix)]
fn is_program(path: &Path) -> bool {
    use std::os::unix::fs::PermissionsExt;
    fs::metadata(path).is_ok_and(|found| found.is_file() && found.permissions().mode() & 0o111 != 0)
}

#[cfg(not(unix))]
fn is_program(path: &Path) -> bool {
    path.is_file()
}

/// The verdict in what a solver prints: its lines `s` and `v`.
fn verdict(text: &str) -> Verdict {
    let said = text.lines().find_map(|line| line.strip_prefix("s ")).map(str::trim);
    match said {
        Some("UNSATISFIABLE") => Verdict::Unsatisfiable,
        Some("SATISFIABLE" | "OPTIMUM FOUND") => Verdict::Satisfiable(solution(text)),
        Some(other) => Verdict::CouldNotTell(format!("it says {other}")),
        None => Verdict::CouldNotTell("it gives no verdict".to_string()),
    }
}

fn solution(text: &str) -> u64 {
    let values = text.lines().filter_map(|line| line.strip_prefix("v ")).flat_map(str::split_whitespace);
    let variables = values.filter_map(|value| value.strip_prefix('x')).filter_map(|number| number.parse::<u32>().ok());
    variables.filter(|number| (1..=64).contains(number)).fold(0, |bits, number| bits | 1 << (number - 1))
}

#[cfg(test)]
mod tests {
    use super::*;

    #[test]
    fn verdicts_of_both_solvers() {
        assert_eq!(verdict("c clasp\ns UNSATISFIABLE\nc Models : 0\n"), Verdict::Unsatisfiable);
        assert_eq!(verdict("c Answer: 1\nv x1 -x2 x3\nv -x4 x40 x70\ns SATISFIABLE\n"), Verdict::Satisfiable(0x80_0000_0005));
        assert_eq!(verdict("s SATISFIABLE\nv -x1 x2 \n"), Verdict::Satisfiable(2));
        assert_eq!(verdict("s OPTIMUM FOUND\nv x1\n"), Verdict::Satisfiable(1));
        assert_eq!(verdict("s UNKNOWN\n"), Verdict::CouldNotTell("it says UNKNOWN".to_string()));
        assert_eq!(verdict(""), Verdict::CouldNotTell("it gives no verdict".to_string()));
    }
}
