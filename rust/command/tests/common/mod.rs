//! What the tests of the command share: the built program, rooms for files, and masks made here.
#![allow(dead_code)]
use std::ffi::OsStr;
use std::fs;
use std::io::Write;
use std::path::{Path, PathBuf};
use std::process::{Command, Stdio};
use std::sync::atomic::{AtomicU32, Ordering};

/// What a run of the command gave.
#[derive(Debug)]
pub struct Ran {
    pub status: i32,
    pub bytes: Vec<u8>,
    pub out: String,
    pub err: String,
}

impl Ran {
    /// The standard output of a run that must have gone well and said nothing on standard error.
    pub fn well(self) -> String {
        assert_eq!((self.status, self.err.as_str()), (0, ""), "{self:?}");
        self.out
    }

    /// The standard error of a run that must have ended with this status and printed nothing.
    pub fn failed(self, status: i32) -> String {
        assert_eq!((self.status, self.out.as_str()), (status, ""), "{self:?}");
        self.err
    }
}

/// A directory of one test, removed at its end.
pub struct Room(PathBuf);

impl Room {
    pub fn new() -> Room {
        static NEXT: AtomicU32 = AtomicU32::new(0);
        let name = format!("pmn-test-{}-{}", std::process::id(), NEXT.fetch_add(1, Ordering::Relaxed));
        let path = std::env::temp_dir().join(name);
        fs::create_dir(&path).unwrap();
        fs::create_dir(path.join("bin")).unwrap();
        Room(path)
    }

    pub fn path(&self) -> &Path {
        &self.0
    }

    /// Writes a file into the room.
    pub fn put(&self, name: &str, bytes: impl AsRef<[u8]>) {
        fs::write(self.0.join(name), bytes).unwrap();
    }

    /// Writes a program that the command finds on its PATH.
    pub fn put_program(&self, name: &str, text: &str) {
        let path = self.0.join("bin").join(name);
        fs::write(&path, format!("#!/bin/sh\nPATH=/usr/bin:/bin\n{text}\n")).unwrap();
        #[cfg(unix)]
        {
            use std::os::unix::fs::PermissionsExt;
            fs::set_permissions(&path, fs::Permissions::from_mode(0o755)).unwrap();
        }
    }

    pub fn get(&self, name: &str) -> Vec<u8> {
        fs::read(self.0.join(name)).unwrap_or_else(|error| panic!("{name}: {error}"))
    }

    pub fn text(&self, name: &str) -> String {
        String::from_utf8(self.get(name)).unwrap()
    }

    pub fn has(&self, name: &str) -> bool {
        fs::symlink_metadata(self.0.join(name)).is_ok()
    }

    /// The names of all files, in order.
    pub fn names(&self) -> Vec<String> {
        let entries = fs::read_dir(&self.0).unwrap().map(|entry| entry.unwrap().file_name().into_string().unwrap());
        let mut names: Vec<String> = entries.filter(|name| name != "bin").collect();
        names.sort();
        names
    }

    /// Runs the command in the room with the words of a line.
    pub fn pmn(&self, line: &str) -> Ran {
        self.pmn_with(line, b"")
    }

    /// Runs the command with this standard input.
    pub fn pmn_with(&self, line: &str, input: &[u8]) -> Ran {
        let words: Vec<&str> = line.split(' ').filter(|word| !word.is_empty()).collect();
        run(self.command().args(words), input)
    }

    /// The command in the room; on its PATH are the room's own programs only.
    pub fn command(&self) -> Command {
        let mut command = Command::new(env!("CARGO_BIN_EXE_pmn"));
        command.current_dir(&self.0).env("PATH", self.0.join("bin"));
        command
    }
}

impl Drop for Room {
    fn drop(&mut self) {
        let _ = fs::remove_dir_all(&self.0);
    }
}

/// Runs a program with this standard input.
pub fn run(command: &mut Command, input: &[u8]) -> Ran {
    let piped = command.stdin(Stdio::piped()).stdout(Stdio::piped()).stderr(Stdio::piped());
    let mut child = piped.spawn().unwrap();
    let mut stdin = child.stdin.take().unwrap();
    let input = input.to_vec();
    let writer = std::thread::spawn(move || {
        let _ = stdin.write_all(&input);
    });
    let output = child.wait_with_output().unwrap();
    writer.join().unwrap();
    Ran {
        status: output.status.code().unwrap_or(-1),
        out: String::from_utf8_lossy(&output.stdout).into_owned(),
        bytes: output.stdout,
        err: String::from_utf8_lossy(&output.stderr).into_owned(),
    }
}

/// The top of the repository.
pub fn top() -> PathBuf {
    Path::new(env!("CARGO_MANIFEST_DIR")).join("../..")
}

/// The bytes of a sample.
pub fn sample(name: &str) -> Vec<u8> {
    fs::read(top().join("samples").join(name)).unwrap()
}

/// Every sample's name.
pub fn samples() -> Vec<String> {
    let entries = fs::read_dir(top().join("samples")).unwrap().map(|entry| entry.unwrap().path());
    let masks = entries.filter(|path| path.extension() == Some(OsStr::new("pmn")));
    let mut names: Vec<String> = masks.map(|path| path.file_name().unwrap().to_str().unwrap().to_string()).collect();
    names.sort();
    names
}

/// One of the proved programs, where it has been built.
pub fn proved_program(name: &str) -> Option<PathBuf> {
    Some(top().join("target/bin").join(name)).filter(|path| path.is_file())
}

/// A gate: its feeds, by signal and weight, and its threshold.
pub type Gate = (Vec<(u8, i32)>, i32);

/// A vote of signals with weight 1.
pub fn vote(signals: impl IntoIterator<Item = u8>, threshold: i32) -> Gate {
    (signals.into_iter().map(|signal| (signal, 1)).collect(), threshold)
}

/// The bytes of a file of version 1.
pub fn mask(inputs: u8, gates: &[Gate], outputs: &[u8]) -> Vec<u8> {
    let mut bytes = b"PMN\x01\x00".to_vec();
    bytes.extend([inputs, gates.len() as u8, outputs.len() as u8]);
    for (feeds, threshold) in gates {
        bytes.push(feeds.len() as u8);
        bytes.extend(threshold.to_le_bytes());
        for (signal, weight) in feeds {
            bytes.push(*signal);
            bytes.extend(weight.to_le_bytes());
        }
    }
    bytes.extend(outputs);
    bytes
}

/// Numbers at random, the same in every run.
pub struct Random(pub u64);

impl Random {
    pub fn below(&mut self, limit: u64) -> u64 {
        self.0 = self.0.wrapping_mul(6364136223846793005).wrapping_add(1442695040888963407);
        (self.0 >> 33) % limit
    }
}

/// A random mask of one output: a few gates over patches and lower gates.
pub fn random_mask(random: &mut Random, inputs: u8, gates: u8) -> Vec<u8> {
    let gate = |random: &mut Random, own: u8| {
        let signals: Vec<u8> = (0..own).filter(|_| random.below(2) == 0).take(16).collect();
        let feeds: Vec<(u8, i32)> = signals.into_iter().map(|signal| (signal, [-2, -1, 1, 2, 3][random.below(5) as usize])).collect();
        let threshold = random.below(4) as i32 - 1;
        (feeds, threshold)
    };
    let all: Vec<Gate> = (0..gates).map(|n| gate(random, inputs + n)).collect();
    mask(inputs, &all, &[inputs + gates - 1])
}
