//! How long a thread has had a processor: what a test that must end is held to, whatever else the machine does meanwhile.
use std::path::{Path, PathBuf};

/// The thread that asks, by its place in /proc.
pub fn this_thread() -> PathBuf {
    Path::new("/proc").join(std::fs::read_link("/proc/thread-self").unwrap())
}

/// The seconds of processor time that a thread has had, counted in hundredths by the system; none once it has ended.
pub fn seconds(thread: &Path) -> Option<f64> {
    let line = std::fs::read_to_string(thread.join("stat")).ok()?;
    // the name of the thread ends with the last bracket; the time in the program and that in the system are the 12th and 13th field after it
    let fields: Vec<&str> = line.rsplit(')').next()?.split_whitespace().collect();
    let hundredths: f64 = fields[11..13].iter().map(|field| field.parse::<f64>().unwrap()).sum();
    Some(hundredths / 100.0)
}
