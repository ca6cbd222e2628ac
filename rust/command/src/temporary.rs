//! A directory for files that other programs read, removed when it is no longer needed.
use crate::failure::Failure;
use std::fs;
use std::io::ErrorKind;
use std::path::{Path, PathBuf};

/// A directory of its own in the system's place for such.
#[derive(Debug)]
pub struct Directory(PathBuf);

impl Directory {
    /// Makes a directory that was not there before.
    pub fn new() -> Result<Directory, Failure> {
        let place = std::env::temp_dir();
        for n in 0u32.. {
            let path = place.join(format!("pmn-{}-{n}", std::process::id()));
            match fs::create_dir(&path) {
                Ok(()) => return Ok(Directory(path)),
                Err(error) if error.kind() == ErrorKind::AlreadyExists => continue,
                Err(error) => return Err(Failure::system(&path.to_string_lossy(), &error)),
            }
        }
        unreachable!("some number is free")
    }

    /// A file in it.
    pub fn path(&self, name: &str) -> PathBuf {
        self.0.join(name)
    }

    /// Writes a file in it, and says where it is.
    pub fn write(&self, name: &str, text: &str) -> Result<PathBuf, Failure> {
        let path = self.path(name);
        fs::write(&path, text).map_err(|error| Failure::system(&shown(&path), &error))?;
        Ok(path)
    }
}

impl Drop for Directory {
    fn drop(&mut self) {
        let _ = fs::remove_dir_all(&self.0);
    }
}

fn shown(path: &Path) -> String {
    path.to_string_lossy().into_owned()
}
