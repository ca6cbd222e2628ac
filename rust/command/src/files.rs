//! Files read with a limit, and files written whole or not at all.
use crate::arguments::{wrong, Arguments};
use crate::failure::Failure;
use crate::output::Output;
use pmn::Mask;
use std::ffi::OsStr;
use std::fs::{self, File, OpenOptions, Permissions};
use std::io::{self, ErrorKind, Read, Write};
use std::path::{Path, PathBuf};

/// So much is read of a mask. The longest mask is far shorter, so that the library refuses a longer file by what it was handed of it.
const MOST_OF_A_MASK: u64 = 1 << 20;

/// The longest text that is read.
const LONGEST_TEXT: u64 = 1 << 24;

/// A mask with the name under which its file was given.
#[derive(Clone, Debug)]
pub struct Named {
    /// as it is printed
    pub name: String,
    /// what the file holds
    pub mask: Mask,
}

/// How a file is named in what is printed.
pub fn shown(word: &OsStr) -> String {
    if word == "-" {
        return "standard input".to_string();
    }
    word.to_string_lossy().into_owned()
}

/// Reads a mask from a file, or from standard input.
pub fn read_mask(word: &OsStr) -> Result<Named, Failure> {
    let name = shown(word);
    let bytes = read(word, MOST_OF_A_MASK + 1)?;
    let mask = Mask::read(&bytes).map_err(|refusal| Failure::refused(&name, refusal))?;
    Ok(Named { name, mask })
}

/// Reads a text from a file, or from standard input.
pub fn read_text(word: &OsStr) -> Result<String, Failure> {
    let bytes = read(word, LONGEST_TEXT + 1)?;
    if bytes.len() as u64 > LONGEST_TEXT {
        return Err(Failure::file(&shown(word), "longer than 16 MB, which no list of calls needs"));
    }
    Ok(String::from_utf8_lossy(&bytes).into_owned())
}

fn read(word: &OsStr, most: u64) -> Result<Vec<u8>, Failure> {
    let mut bytes = Vec::new();
    let read = if word == "-" {
        io::stdin().lock().take(most).read_to_end(&mut bytes)
    } else {
        File::open(word).and_then(|file| file.take(most).read_to_end(&mut bytes))
    };
    read.map(|_| bytes).map_err(|error| Failure::system(&shown(word), &error))
}

/// A place to which a file can be written.
#[derive(Debug)]
pub enum Target {
    /// where lines are printed too
    StandardOutput,
    /// something that is no file and can only be written to as it is, such as /dev/null
    Device(PathBuf),
    /// a file that is made anew; the permissions are those of the file that it takes the place of
    File { path: PathBuf, permissions: Option<Permissions> },
}

impl Target {
    /// The place that an option names, tested before any work is done: a file that is there is written over only with --force.
    pub fn of(arguments: &Arguments, option: &str) -> Result<Target, Failure> {
        Target::named(arguments.needed(option)?, arguments.has("--force"))
    }

    /// The same for an option that may be left out.
    pub fn if_given(arguments: &Arguments, option: &str) -> Result<Option<Target>, Failure> {
        arguments.value(option).map(|word| Target::named(word, arguments.has("--force"))).transpose()
    }

    fn named(word: &OsStr, force: bool) -> Result<Target, Failure> {
        if word == "-" {
            return Ok(Target::StandardOutput);
        }
        let path = Path::new(word);
        if word.as_encoded_bytes().ends_with(b"/") {
            return Err(Failure::file(&shown(word), "is no name for a file"));
        }
        match fs::metadata(path) {
            Ok(found) if found.is_dir() => Err(Failure::file(&shown(word), "is a directory")),
            Ok(found) if !found.is_file() => Ok(Target::Device(path.to_path_buf())),
            Ok(found) if force => Target::over(path, found.permissions()),
            Err(error) if error.kind() == ErrorKind::NotFound && (force || !is_link(path)) => Target::fresh(path),
            Err(error) if error.kind() != ErrorKind::NotFound => Err(Failure::system(&shown(word), &error)),
            _ => Err(Failure::file(&shown(word), "is there already; give --force to write over it")),
        }
    }

    fn over(path: &Path, permissions: Permissions) -> Result<Target, Failure> {
        let path = fs::canonicalize(path).map_err(|error| failure(path, &error))?;
        Ok(Target::File { path, permissions: Some(permissions) })
    }

    fn fresh(path: &Path) -> Result<Target, Failure> {
        let Some(name) = path.file_name() else {
            return Err(Failure::file(&path.to_string_lossy(), "is no name for a file"));
        };
        let directory = fs::canonicalize(directory_of(path)).map_err(|error| failure(path, &error))?;
        if !directory.is_dir() {
            return Err(Failure::file(&path.to_string_lossy(), "Not a directory"));
        }
        Ok(Target::File { path: directory.join(name), permissions: None })
    }

    fn path(&self) -> Option<&Path> {
        match self {
            Target::File { path, .. } => Some(path),
            _ => None,
        }
    }
}

/// Writes one file.
pub fn write(target: &Target, bytes: &[u8], out: &mut Output) -> Result<(), Failure> {
    write_all(&[(target, bytes)], out)
}

/// Writes several files: all are whole beside their places before the first takes its place.
pub fn write_all(files: &[(&Target, &[u8])], out: &mut Output) -> Result<(), Failure> {
    let targets: Vec<&Target> = files.iter().map(|(target, _)| *target).collect();
    test_distinct(&targets)?;
    let mut staged = Vec::new();
    for (target, bytes) in files {
        if let Target::File { path, permissions } = target {
            staged.push(Staged::write(path, permissions.as_ref(), bytes).map_err(|error| failure(path, &error))?);
        }
    }
    for (target, bytes) in files {
        write_as_it_is(target, bytes, out)?;
    }
    staged.into_iter().try_for_each(Staged::put_in_place)
}

/// Refuses two files at one place.
pub fn test_distinct(targets: &[&Target]) -> Result<(), Failure> {
    for (n, target) in targets.iter().enumerate() {
        if let Some(path) = target.path().filter(|path| targets[..n].iter().any(|other| other.path() == Some(path))) {
            return Err(wrong(format!("two files would be written to {}", path.to_string_lossy())));
        }
    }
    Ok(())
}

fn write_as_it_is(target: &Target, bytes: &[u8], out: &mut Output) -> Result<(), Failure> {
    match target {
        Target::StandardOutput => out.bytes(bytes).and_then(|()| out.flush()),
        Target::Device(path) => {
            let written = OpenOptions::new().write(true).open(path).and_then(|mut device| device.write_all(bytes));
            written.map_err(|error| failure(path, &error))
        }
        Target::File { .. } => Ok(()),
    }
}

/// A whole file beside its place. It is removed if it does not come to its place.
struct Staged<'a> {
    beside: PathBuf,
    place: &'a Path,
}

impl<'a> Staged<'a> {
    fn write(place: &'a Path, permissions: Option<&Permissions>, bytes: &[u8]) -> io::Result<Staged<'a>> {
        let (beside, mut file) = create_beside(place)?;
        let staged = Staged { beside, place };
        file.write_all(bytes)?;
        if let Some(permissions) = permissions {
            file.set_permissions(permissions.clone())?;
        }
        file.sync_all()?;
        Ok(staged)
    }

    fn put_in_place(self) -> Result<(), Failure> {
        fs::rename(&self.beside, self.place).map_err(|error| failure(self.place, &error))
    }
}

impl Drop for Staged<'_> {
    fn drop(&mut self) {
        let _ = fs::remove_file(&self.beside);
    }
}

/// A new file in the directory of another.
fn create_beside(place: &Path) -> io::Result<(PathBuf, File)> {
    for n in 0u32.. {
        let path = directory_of(place).join(format!(".pmn-{}-{n}", std::process::id()));
        match OpenOptions::new().write(true).create_new(true).open(&path) {
            Ok(file) => return Ok((path, file)),
            Err(error) if error.kind() == ErrorKind::AlreadyExists => continue,
            Err(error) => return Err(error),
        }
    }
    unreachable!("some number is free")
}

fn directory_of(path: &Path) -> &Path {
    match path.parent() {
        Some(parent) if !parent.as_os_str().is_empty() => parent,
        _ => Path::new("."),
    }
}

fn is_link(path: &Path) -> bool {
    fs::symlink_metadata(path).is_ok()
}

fn failure(path: &Path, error: &io::Error) -> Failure {
    Failure::system(&path.to_string_lossy(), error)
}
