//! What the command prints: lines and bytes on standard output, complaints on standard error.
use crate::failure::Failure;
use std::fmt::Display;
use std::io::{self, BufWriter, ErrorKind, Stdout, Write};

/// Standard output, and whether lines go to standard error instead.
pub struct Output {
    standard: BufWriter<Stdout>,
    lines_aside: bool,
}

impl Output {
    /// Standard output, with nothing printed yet.
    pub fn new() -> Output {
        Output { standard: BufWriter::new(io::stdout()), lines_aside: false }
    }

    /// From now on lines go to standard error, since a file goes to standard output.
    pub fn put_lines_aside(&mut self) {
        self.lines_aside = true;
    }

    /// Prints a line.
    pub fn line(&mut self, line: impl Display) -> Result<(), Failure> {
        if self.lines_aside {
            say(line);
            return Ok(());
        }
        writeln!(self.standard, "{line}").map_err(|error| refused_output(&error))
    }

    /// Prints text that has its own ends of lines.
    pub fn text(&mut self, text: &str) -> Result<(), Failure> {
        if self.lines_aside {
            let _ = write!(io::stderr(), "{text}");
            return Ok(());
        }
        self.bytes(text.as_bytes())
    }

    /// Writes the bytes of a file to standard output.
    pub fn bytes(&mut self, bytes: &[u8]) -> Result<(), Failure> {
        self.standard.write_all(bytes).map_err(|error| refused_output(&error))
    }

    /// Sends on what was printed so far.
    pub fn flush(&mut self) -> Result<(), Failure> {
        self.standard.flush().map_err(|error| refused_output(&error))
    }

    /// Says a failure on standard error, after what was printed so far.
    pub fn complain(&mut self, failure: &Failure) {
        let _ = self.standard.flush();
        if !failure.is_silent() {
            say(failure);
        }
    }
}

impl Default for Output {
    fn default() -> Self {
        Output::new()
    }
}

/// Prints a line on standard error; where that can't be written, there is nobody to tell.
pub fn say(line: impl Display) {
    let _ = writeln!(io::stderr(), "{line}");
}

fn refused_output(error: &io::Error) -> Failure {
    if error.kind() == ErrorKind::BrokenPipe {
        return Failure::ClosedPipe;
    }
    Failure::system("standard output", error)
}
