//! cut, convert and part: another file from a file.
use super::{FORCE, OUT};
use crate::arguments::{Arguments, Form};
use crate::failure::{Failure, Status};
use crate::files::{self, read_mask, Target};
use crate::numbers::{word_number, word_signal};
use crate::output::Output;
use crate::text;

/// `cut FILE J -o OUT`
pub static CUT: Form = Form {
    name: "cut",
    usage: "FILE J -o OUT",
    summary: "one output alone, with the gates that it needs",
    about: "Writes the mask of output J alone, counted from 0. All inputs stay, so that frames are the same numbers as before; the gates
that the output does not need are left out. Prints gates, cost and levels before and after.",
    words: (2, 2),
    options: &[&[OUT, FORCE]],
};

/// Writes the mask of one output.
pub fn cut(arguments: &Arguments, out: &mut Output) -> Result<Status, Failure> {
    let target = Target::of(arguments, "-o")?;
    let output = word_number(arguments.word(1))?;
    let named = read_mask(arguments.word(0))?;
    let cut = named.mask.cut(output).map_err(|refusal| Failure::refused(&named.name, refusal))?;
    files::write(&target, cut.bytes(), out)?;
    out.text(&text::sizes(named.mask.report(), cut.report()))?;
    Ok(Status::Done)
}

/// `convert FILE -o OUT`
pub static CONVERT: Form = Form {
    name: "convert",
    usage: "FILE -o OUT",
    summary: "the same network in the other version",
    about: "Writes a mask of version 1 as version 2 with the margins 0 and 1, or a mask of version 2 that has these margins as version 1.
Prints the version before and after. Converted there and back, a file is the same, byte for byte.",
    words: (1, 1),
    options: &[&[OUT, FORCE]],
};

/// Writes a mask in the other version.
pub fn convert(arguments: &Arguments, out: &mut Output) -> Result<Status, Failure> {
    let target = Target::of(arguments, "-o")?;
    let named = read_mask(arguments.word(0))?;
    let other = named.mask.convert().map_err(|refusal| Failure::refused(&named.name, refusal))?;
    files::write(&target, other.bytes(), out)?;
    out.line(format_args!("version {} {}", named.mask.network().version, other.network().version))?;
    Ok(Status::Done)
}

/// `part FILE S -o OUT`
pub static PART: Form = Form {
    name: "part",
    usage: "FILE S -o OUT",
    summary: "the bytes of one gate",
    about: "Writes the bytes that the gate with the signal S (3 or g3) has in the file: its number of feeds, its threshold, and each feed
with its weight. Prints how many bytes they are.",
    words: (2, 2),
    options: &[&[OUT, FORCE]],
};

/// Writes the bytes of one gate.
pub fn part(arguments: &Arguments, out: &mut Output) -> Result<Status, Failure> {
    let target = Target::of(arguments, "-o")?;
    let signal = word_signal(arguments.word(1))?;
    let named = read_mask(arguments.word(0))?;
    let bytes = named.mask.part(signal).map_err(|refusal| Failure::refused(&named.name, refusal))?;
    files::write(&target, &bytes, out)?;
    out.line(format_args!("bytes {}", bytes.len()))?;
    Ok(Status::Done)
}
