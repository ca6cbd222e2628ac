//! alley: the masks of all lanes in one file.
use super::{FORCE, OUT};
use crate::arguments::{wrong, Arguments, Form, MANY};
use crate::failure::{Failure, Status};
use crate::files::{self, read_mask, Named, Target};
use crate::output::Output;

/// The most lanes that an alley file lists.
const MOST_LANES: usize = 65_535;

/// `alley FILE.. -o OUT`
pub static ALLEY: Form = Form {
    name: "alley",
    usage: "FILE.. -o OUT",
    summary: "the masks of all lanes in one alley file",
    about:
        "Writes an alley file: for each mask, in order, a 16-bit little-endian length and the file. Prints what the program `alley` prints
for it: position, gates and cost of each lane, and last both sums. A file that is refused is named on standard error, and then
nothing is written.",
    words: (1, MANY),
    options: &[&[OUT, FORCE]],
};

/// Writes an alley file.
pub fn alley(arguments: &Arguments, out: &mut Output) -> Result<Status, Failure> {
    if arguments.words().len() > MOST_LANES {
        return Err(wrong(format!("an alley has {MOST_LANES} lanes at most")));
    }
    let target = Target::of(arguments, "-o")?;
    let masks = read_all(arguments, out)?;
    files::write(&target, &alley_file(&masks), out)?;
    out.text(&sheet(&masks))?;
    Ok(Status::Done)
}

/// Every mask, or a complaint for each file that is none.
fn read_all(arguments: &Arguments, out: &mut Output) -> Result<Vec<Named>, Failure> {
    let (masks, failures): (Vec<_>, Vec<_>) = arguments.words().iter().map(|word| read_mask(word)).partition(Result::is_ok);
    if failures.is_empty() {
        return Ok(masks.into_iter().flatten().collect());
    }
    failures.into_iter().filter_map(Result::err).for_each(|failure| out.complain(&failure));
    Err(Failure::Said)
}

/// The bytes of the alley file. No mask is longer than a length of 16 bits says.
fn alley_file(masks: &[Named]) -> Vec<u8> {
    let lane = |named: &Named| [&(named.mask.bytes().len() as u16).to_le_bytes(), named.mask.bytes()].concat();
    masks.iter().flat_map(lane).collect()
}

/// The lines of the program `alley`.
fn sheet(masks: &[Named]) -> String {
    let mut text = String::new();
    let (mut gates, mut cost) = (0, 0);
    for (n, named) in masks.iter().enumerate() {
        let size = named.mask.report();
        text.push_str(&format!("{} {} {}\n", n + 1, size.gates, size.cost));
        (gates, cost) = (gates + size.gates, cost + size.cost);
    }
    text + &format!("total {gates} {cost}\n")
}
