//! check, show and report: what is in a file.
use crate::arguments::{Arguments, Form, MANY};
use crate::failure::{Failure, Status};
use crate::files::{read_mask, Named};
use crate::output::Output;
use crate::text;
use pmn::Size;
use std::ffi::OsString;

/// `check FILE..`
pub static CHECK: Form = Form {
    name: "check",
    usage: "FILE..",
    summary: "are these files masks?",
    about: "Reads each file and prints `FILE: accepted`. A file that is refused is named on standard error with its number and word;
the others are still read.",
    words: (1, MANY),
    options: &[],
};

/// Reads every file, and says which are accepted.
pub fn check(arguments: &Arguments, out: &mut Output) -> Result<Status, Failure> {
    let (_, status) = read_each(arguments.words(), out, |named, out| out.line(format_args!("{}: accepted", named.name)))?;
    Ok(status)
}

/// `show FILE`
pub static SHOW: Form = Form {
    name: "show",
    usage: "FILE",
    summary: "the network as text",
    about: "Prints the version and the margins, the counts, the cost and the levels, then a gate a line, then the outputs.

A patch is p and its number, from p0; a gate is g and its signal, which is the number that calls take. A gate stands as
[signal weight, ..; T]: it is 1 if the weights of those signals that are 1 add up to T or more.",
    words: (1, 1),
    options: &[],
};

/// Prints a network as text.
pub fn show(arguments: &Arguments, out: &mut Output) -> Result<Status, Failure> {
    let named = read_mask(arguments.word(0))?;
    out.text(&text::network(&named.mask))?;
    Ok(Status::Done)
}

/// `report FILE..`
pub static REPORT: Form = Form {
    name: "report",
    usage: "FILE..",
    summary: "gates, cost and levels of files in a table, with totals",
    about: "Prints a table: gates, cost and levels as the library reports them, the counts of inputs and outputs, the version and the
length of each file. The last line has the totals, and the most levels. A file that is refused is named on standard error
and not counted.",
    words: (1, MANY),
    options: &[],
};

/// Prints the sizes of files in a table.
pub fn report(arguments: &Arguments, out: &mut Output) -> Result<Status, Failure> {
    let (masks, status) = read_each(arguments.words(), out, |_, _| Ok(()))?;
    let mut rows = vec![["file", "gates", "cost", "levels", "inputs", "outputs", "version", "bytes"].map(String::from)];
    let mut total = Size { gates: 0, cost: 0, levels: 0 };
    for named in &masks {
        let size = named.mask.report();
        rows.push(row(named, size));
        total = Size { gates: total.gates + size.gates, cost: total.cost + size.cost, levels: total.levels.max(size.levels) };
    }
    let bytes: usize = masks.iter().map(|named| named.mask.bytes().len()).sum();
    let blank = String::new;
    let numbers = [total.gates, total.cost, total.levels].map(|number| number.to_string());
    let [gates, cost, levels] = numbers;
    rows.push(["total".to_string(), gates, cost, levels, blank(), blank(), blank(), bytes.to_string()]);
    out.text(&table(&rows))?;
    Ok(status)
}

fn row(named: &Named, size: Size) -> [String; 8] {
    let network = named.mask.network();
    let numbers = [size.gates, size.cost, size.levels, network.inputs.into(), network.outputs.len() as u64, network.version.into()];
    let [gates, cost, levels, inputs, outputs, version] = numbers.map(|number| number.to_string());
    [named.name.clone(), gates, cost, levels, inputs, outputs, version, named.mask.bytes().len().to_string()]
}

/// Rows in columns: the first to the left, the others to the right.
fn table(rows: &[[String; 8]]) -> String {
    let widest = |column: usize| rows.iter().map(|row| row[column].chars().count()).max().unwrap_or(0);
    let widths: Vec<usize> = (0..8).map(widest).collect();
    let line = |row: &[String; 8]| {
        let numbers: String = (1..8).map(|column| format!("  {:>1$}", row[column], widths[column])).collect();
        format!("{:2$}{}\n", row[0], numbers, widths[0])
    };
    rows.iter().map(line).collect()
}

/// Reads every file; those that fail are named, and the others still read.
fn read_each(
    words: &[OsString],
    out: &mut Output,
    each: impl Fn(&Named, &mut Output) -> Result<(), Failure>,
) -> Result<(Vec<Named>, Status), Failure> {
    let mut masks = Vec::new();
    let mut status = Status::Done;
    for word in words {
        match read_mask(word) {
            Ok(named) => {
                each(&named, out)?;
                masks.push(named);
            }
            Err(failure) => {
                out.complain(&failure);
                status = Status::Refused;
            }
        }
    }
    Ok((masks, status))
}
