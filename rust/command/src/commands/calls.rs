//! run, preview, pair and witness: calls on a mask.
use super::{FORCE, OUT};
use crate::arguments::{Arguments, CommandOption, Form};
use crate::failure::{Failure, Status};
use crate::files::{self, read_mask, read_text, shown, Named, Target};
use crate::numbers::{word_number, word_signal};
use crate::output::Output;
use crate::{script, text};
use pmn::{Answer, Network, Outcome, Refusal, Tried};

/// `run FILE SCRIPT -o OUT`
pub static RUN: Form = Form {
    name: "run",
    usage: "FILE SCRIPT -o OUT",
    summary: "a list of calls on a mask",
    about:
        "Runs the calls of a script on the mask, one after another, and writes the mask that they leave. Prints each call and its answer.
A refused call leaves the mask as it was, and the list goes on.

A script has a call a line; blank lines, and what follows a # in a line, are passed over:
    merge U V K L    gate U into its reader V, multiplied by K and L
    drop S           gate S, which nothing reads, removed
    collapse S       gate S into all its readers, then removed
    sweep B          every gate with at most B readers that collapses
    preview S        what a collapse of S would give
    undo             the latest step taken back
A gate is given by its signal, as `pmn show` prints it: 3 or g3.",
    words: (2, 2),
    options: &[&[OUT, FORCE, CommandOption::flag("--strict", "where a call is refused, write nothing and give status 1")]],
};

/// Runs a script.
pub fn run(arguments: &Arguments, out: &mut Output) -> Result<Status, Failure> {
    let target = Target::of(arguments, "-o")?;
    let named = read_mask(arguments.word(0))?;
    let script_name = shown(arguments.word(1));
    let calls = script::parse(&script_name, &read_text(arguments.word(1))?)?;
    let (after, answers) = named.mask.run(&calls);
    let refused = arguments.has("--strict") && answers.iter().any(Result::is_err);
    if !refused {
        files::write(&target, after.bytes(), out)?;
    }
    for (call, answer) in calls.iter().zip(&answers) {
        out.line(format_args!("{}: {}", script::words(*call), script::answer(answer)))?;
    }
    if refused {
        return Err(Failure::file(&script_name, "a call was refused, and nothing is written"));
    }
    Ok(Status::Done)
}

/// `preview FILE [S]`
pub static PREVIEW: Form = Form {
    name: "preview",
    usage: "FILE [S]",
    summary: "what the collapse of each gate would give",
    about: "Prints for each gate the size of the mask that its collapse would leave, or why the collapse would be refused; with S (3 or g3)
for the gate with that signal alone. The first line has the size as it is.",
    words: (1, 2),
    options: &[],
};

/// Prints what collapses would give.
pub fn preview(arguments: &Arguments, out: &mut Output) -> Result<Status, Failure> {
    let asked = arguments.words().get(1).map(|word| word_signal(word)).transpose()?;
    let named = read_mask(arguments.word(0))?;
    if let Some(signal) = asked {
        let size = named.mask.preview(signal).map_err(|refusal| Failure::refused(&named.name, refusal))?;
        out.line(preview_line(signal, &Ok(Outcome::Previewed(size))))?;
        return Ok(Status::Done);
    }
    let size = named.mask.report();
    out.line(format_args!("now: {}", script::answer(&Ok(Outcome::Previewed(size)))))?;
    let network = named.mask.network();
    for gate in 0..network.gates.len() {
        let signal = u64::from(network.signal(gate));
        out.line(preview_line(signal, &named.mask.preview(signal).map(Outcome::Previewed)))?;
    }
    Ok(Status::Done)
}

fn preview_line(signal: u64, answer: &Answer) -> String {
    format!("g{signal}: {}", script::answer(answer))
}

/// `pair FILE U V`
pub static PAIR: Form = Form {
    name: "pair",
    usage: "FILE U V",
    summary: "the multipliers with which one gate folds into another",
    about: "Prints the least multipliers k and l with which the gate U can be merged into its reader V: the least k + l, then the least k.
Gates are given by their signals, as `pmn show` prints them: 3 or g3.",
    words: (3, 3),
    options: &[],
};

/// Prints the pair of two gates.
pub fn pair(arguments: &Arguments, out: &mut Output) -> Result<Status, Failure> {
    let (u, v) = (word_signal(arguments.word(1))?, word_signal(arguments.word(2))?);
    let named = read_mask(arguments.word(0))?;
    let (k, l) = named.mask.pair(u, v).map_err(|refusal| Failure::refused(&named.name, refusal))?;
    out.line(format_args!("k {k} l {l}"))?;
    Ok(Status::Done)
}

/// `witness FILE U V K L`
pub static WITNESS: Form = Form {
    name: "witness",
    usage: "FILE U V K L",
    summary: "why a merge disagrees: the patches to light",
    about:
        "Says what the merge of the gate U into its reader V with K and L would answer; nothing is merged. Where it disagrees (15), prints
a setting of the distinct feeds on which the merged gate and the two gates differ, with as few lit as any such setting has.
A gate among the distinct feeds counts as a free bit: no frame need give exactly that setting.

Status 0 where the merge would be accepted, 1 where it would be refused.",
    words: (5, 5),
    options: &[],
};

/// Prints why a merge disagrees.
pub fn witness(arguments: &Arguments, out: &mut Output) -> Result<Status, Failure> {
    let (u, v) = (word_signal(arguments.word(1))?, word_signal(arguments.word(2))?);
    let (k, l) = (word_number(arguments.word(3))?, word_number(arguments.word(4))?);
    let named = read_mask(arguments.word(0))?;
    match named.mask.witness(u, v, k, l) {
        Tried::Accepted => {
            out.line("accepted: the merged gate agrees on every setting")?;
            Ok(Status::Done)
        }
        Tried::Disagrees(setting) => {
            out.text(&setting_text(&named, u, v, setting)?)?;
            Err(Failure::refused(&named.name, Refusal::Disagrees))
        }
        Tried::Refused(refusal) => Err(Failure::refused(&named.name, refusal)),
    }
}

/// A setting of the distinct feeds of two gates: which patches to light, and which gates have to be 1.
fn setting_text(named: &Named, u: u64, v: u64, setting: u64) -> Result<String, Failure> {
    let feeds = named.mask.distinct(u, v).map_err(|refusal| Failure::refused(&named.name, refusal))?;
    let network = named.mask.network();
    let is_patch = |signal: u64| signal < u64::from(network.inputs);
    let names = |bit: u64, patches: bool| {
        let fits = |(n, signal): &(usize, &u64)| setting >> n & 1 == bit && is_patch(**signal) == patches;
        join(&network, feeds.iter().enumerate().filter(fits).map(|(_, signal)| *signal))
    };
    let mut lines = format!("setting {setting}\nlight      {}\nleave dark {}\n", names(1, true), names(0, true));
    if feeds.iter().all(|signal| is_patch(*signal)) {
        let lit = feeds.iter().enumerate().filter(|(n, _)| setting >> n & 1 == 1);
        let frame = lit.fold(0u64, |frame, (_, signal)| frame | 1 << signal);
        lines.push_str(&format!("frame      {frame:#x}\n"));
    } else {
        lines.push_str(&format!("gates at 1 {}\ngates at 0 {}\n", names(1, false), names(0, false)));
    }
    Ok(lines)
}

fn join(network: &Network, signals: impl Iterator<Item = u64>) -> String {
    let names: Vec<String> = signals.map(|signal| text::signal(network, signal as u8)).collect();
    if names.is_empty() {
        return "none".to_string();
    }
    names.join(" ")
}
