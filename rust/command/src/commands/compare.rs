//! compare and question: do two masks read alike?
use super::FORCE;
use crate::arguments::{Arguments, CommandOption, Form};
use crate::comparison::{self, Asked, Comparison, How, Options, Verdict, SOLVER_SECONDS, SOME_FRAMES};
use crate::failure::{Failure, Status};
use crate::files::{self, read_mask, read_text, shown, Named, Target};
use crate::output::Output;
use crate::progress::Progress;
use crate::{script, text};

/// The options that say how to compare.
pub const COMPARING: &[CommandOption] = &[
    CommandOption::input("--list", "SCRIPT", "a list of calls that leads from the first to the second, as `pmn run` takes it"),
    CommandOption::flag("--exhaustive", "read every frame, for up to 32 inputs"),
    CommandOption::value("--solver", "NAME", "ask this solver, however many inputs there are; `none` asks none"),
    CommandOption::value("--solver-seconds", "N", "how long the solver may take (60)"),
    CommandOption::value("--frames", "N", "how many frames to read where not all are read (400000)"),
    CommandOption::value("--seed", "N", "where chance begins (1)"),
];

/// `compare A B`
pub static COMPARE: Form = Form {
    name: "compare",
    usage: "A B",
    summary: "do two masks read alike?",
    about:
        "With up to 24 inputs every frame is read. With more, each output is read on every frame of the patches that it depends on
in either mask, where these are 2^24 frames at most. Else clasp or minisat+ is asked where one is on the PATH. Else frames
at random and frames near the edge of some gate are read, and that none of them shows a difference is no proof.

With --list the calls are run on A by the library: if they leave B, byte for byte, the two read alike, since no list of calls
changes a reading.

Where the two part, prints the frame with the fewest lit patches that was found, and what both read on it.
Status 0 where they read alike or no difference was seen, 1 where they part or can't be compared.",
    words: (2, 2),
    options: &[COMPARING],
};

/// Compares two masks.
pub fn compare(arguments: &Arguments, out: &mut Output) -> Result<Status, Failure> {
    let options = options(arguments)?;
    let (first, second) = (read_mask(arguments.word(0))?, read_mask(arguments.word(1))?);
    let mut progress = Progress::new();
    let comparison = comparison::compare(&first, &second, &options, &mut progress)?;
    if options.list.is_some() && comparison.how != How::List {
        progress.note("the list leaves another mask; the two were compared without it");
    }
    progress.erase();
    out.text(&in_words(&comparison, &first, &second))?;
    Ok(status(&comparison))
}

/// What the options say; the list is read from its file.
pub fn options(arguments: &Arguments) -> Result<Options, Failure> {
    let solver = match arguments.value("--solver") {
        None => Asked::AnySolver,
        Some(name) if name == "none" => Asked::NoSolver,
        Some(name) => Asked::Named(name.to_os_string()),
    };
    let read = |word| script::parse(&shown(word), &read_text(word)?);
    Ok(Options {
        solver,
        solver_seconds: arguments.number("--solver-seconds", SOLVER_SECONDS)?,
        frames: arguments.number("--frames", SOME_FRAMES)?,
        seed: arguments.number("--seed", 1)?,
        exhaustive: arguments.has("--exhaustive"),
        list: arguments.value("--list").map(read).transpose()?,
    })
}

/// The status of a comparison.
pub fn status(comparison: &Comparison) -> Status {
    match comparison.verdict {
        Verdict::Apart { .. } => Status::Refused,
        _ => Status::Done,
    }
}

/// What came of a comparison, in words.
pub fn in_words(comparison: &Comparison, first: &Named, second: &Named) -> String {
    match (&comparison.verdict, &comparison.how) {
        (Verdict::Apart { frame, first: one, second: two }, how) => {
            let lines = [
                format!("apart on frame {frame:#x} ({frame})"),
                format!("lit patches: {}", text::lit(*frame)),
                format!("{} reads {one:#x}", first.name),
                format!("{} reads {two:#x}", second.name),
                fewest(*frame, how).to_string(),
            ];
            lines.join("\n") + "\n"
        }
        (_, How::EveryFrame(frames)) => format!("alike on every frame: {frames} were read\n"),
        (_, How::EachOutput(frames)) => {
            format!("alike on every frame: each output was read on every frame of the patches that it depends on, {frames} in all\n")
        }
        (_, How::Solver(name)) => format!("alike: {name} finds no frame on which the two part\n"),
        (_, How::List) => {
            "alike: the list leads from the first to the second, byte for byte, and no list of calls changes a reading\n".to_string()
        }
        (_, How::SomeFrames { random, near_edge }) => {
            format!("no difference seen on {random} random frames and {near_edge} frames near an edge\nThis is no proof: not every frame was read.\n")
        }
    }
}

fn fewest(frame: u64, how: &How) -> &'static str {
    match how {
        _ if frame == 0 => "No patch is lit on it.",
        How::EveryFrame(_) | How::EachOutput(_) => "On no frame with fewer lit patches do they part.",
        _ => "With any one of these patches dark they read alike; other frames may light fewer.",
    }
}

/// `question A B`
pub static QUESTION: Form = Form {
    name: "question",
    usage: "A B [-o OUT]",
    summary: "the pseudo-Boolean question of two masks",
    about:
        "Prints the question for two masks in the form that solvers read: it has a solution exactly when some frame makes the two differ.",
    words: (2, 2),
    options: &[&[CommandOption::output("-o", "OUT", "write it to this file instead"), FORCE]],
};

/// Prints the question of two masks, or writes it to a file.
pub fn question(arguments: &Arguments, out: &mut Output) -> Result<Status, Failure> {
    let target = Target::if_given(arguments, "-o")?.unwrap_or(Target::StandardOutput);
    let (first, second) = (read_mask(arguments.word(0))?, read_mask(arguments.word(1))?);
    let refused = |refusal| Failure::refused(&format!("{} and {}", first.name, second.name), refusal);
    let question = first.mask.question(&second.mask).map_err(refused)?;
    files::write(&target, question.as_bytes(), out)?;
    Ok(Status::Done)
}
