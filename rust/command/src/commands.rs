//! The commands: what each takes, and what it does.
mod calls;
mod compare;
mod fold;
mod lanes;
mod look;
mod papers;
mod pieces;
mod readings;

use crate::arguments::{self, wrong, Arguments, Asked, CommandOption, Form};
use crate::failure::{Failure, Status};
use crate::help;
use crate::output::{say, Output};
use std::ffi::OsString;

/// A command: what it takes, and what it does.
pub struct Command {
    /// what it takes
    pub form: &'static Form,
    work: fn(&Arguments, &mut Output) -> Result<Status, Failure>,
}

/// Every command, in the order of the help.
pub static COMMANDS: [Command; 19] = [
    Command { form: &look::CHECK, work: look::check },
    Command { form: &look::SHOW, work: look::show },
    Command { form: &look::REPORT, work: look::report },
    Command { form: &readings::FRAME, work: readings::frame },
    Command { form: &readings::SCORE, work: readings::score },
    Command { form: &fold::FOLD, work: fold::fold },
    Command { form: &calls::RUN, work: calls::run },
    Command { form: &calls::PREVIEW, work: calls::preview },
    Command { form: &calls::PAIR, work: calls::pair },
    Command { form: &calls::WITNESS, work: calls::witness },
    Command { form: &pieces::CUT, work: pieces::cut },
    Command { form: &pieces::CONVERT, work: pieces::convert },
    Command { form: &pieces::PART, work: pieces::part },
    Command { form: &compare::COMPARE, work: compare::compare },
    Command { form: &compare::QUESTION, work: compare::question },
    Command { form: &lanes::ALLEY, work: lanes::alley },
    Command { form: &papers::SHEET, work: papers::sheet },
    Command { form: &papers::PICTURE, work: papers::picture },
    Command { form: &HELP, work: show_help },
];

/// `help [COMMAND]`
static HELP: Form = Form {
    name: "help",
    usage: "[COMMAND]",
    summary: "this text, or the help of a command",
    about: "Prints the list of all commands, or the help of one.",
    words: (0, 1),
    options: &[],
};

/// The option for a file that must be given.
const OUT: CommandOption =
    CommandOption::output("-o", "OUT", "the file that is written; - is standard output, and lines go to standard error");

/// The flag that lets files be written over.
const FORCE: CommandOption = CommandOption::flag("--force", "write over a file that is there, an input too");

/// Runs the command that the first argument names.
pub fn run(given: &[OsString], out: &mut Output) -> Result<Status, Failure> {
    let Some((name, rest)) = given.split_first() else {
        say(overview());
        return Ok(Status::WrongUse);
    };
    match name.to_str() {
        Some("--help" | "-h") => return print(out, &overview()),
        Some("--version") => return print(out, concat!("pmn ", env!("CARGO_PKG_VERSION"), "\n")),
        _ => {}
    }
    let command = named(name).map_err(|failure| hinted(failure, ""))?;
    let worked = match arguments::parse(command.form, rest) {
        Ok(Asked::Help) => print(out, &help::of(command.form)),
        Ok(Asked::Work(arguments)) => work(command, &arguments, out),
        Err(failure) => Err(failure),
    };
    worked.map_err(|failure| hinted(failure, command.form.name))
}

fn work(command: &Command, arguments: &Arguments, out: &mut Output) -> Result<Status, Failure> {
    if arguments.writes_standard_output() {
        out.put_lines_aside();
    }
    (command.work)(arguments, out)
}

fn named(name: &OsString) -> Result<&'static Command, Failure> {
    let found = COMMANDS.iter().find(|command| name == command.form.name);
    found.ok_or_else(|| wrong(format!("there is no command `{}`", name.to_string_lossy())))
}

/// Wrong use, with where to look it up.
fn hinted(failure: Failure, command: &str) -> Failure {
    let Failure::WrongUse(words) = failure else {
        return failure;
    };
    let name = if command.is_empty() { "pmn".to_string() } else { format!("pmn {command}") };
    Failure::WrongUse(format!("{name}: {words}\nsee `{name} --help`"))
}

fn overview() -> String {
    let forms: Vec<&Form> = COMMANDS.iter().map(|command| command.form).collect();
    help::overview(&forms)
}

fn print(out: &mut Output, text: &str) -> Result<Status, Failure> {
    out.text(text)?;
    Ok(Status::Done)
}

fn show_help(arguments: &Arguments, out: &mut Output) -> Result<Status, Failure> {
    match arguments.words().first() {
        None => print(out, &overview()),
        Some(name) => print(out, &help::of(named(name)?.form)),
    }
}
