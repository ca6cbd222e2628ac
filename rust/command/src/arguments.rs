//! The arguments of a command: words, options with a value, and flags.
use crate::failure::Failure;
use crate::numbers;
use std::ffi::{OsStr, OsString};

/// What an option takes.
#[derive(Clone, Copy, Debug, PartialEq, Eq)]
pub enum Kind {
    /// nothing
    Flag,
    /// a number or a word
    Value,
    /// a file that is read
    Input,
    /// a file that is written
    Output,
}

/// An option of a command.
#[derive(Clone, Copy, Debug)]
pub struct CommandOption {
    /// with its dashes
    pub name: &'static str,
    /// what it takes
    pub kind: Kind,
    /// how the help names its value; empty for a flag
    pub value: &'static str,
    /// one line of the help
    pub about: &'static str,
}

impl CommandOption {
    /// An option without a value.
    pub const fn flag(name: &'static str, about: &'static str) -> CommandOption {
        CommandOption { name, kind: Kind::Flag, value: "", about }
    }

    /// An option with a number or a word.
    pub const fn value(name: &'static str, value: &'static str, about: &'static str) -> CommandOption {
        CommandOption { name, kind: Kind::Value, value, about }
    }

    /// An option with a file that is read.
    pub const fn input(name: &'static str, value: &'static str, about: &'static str) -> CommandOption {
        CommandOption { name, kind: Kind::Input, value, about }
    }

    /// An option with a file that is written.
    pub const fn output(name: &'static str, value: &'static str, about: &'static str) -> CommandOption {
        CommandOption { name, kind: Kind::Output, value, about }
    }
}

/// What a command takes, and its help.
#[derive(Debug)]
pub struct Form {
    /// the word that calls it
    pub name: &'static str,
    /// the arguments in one line
    pub usage: &'static str,
    /// one line for the list of all commands
    pub summary: &'static str,
    /// the rest of the help
    pub about: &'static str,
    /// the fewest and the most words
    pub words: (usize, usize),
    /// the options, in groups that commands share
    pub options: &'static [&'static [CommandOption]],
}

/// Any number of words.
pub const MANY: usize = usize::MAX;

impl Form {
    /// Every option.
    pub fn every_option(&self) -> impl Iterator<Item = &'static CommandOption> {
        self.options.iter().flat_map(|group| group.iter())
    }

    fn option(&self, name: &str) -> Result<&'static CommandOption, Failure> {
        self.every_option().find(|option| option.name == name).ok_or_else(|| wrong(format!("there is no option {name}")))
    }
}

/// What was given to a command.
#[derive(Debug)]
pub struct Arguments {
    form: &'static Form,
    words: Vec<OsString>,
    options: Vec<(&'static CommandOption, OsString)>,
}

/// What the arguments ask for.
#[derive(Debug)]
pub enum Asked {
    /// the help text
    Help,
    /// the command's work
    Work(Arguments),
}

/// Sorts the arguments of a command. `--` ends the options; a single `-` is a word.
pub fn parse(form: &'static Form, given: &[OsString]) -> Result<Asked, Failure> {
    let mut arguments = Arguments { form, words: Vec::new(), options: Vec::new() };
    let mut rest = given.iter();
    while let Some(argument) = rest.next() {
        if argument == "--" {
            arguments.words.extend(rest.by_ref().cloned());
        } else if argument == "--help" || argument == "-h" {
            return Ok(Asked::Help);
        } else if is_option(argument) {
            arguments.take_option(argument, &mut rest)?;
        } else {
            arguments.words.push(argument.clone());
        }
    }
    arguments.test()?;
    Ok(Asked::Work(arguments))
}

impl Arguments {
    /// The words.
    pub fn words(&self) -> &[OsString] {
        &self.words
    }

    /// Word n of those that every use of the command has.
    pub fn word(&self, n: usize) -> &OsStr {
        &self.words[n]
    }

    /// Whether an option was given.
    pub fn has(&self, name: &str) -> bool {
        self.value(name).is_some()
    }

    /// The value of an option, if it was given; empty for a flag.
    pub fn value(&self, name: &str) -> Option<&OsStr> {
        self.options.iter().find(|(option, _)| option.name == name).map(|(_, value)| value.as_os_str())
    }

    /// The value of an option that must be given.
    pub fn needed(&self, name: &str) -> Result<&OsStr, Failure> {
        match self.value(name) {
            Some(value) => Ok(value),
            None => Err(wrong(format!("give {name} {}", self.form.option(name)?.value))),
        }
    }

    /// The number of an option, or what it is where the option is not given.
    pub fn number(&self, name: &str, otherwise: u64) -> Result<u64, Failure> {
        self.value(name).map_or(Ok(otherwise), |value| numbers::number(value).map_err(|why| wrong(format!("{name}: {why}"))))
    }

    /// Whether a file is to be written to standard output.
    pub fn writes_standard_output(&self) -> bool {
        self.options.iter().any(|(option, value)| option.kind == Kind::Output && value == "-")
    }

    fn take_option<'a>(&mut self, argument: &OsString, rest: &mut impl Iterator<Item = &'a OsString>) -> Result<(), Failure> {
        let (name, joined) = split(argument);
        let option = self.form.option(&name)?;
        if self.has(option.name) {
            return Err(wrong(format!("{name} is given twice")));
        }
        let value = match (option.kind, joined) {
            (Kind::Flag, None) => OsString::new(),
            (Kind::Flag, Some(_)) => return Err(wrong(format!("{name} takes no value"))),
            (_, Some(value)) => value,
            (_, None) => rest.next().cloned().ok_or_else(|| wrong(format!("{name} needs {}", option.value)))?,
        };
        self.options.push((option, value));
        Ok(())
    }

    fn test(&self) -> Result<(), Failure> {
        let (fewest, most) = self.form.words;
        if self.words.len() < fewest {
            return Err(wrong(format!("too few words: give {}", self.form.usage)));
        }
        if self.words.len() > most {
            return Err(wrong(format!("`{}` is one word too many", self.words[most].to_string_lossy())));
        }
        if self.dashes(Kind::Input) + self.words.iter().filter(|word| *word == "-").count() > 1 {
            return Err(wrong("standard input (-) can be read only once"));
        }
        if self.dashes(Kind::Output) > 1 {
            return Err(wrong("only one file can go to standard output (-)"));
        }
        Ok(())
    }

    fn dashes(&self, kind: Kind) -> usize {
        self.options.iter().filter(|(option, value)| option.kind == kind && value == "-").count()
    }
}

/// An argument that the command does not take.
pub fn wrong(words: impl Into<String>) -> Failure {
    Failure::WrongUse(words.into())
}

fn is_option(argument: &OsStr) -> bool {
    argument != "-" && argument.as_encoded_bytes().starts_with(b"-")
}

/// The name of an option, and the value that is joined to it by `=`.
fn split(argument: &OsStr) -> (String, Option<OsString>) {
    let text = argument.to_string_lossy();
    match argument.to_str().and_then(|text| text.split_once('=')) {
        Some((name, value)) if name.starts_with("--") => (name.to_string(), Some(OsString::from(value))),
        _ => (text.into_owned(), None),
    }
}

#[cfg(test)]
mod tests {
    use super::*;

    static FORM: Form = Form {
        name: "try",
        usage: "FILE [OTHER]",
        summary: "",
        about: "",
        words: (1, 2),
        options: &[
            &[CommandOption::flag("--force", ""), CommandOption::output("-o", "OUT", "")],
            &[
                CommandOption::value("--seed", "N", ""),
                CommandOption::input("--list", "SCRIPT", ""),
                CommandOption::output("--question", "Q", ""),
            ],
        ],
    };

    fn given(line: &str) -> Result<Asked, Failure> {
        let words: Vec<OsString> = line.split(' ').filter(|word| !word.is_empty()).map(OsString::from).collect();
        parse(&FORM, &words)
    }

    fn work(line: &str) -> Arguments {
        match given(line) {
            Ok(Asked::Work(arguments)) => arguments,
            other => panic!("{line}: {other:?}"),
        }
    }

    fn refused(line: &str) -> String {
        match given(line) {
            Err(Failure::WrongUse(words)) => words,
            other => panic!("{line}: {other:?}"),
        }
    }

    #[test]
    fn words_and_options_in_any_order() {
        let arguments = work("a --seed 0x10 -o out --force b");
        assert_eq!(arguments.words(), ["a", "b"]);
        assert_eq!(arguments.number("--seed", 1).unwrap(), 16);
        assert_eq!(arguments.value("-o").unwrap(), "out");
        assert!(arguments.has("--force"));
        assert!(!arguments.has("--list"));
        assert_eq!(work("a --seed=7").number("--seed", 1).unwrap(), 7);
        assert_eq!(work("a").number("--seed", 1).unwrap(), 1);
    }

    #[test]
    fn two_dashes_end_the_options() {
        assert_eq!(work("-- --seed -x").words(), ["--seed", "-x"]);
        assert_eq!(work("a -o --").value("-o").unwrap(), "--");
        assert_eq!(work("-").words(), ["-"]);
    }

    #[test]
    fn help_comes_first() {
        assert!(matches!(given("--help"), Ok(Asked::Help)));
        assert!(matches!(given("a b c -h"), Ok(Asked::Help)));
        assert!(given("-- --help").is_ok_and(|asked| matches!(asked, Asked::Work(_))));
    }

    #[test]
    fn wrong_use_says_why() {
        assert_eq!(refused(""), "too few words: give FILE [OTHER]");
        assert_eq!(refused("a b c"), "`c` is one word too many");
        assert_eq!(refused("a --strange"), "there is no option --strange");
        assert_eq!(refused("a -oout"), "there is no option -oout");
        assert_eq!(refused("a --force=yes"), "--force takes no value");
        assert_eq!(refused("a --seed"), "--seed needs N");
        assert_eq!(refused("a --seed 1 --seed 2"), "--seed is given twice");
        assert_eq!(refused("- -"), "standard input (-) can be read only once");
        assert_eq!(refused("- --list -"), "standard input (-) can be read only once");
        assert_eq!(refused("a -o - --question -"), "only one file can go to standard output (-)");
        assert!(matches!(work("a --seed many").number("--seed", 1), Err(Failure::WrongUse(_))));
        assert!(matches!(work("a").needed("-o"), Err(Failure::WrongUse(_))));
    }
}
