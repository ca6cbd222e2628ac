//! sheet and picture: pages to look at and to sign.
use super::compare::{in_words, options, status, COMPARING};
use super::{FORCE, OUT};
use crate::arguments::{wrong, Arguments, CommandOption, Form};
use crate::comparison::{compare, leads, Options};
use crate::failure::{Failure, Status};
use crate::files::{self, read_mask, shown, Named, Target};
use crate::output::{say, Output};
use crate::progress::Progress;
use crate::sheet::{self as closing, Closing};
use crate::solver::on_the_path;
use crate::temporary::Directory;
use crate::{date, picture, script};
use std::ffi::OsStr;
use std::path::{Path, PathBuf};
use std::process::{self, Stdio};

/// `sheet BEFORE AFTER -o FILE.html`
pub static SHEET: Form = Form {
    name: "sheet",
    usage: "BEFORE AFTER -o FILE.html",
    summary: "the closing sheet of a revision, a page to print and sign",
    about:
        "Compares the two masks as `pmn compare` does, prints the verdict, and writes a page that stands alone: both masks, their sizes, how
they were compared and what came of it. With --list the calls stand on it with their answers; they must lead from BEFORE to
AFTER, byte for byte. Where the two part, the page says so, and the status is 1.",
    words: (2, 2),
    options: &[
        &[
            OUT,
            FORCE,
            CommandOption::value("--date", "YYYY-MM-DD", "the date on the sheet (today's, in universal time); `none` leaves it open"),
        ],
        COMPARING,
    ],
};

/// Writes the closing sheet.
pub fn sheet(arguments: &Arguments, out: &mut Output) -> Result<Status, Failure> {
    let target = Target::of(arguments, "-o")?;
    let date = date_of(arguments)?;
    let options = options(arguments)?;
    let (before, after) = (read_mask(arguments.word(0))?, read_mask(arguments.word(1))?);
    let list = answered(&before, &after, &options, arguments.value("--list"))?;
    let comparison = compare(&before, &after, &options, &mut Progress::new())?;
    let page = closing::page(&Closing {
        before: closing::Named { name: &before.name, mask: &before.mask },
        after: closing::Named { name: &after.name, mask: &after.mask },
        list: list.as_deref(),
        comparison: &comparison,
        date: date.as_deref(),
    });
    files::write(&target, page.as_bytes(), out)?;
    out.text(&in_words(&comparison, &before, &after))?;
    Ok(status(&comparison))
}

/// The date on the sheet, if it has one.
fn date_of(arguments: &Arguments) -> Result<Option<String>, Failure> {
    let Some(word) = arguments.value("--date") else {
        return Ok(Some(date::today()));
    };
    if word == "none" {
        return Ok(None);
    }
    let text = word.to_str().filter(|text| date::is_date(text));
    text.map(|text| Some(text.to_string())).ok_or_else(|| wrong("--date needs a day as YYYY-MM-DD, or `none`"))
}

/// The calls of the list in words, with what each answers. A list that leads elsewhere has no place on the sheet.
fn answered(before: &Named, after: &Named, options: &Options, word: Option<&OsStr>) -> Result<Option<Vec<(String, String)>>, Failure> {
    let (Some(calls), Some(word)) = (&options.list, word) else {
        return Ok(None);
    };
    if !leads(&before.mask, calls, &after.mask) {
        return Err(Failure::file(&shown(word), format!("does not lead from {} to {}; nothing is written", before.name, after.name)));
    }
    let (_, answers) = before.mask.run(calls);
    Ok(Some(calls.iter().zip(&answers).map(|(call, answer)| (script::words(*call), script::answer(answer))).collect()))
}

/// `picture FILE`
pub static PICTURE: Form = Form {
    name: "picture",
    usage: "FILE [-o NAME.svg|NAME.dot]",
    summary: "the network as a picture",
    about:
        "Prints the network in the language of Graphviz (DOT): inputs, gates with their thresholds, weights on the edges, those that vote
against dashed, outputs named, levels in ranks. With -o NAME.dot this is written to a file; with -o NAME.svg Graphviz draws it,
where it is installed, and else the command's own drawing is written.",
    words: (1, 1),
    options: &[&[CommandOption::output("-o", "NAME", "write NAME.svg or NAME.dot; - is DOT on standard output"), FORCE]],
};

/// The forms of a picture.
enum Drawing {
    Dot,
    Svg,
}

/// Prints or writes the picture of a network.
pub fn picture(arguments: &Arguments, out: &mut Output) -> Result<Status, Failure> {
    let drawing = drawing(arguments.value("-o"))?;
    let target = Target::if_given(arguments, "-o")?.unwrap_or(Target::StandardOutput);
    let named = read_mask(arguments.word(0))?;
    let dot = picture::dot(&named.mask, &named.name);
    let text = match drawing {
        Drawing::Dot => dot,
        Drawing::Svg => match graphviz(&dot)? {
            Some(svg) => svg,
            None => picture::svg(&named.mask, &named.name),
        },
    };
    files::write(&target, text.as_bytes(), out)?;
    Ok(Status::Done)
}

fn drawing(name: Option<&OsStr>) -> Result<Drawing, Failure> {
    let Some(name) = name.filter(|name| *name != "-") else {
        return Ok(Drawing::Dot);
    };
    match Path::new(name).extension().and_then(OsStr::to_str) {
        Some("dot" | "gv") => Ok(Drawing::Dot),
        Some("svg") => Ok(Drawing::Svg),
        _ => Err(wrong("-o needs a name that ends in .svg or .dot")),
    }
}

/// What Graphviz draws. Where it is not there or fails, it is said, and there is nothing.
fn graphviz(dot: &str) -> Result<Option<String>, Failure> {
    let Some(program) = on_the_path("dot") else {
        say("Graphviz (dot) is not installed: this is the command's own drawing");
        return Ok(None);
    };
    let drawn = draw(program, dot)?;
    if drawn.is_none() {
        say("Graphviz (dot) failed: this is the command's own drawing");
    }
    Ok(drawn)
}

fn draw(program: PathBuf, dot: &str) -> Result<Option<String>, Failure> {
    let directory = Directory::new()?;
    let path = directory.write("network.dot", dot)?;
    let ended = process::Command::new(program).arg("-Tsvg").arg(path).stdin(Stdio::null()).stderr(Stdio::null()).output();
    let said = ended.map_err(|error| Failure::system("dot", &error))?;
    if !said.status.success() {
        return Ok(None);
    }
    Ok(String::from_utf8(said.stdout).ok().filter(|text| text.contains("<svg")))
}
