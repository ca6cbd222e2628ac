//! The closing sheet: one page that stands alone and prints on a sheet of paper.
mod calls;
mod checksums;
mod figures;
mod pictures;
mod words;

use crate::comparison::{Comparison, Verdict};
use crate::picture::markup::escaped;
use calls::Printed;
use pmn::Mask;

/// How the page looks, on the screen and on A4 and Letter.
const STYLE: &str = include_str!("sheet/style.css");

/// One of the two masks, with its file's name.
pub struct Named<'a> {
    pub name: &'a str,
    pub mask: &'a Mask,
}

/// What the sheet says.
pub struct Closing<'a> {
    pub before: Named<'a>,
    pub after: Named<'a>,
    /// the calls that led from one to the other, a line each in words, and what each answered
    pub list: Option<&'a [(String, String)]>,
    pub comparison: &'a Comparison,
    /// the date on which the sheet is made, as year, month and day; a box where it is not given
    pub date: Option<&'a str>,
}

/// The page.
pub fn page(closing: &Closing) -> String {
    let list = closing.list.map_or_else(Printed::nothing, |list| Printed::of(list, closing.before.name, closing.after.name));
    let parts = [
        verdict(&closing.comparison.verdict),
        figures::table(&closing.before, &closing.after),
        pictures::both(&closing.before, &closing.after),
        list.on_sheet,
        format!("<div class=\"notes\">\n{}{}</div>\n", compared(closing), proved()),
        signature(closing),
    ];
    let title = escaped(&format!("Closing sheet: {} and {}", closing.before.name, closing.after.name));
    format!(
        "<!DOCTYPE html>\n<html lang=\"en\">\n<head>\n<meta charset=\"utf-8\"/>\n<title>{title}</title>\n<style>\n{STYLE}</style>\n</head>\n\
         <body>\n<main>\n{}</main>\n{}</body>\n</html>\n",
        parts.concat(),
        list.behind
    )
}

fn verdict(verdict: &Verdict) -> String {
    let class = match verdict {
        Verdict::Alike => "alike",
        Verdict::Apart { .. } => "apart",
        Verdict::NotSeenApart => "open",
    };
    format!("<h1 class=\"{class}\">{}</h1>\n", escaped(&words::verdict(verdict)))
}

fn compared(closing: &Closing) -> String {
    let inputs = closing.before.mask.network().inputs;
    let text = words::how(closing.comparison, inputs);
    format!("<section>\n<h2>How the two were compared</h2>\n<p>{}</p>\n</section>\n", escaped(&text))
}

fn proved() -> String {
    "<section>\n<h2>What is proved, and what is tested</h2>\n\
     <p><b>Proved:</b> every call of the library, so that a list of its calls changes no output on any frame. \
     <b>Tested:</b> that this command hands files and numbers on to the library unchanged, prints its answers, compares as said here, \
     and makes checksums and pictures of the files as they are.</p>\n</section>\n"
        .to_string()
}

/// The boxes for date and name, and the last line.
fn signature(closing: &Closing) -> String {
    let date = escaped(closing.date.unwrap_or(""));
    let tick = if closing.comparison.verdict == Verdict::Alike { "<span class=\"tick\"></span> " } else { "" };
    let last = words::last_line(&closing.comparison.verdict);
    format!(
        "<footer>\n<div class=\"boxes\">\n<div class=\"date\"><span>date</span><b>{date}</b></div>\n\
         <div class=\"name\"><span>name</span></div>\n</div>\n<p class=\"last\">{tick}{last}</p>\n</footer>\n"
    )
}
