//! The list of calls that led from the old mask to the new one.
use crate::picture::markup::escaped;
use crate::text::counted;

/// Of a list longer than this only the first and the last calls are printed.
const MOST_CALLS: usize = 200;
/// How many calls are then printed at each end.
const AT_EACH_END: usize = 60;
/// The width of the page, of a letter and of the gap between two columns, in millimetres.
const PAGE: usize = 186;
const LETTER: f64 = 1.22;
const GAP: usize = 4;
/// The list has no more columns than this.
const MOST_COLUMNS: usize = 6;
/// A list that takes more lines than this is printed on a sheet of its own.
const MOST_LINES: usize = 15;

/// The list as it is printed: what stands on the closing sheet, and what on the sheet behind it.
pub(super) struct Printed {
    pub on_sheet: String,
    pub behind: String,
}

impl Printed {
    /// No list.
    pub fn nothing() -> Printed {
        Printed { on_sheet: String::new(), behind: String::new() }
    }

    /// A list of calls with their answers, which leads from one file to the other.
    pub fn of(list: &[(String, String)], before: &str, after: &str) -> Printed {
        let items = items(list);
        let columns = columns(list).min(items.len().max(1));
        let list_of =
            |heading: &str| format!("<h2>{heading}</h2>\n<ol class=\"calls\" style=\"columns:{columns}\">\n{}</ol>\n", items.concat());
        let heading = format!("The list from old to new: {}", counted(list.len(), "call", "calls"));
        if items.len().div_ceil(columns) <= MOST_LINES {
            return Printed { on_sheet: format!("<section>\n{}</section>\n", list_of(&heading)), behind: String::new() };
        }
        let named = format!("The list from {} to {}: {}", escaped(before), escaped(after), counted(list.len(), "call", "calls"));
        Printed {
            on_sheet: format!("<section>\n<h2>{heading}, on the sheet behind this one</h2>\n</section>\n"),
            behind: format!("<section class=\"behind\">\n{}</section>\n", list_of(&named)),
        }
    }
}

/// How many columns the list has, so that every call stands on one line.
fn columns(list: &[(String, String)]) -> usize {
    let letters = |(call, answer): &(String, String)| call.chars().count() + answer.chars().count() + "100  ".len();
    let longest = list.iter().map(letters).max().unwrap_or(1);
    (PAGE / ((longest as f64 * LETTER) as usize + GAP)).clamp(1, MOST_COLUMNS)
}

fn items(list: &[(String, String)]) -> Vec<String> {
    if list.len() <= MOST_CALLS {
        return numbered(list, 1);
    }
    let (first, rest) = list.split_at(AT_EACH_END);
    let (left_out, last) = rest.split_at(rest.len() - AT_EACH_END);
    let mut items = numbered(first, 1);
    items.push(format!("<li class=\"gap\">{} not printed</li>\n", counted(left_out.len(), "call", "calls")));
    items.extend(numbered(last, list.len() - AT_EACH_END + 1));
    items
}

/// The items of some calls, counted from a number.
fn numbered(list: &[(String, String)], from: usize) -> Vec<String> {
    let item = |(place, (call, answer)): (usize, &(String, String))| {
        format!("<li><i>{}</i> <b>{}</b> {}</li>\n", from + place, escaped(call), escaped(answer))
    };
    list.iter().enumerate().map(item).collect()
}
