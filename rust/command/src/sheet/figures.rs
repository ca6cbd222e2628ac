//! The table of both files: names, checksums and sizes.
use super::checksums::{crc_32, sha_256};
use super::words::grouped;
use super::Named;
use crate::picture::markup::escaped;
use crate::text::counted;
use pmn::Mask;
use std::cmp::Ordering;

/// The table of both files.
pub(super) fn table(before: &Named, after: &Named) -> String {
    let masks = [before.mask, after.mask];
    let sizes = masks.map(|mask| mask.report());
    let rows = [
        row("file", [before, after].map(|named| format!("<b>{}</b>", escaped(named.name))), ""),
        counts("length", masks.map(|mask| mask.bytes().len() as u64), " bytes"),
        row("CRC-32", masks.map(|mask| digits(&crc_32(mask.bytes()))), ""),
        row("SHA-256", masks.map(|mask| digits(&sha_256(mask.bytes()))), ""),
        row("form", masks.map(form), ""),
        counts("gates", sizes.map(|size| size.gates), ""),
        counts("cost", sizes.map(|size| size.cost), ""),
        counts("levels", sizes.map(|size| size.levels), ""),
    ];
    format!(
        "<table>\n<thead><tr><th></th><th>old</th><th>new</th><th>change</th></tr></thead>\n<tbody>\n{}</tbody>\n</table>\n",
        rows.concat()
    )
}

/// The version, the margins where it has them, and the numbers that no fold changes.
fn form(mask: &Mask) -> String {
    let network = mask.network();
    let margins = match network.version {
        1 => String::new(),
        _ => format!(", margins {} and {}", network.on_margin, network.off_margin),
    };
    let inputs = counted(network.inputs.into(), "input", "inputs");
    let outputs = counted(network.outputs.len(), "output", "outputs");
    format!("version {}{margins}; {inputs}, {outputs}", network.version)
}

fn row(name: &str, cells: [String; 2], change: &str) -> String {
    let [old, new] = cells;
    format!("<tr><th>{name}</th><td>{old}</td><td>{new}</td><td>{change}</td></tr>\n")
}

/// A row of two numbers with their unit, and their difference.
fn counts(name: &str, numbers: [u64; 2], unit: &str) -> String {
    let [old, new] = numbers;
    let change = match old.cmp(&new) {
        Ordering::Less => format!("+{}", grouped(new - old)),
        Ordering::Equal => "none".to_string(),
        Ordering::Greater => format!("−{}", grouped(old - new)),
    };
    row(name, numbers.map(|number| grouped(number) + unit), &change)
}

/// A checksum in groups of eight digits, which are apart on the page and together where they are copied.
fn digits(checksum: &str) -> String {
    let groups: Vec<&str> = checksum.as_bytes().chunks(8).map(|group| std::str::from_utf8(group).expect("digits")).collect();
    format!("<code>{}</code>", groups.iter().map(|group| format!("<span>{group}</span>")).collect::<Vec<_>>().join("<wbr/>"))
}
