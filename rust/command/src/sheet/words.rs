//! The verdict, and how it was come by, in words.
use crate::comparison::{Comparison, How, Verdict};
use std::fmt::Display;

/// The line at the head of the sheet.
pub(super) fn verdict(verdict: &Verdict) -> String {
    match verdict {
        Verdict::Alike => "Alike: old and new read alike on every frame.".to_string(),
        Verdict::Apart { frame, .. } => format!("Not alike on frame {frame} ({frame:#x}): {}.", to_light(*frame)),
        Verdict::NotSeenApart => "No difference seen, which is no proof: not every frame was read.".to_string(),
    }
}

/// The last line of the sheet.
pub(super) fn last_line(verdict: &Verdict) -> &'static str {
    match verdict {
        Verdict::Alike => "masks folded, old and new read alike",
        Verdict::Apart { .. } => "old and new do not read alike",
        Verdict::NotSeenApart => "not shown that old and new read alike",
    }
}

/// How the two masks were compared. They have this many inputs.
pub(super) fn how(comparison: &Comparison, inputs: u8) -> String {
    let way = way(comparison, inputs);
    match comparison.verdict {
        Verdict::Apart { frame, first, second } => format!("{way} On frame {frame} {}.", outputs_apart(first, second)),
        _ => way,
    }
}

fn way(comparison: &Comparison, inputs: u8) -> String {
    match &comparison.how {
        How::EveryFrame(count) => every_frame(&comparison.verdict, *count),
        How::EachOutput(count) => each_output(&comparison.verdict, *count),
        How::Solver(name) => solver(&comparison.verdict, name),
        How::List => "The list of calls was run anew on the old mask and left the new one, byte for byte: \
                      the theorem over lists of calls covers every frame."
            .to_string(),
        How::SomeFrames { random, near_edge } => some_frames(&comparison.verdict, *random, *near_edge, inputs),
    }
}

fn every_frame(verdict: &Verdict, count: u64) -> String {
    let count = grouped(count);
    match verdict {
        Verdict::Apart { .. } => {
            format!("Of {count} frames both masks were read on those with few lit patches first: on none with fewer do they part.")
        }
        _ => format!("Both masks were read on every frame, {count} in all, and gave the same outputs on each."),
    }
}

fn each_output(verdict: &Verdict, count: u64) -> String {
    let cut = "Each output was cut out of both masks and read on";
    let count = grouped(count);
    match verdict {
        Verdict::Apart { .. } => {
            format!(
                "{cut} frames of the patches that it depends on, {count} in all, few lit patches first: on none with fewer do they part."
            )
        }
        _ => format!(
            "{cut} every frame of the patches that it depends on, {count} in all, and gave the same bit on each. \
             No other patch can change that output, so this covers every frame."
        ),
    }
}

fn solver(verdict: &Verdict, name: &str) -> String {
    let answer = match verdict {
        Verdict::Alike => "it answered that there is no solution, so there is no frame on which the outputs differ.",
        Verdict::Apart { .. } => "it gave a solution, and both masks were read on the frame above. Other frames may light fewer patches.",
        Verdict::NotSeenApart => "it came to no answer.",
    };
    format!("The question whose solutions are the frames on which the two differ was handed to the solver {name}: {answer}")
}

fn some_frames(verdict: &Verdict, random: u64, near_edge: u64, inputs: u8) -> String {
    let all = grouped(1 << inputs.min(63));
    let [random, near_edge] = [random, near_edge].map(grouped);
    let read = format!("Of {all} frames both masks were read on {random} at random and {near_edge} near the edge of some gate");
    match verdict {
        Verdict::Apart { .. } => format!("{read}. Other frames than the one above may light fewer patches."),
        _ => format!("{read}, and gave the same outputs on each. The others were not read."),
    }
}

/// Which outputs are 1 in which mask, of those that differ.
fn outputs_apart(first: u64, second: u64) -> String {
    let only = |mine: u64, other: u64, name: &str| {
        let outputs = ones(mine & !other);
        let (word, are) = if outputs.len() == 1 { ("output", "is") } else { ("outputs", "are") };
        (!outputs.is_empty()).then(|| format!("{word} {} {are} 1 in the {name} mask alone", listed(&outputs)))
    };
    let sentences: Vec<String> = [only(first, second, "old"), only(second, first, "new")].into_iter().flatten().collect();
    sentences.join(", and ")
}

/// The patches to light.
fn to_light(frame: u64) -> String {
    let lit = ones(frame);
    match lit.len() {
        0 => "light no patch".to_string(),
        1 => format!("light patch {} only", lit[0]),
        _ => format!("light patches {} only", listed(&lit)),
    }
}

/// The places of the bits that are 1.
fn ones(bits: u64) -> Vec<u32> {
    (0..u64::BITS).filter(|place| bits >> place & 1 == 1).collect()
}

/// "3", "3 and 5", "3, 5 and 7".
fn listed(things: &[impl Display]) -> String {
    let words: Vec<String> = things.iter().map(ToString::to_string).collect();
    match words.split_last() {
        None => String::new(),
        Some((only, [])) => only.clone(),
        Some((last, others)) => format!("{} and {last}", others.join(", ")),
    }
}

/// A number with a comma after each group of three digits.
pub(super) fn grouped(number: u64) -> String {
    let digits = number.to_string();
    let groups: Vec<&str> = digits.as_bytes().rchunks(3).rev().map(|group| std::str::from_utf8(group).expect("digits")).collect();
    groups.join(",")
}

#[cfg(test)]
mod tests {
    use super::*;

    #[test]
    fn numbers_and_lists_as_people_write_them() {
        let numbers = [(0, "0"), (999, "999"), (1_000, "1,000"), (1 << 40, "1,099,511,627,776"), (100_000, "100,000")];
        for (number, text) in numbers {
            assert_eq!(grouped(number), text);
        }
        assert_eq!(
            (listed(&ones(0)), listed(&ones(8)), listed(&ones(9)), listed(&ones(11))),
            ("".into(), "3".into(), "0 and 3".into(), "0, 1 and 3".into())
        );
    }

    #[test]
    fn the_frame_and_the_patches_of_a_difference() {
        let line = |frame| verdict(&Verdict::Apart { frame, first: 1, second: 0 });
        assert_eq!(line(0), "Not alike on frame 0 (0x0): light no patch.");
        assert_eq!(line(4), "Not alike on frame 4 (0x4): light patch 2 only.");
        assert_eq!(line(19), "Not alike on frame 19 (0x13): light patches 0, 1 and 4 only.");
    }

    #[test]
    fn the_outputs_that_differ() {
        assert_eq!(outputs_apart(0b0101, 0b0001), "output 2 is 1 in the old mask alone");
        assert_eq!(outputs_apart(0b0001, 0b0110), "output 0 is 1 in the old mask alone, and outputs 1 and 2 are 1 in the new mask alone");
    }
}
