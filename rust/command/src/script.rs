//! Lists of calls in words, a call a line, and their answers.
use crate::arguments::wrong;
use crate::failure::Failure;
use crate::numbers;
use pmn::{Answer, Call, Outcome};
use std::ffi::OsStr;

/// The calls of a script. The name is for the message where a line is wrong.
pub fn parse(name: &str, text: &str) -> Result<Vec<Call>, Failure> {
    let mut calls = Vec::new();
    for (n, line) in text.lines().enumerate() {
        let said = line.split('#').next().unwrap_or("");
        let words: Vec<&str> = said.split_whitespace().collect();
        if !words.is_empty() {
            calls.push(call(&words).map_err(|why| wrong(format!("{name}, line {}: {why}", n + 1)))?);
        }
    }
    Ok(calls)
}

fn call(words: &[&str]) -> Result<Call, String> {
    let number = |n: usize| numbers::number(OsStr::new(words[n]));
    let signal = |n: usize| numbers::signal(OsStr::new(words[n]));
    let takes = |count: usize| {
        if words.len() == count + 1 {
            return Ok(());
        }
        Err(format!("{} takes {count} {}, not {}", words[0], if count == 1 { "number" } else { "numbers" }, words.len() - 1))
    };
    match words[0] {
        "merge" => takes(4).and_then(|()| Ok(Call::Merge { u: signal(1)?, v: signal(2)?, k: number(3)?, l: number(4)? })),
        "drop" => takes(1).and_then(|()| signal(1)).map(Call::Drop),
        "collapse" => takes(1).and_then(|()| signal(1)).map(Call::Collapse),
        "sweep" => takes(1).and_then(|()| number(1)).map(Call::Sweep),
        "preview" => takes(1).and_then(|()| signal(1)).map(Call::Preview),
        "undo" => takes(0).map(|()| Call::Undo),
        other => Err(format!("there is no call `{other}`")),
    }
}

/// A call in words.
pub fn words(call: Call) -> String {
    match call {
        Call::Merge { u, v, k, l } => format!("merge {u} {v} {k} {l}"),
        Call::Drop(signal) => format!("drop {signal}"),
        Call::Collapse(signal) => format!("collapse {signal}"),
        Call::Sweep(limit) => format!("sweep {limit}"),
        Call::Preview(signal) => format!("preview {signal}"),
        Call::Undo => "undo".to_string(),
    }
}

/// A list of calls as a script.
pub fn text(calls: &[Call]) -> String {
    calls.iter().map(|call| words(*call) + "\n").collect()
}

/// What a call answered, in words.
pub fn answer(answer: &Answer) -> String {
    match answer {
        Ok(Outcome::Done) => "done".to_string(),
        Ok(Outcome::Swept(collapses)) => format!("folded {collapses}"),
        Ok(Outcome::Previewed(size)) => format!("gates {} cost {} levels {}", size.gates, size.cost, size.levels),
        Err(refusal) => format!("refused {refusal}"),
    }
}

/// How many gates the calls of a list folded into their readers.
pub fn folded(calls: &[Call], answers: &[Answer]) -> u64 {
    let of = |(call, answer): (&Call, &Answer)| match (call, answer) {
        (_, Ok(Outcome::Swept(collapses))) => *collapses,
        (Call::Collapse(_), Ok(_)) => 1,
        _ => 0,
    };
    calls.iter().zip(answers).map(of).sum()
}

#[cfg(test)]
mod tests {
    use super::*;

    #[test]
    fn calls_become_words_and_words_calls() {
        let calls = vec![
            Call::Merge { u: 3, v: 4, k: 1, l: 2 },
            Call::Drop(3),
            Call::Collapse(300),
            Call::Sweep(128),
            Call::Preview(u64::MAX),
            Call::Undo,
        ];
        assert_eq!(parse("script", &text(&calls)).unwrap(), calls);
    }

    #[test]
    fn comments_and_blank_lines_are_passed_over() {
        let text = "# a fold\r\n\r\n  collapse g3   # the foot\n\tsweep 0x80\nundo#\n";
        assert_eq!(parse("script", text).unwrap(), [Call::Collapse(3), Call::Sweep(128), Call::Undo]);
        assert_eq!(parse("script", "").unwrap(), []);
    }

    #[test]
    fn a_wrong_line_is_named() {
        for (line, why) in [
            ("colapse 3", "there is no call `colapse`"),
            ("collapse", "collapse takes 1 number, not 0"),
            ("merge 3 4 1", "merge takes 4 numbers, not 3"),
            ("undo 1", "undo takes 0 numbers, not 1"),
            ("sweep all", "`all` is no number"),
            ("drop g", "`g` is no gate"),
        ] {
            match parse("fold.txt", &format!("sweep 1\n\n{line}\n")) {
                Err(Failure::WrongUse(words)) => assert_eq!(words, format!("fold.txt, line 3: {why}")),
                other => panic!("{line}: {other:?}"),
            }
        }
    }
}
