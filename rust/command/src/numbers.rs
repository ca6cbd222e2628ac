//! Numbers as people write them, and frames from words or from standard input.
use crate::arguments::wrong;
use crate::failure::Failure;
use std::ffi::{OsStr, OsString};
use std::io::{self, BufRead};

/// The longest word that is taken for a number: 64 binary digits with an underscore between any two.
const LONGEST_WORD: usize = 130;

/// A number: decimal, or hexadecimal after 0x, or binary after 0b; underscores may stand between digits.
pub fn number(word: &OsStr) -> Result<u64, String> {
    let text = word.to_string_lossy();
    let lower = text.to_ascii_lowercase();
    let (digits, base) = match (lower.strip_prefix("0x"), lower.strip_prefix("0b")) {
        (Some(digits), _) => (digits, 16),
        (_, Some(digits)) => (digits, 2),
        _ => (lower.as_str(), 10),
    };
    if !are_digits(digits, base) {
        return Err(format!("`{text}` is no number"));
    }
    u64::from_str_radix(&digits.replace('_', ""), base).map_err(|_| format!("`{text}` does not fit into 64 bits"))
}

fn are_digits(digits: &str, base: u32) -> bool {
    let fits = |c: char| c == '_' || c.is_digit(base);
    !digits.is_empty() && !digits.starts_with('_') && !digits.ends_with('_') && digits.chars().all(fits)
}

/// A gate by its signal: a number, or g and a number as `pmn show` prints it.
pub fn signal(word: &OsStr) -> Result<u64, String> {
    match word.to_str().and_then(|text| text.strip_prefix('g')) {
        Some(digits) => number(OsStr::new(digits)).map_err(|_| format!("`{}` is no gate", word.to_string_lossy())),
        None => number(word),
    }
}

/// A number among the words of a command.
pub fn word_number(word: &OsStr) -> Result<u64, Failure> {
    number(word).map_err(wrong)
}

/// A gate among the words of a command.
pub fn word_signal(word: &OsStr) -> Result<u64, Failure> {
    signal(word).map_err(wrong)
}

/// The numbers of words, one after another; the word - stands for those on standard input.
pub fn each(words: &[OsString]) -> Box<dyn Iterator<Item = Result<u64, Failure>> + '_> {
    Box::new(words.iter().flat_map(|word| -> Box<dyn Iterator<Item = Result<u64, Failure>>> {
        if word == "-" {
            return Box::new(Stream(io::stdin().lock()));
        }
        Box::new(std::iter::once(word_number(word)))
    }))
}

/// The numbers of a text, parted by white space.
struct Stream<R>(R);

impl<R: BufRead> Stream<R> {
    /// The next word; none at the end. A word that is too long for a number is cut off and ends in two dots, which no number has.
    fn word(&mut self) -> io::Result<Option<String>> {
        let mut word = Vec::new();
        loop {
            let bytes = self.0.fill_buf()?;
            let Some(byte) = bytes.first().copied() else {
                break;
            };
            if byte.is_ascii_whitespace() && !word.is_empty() {
                break;
            }
            if word.len() == LONGEST_WORD {
                word.extend(b"..");
                break;
            }
            if !byte.is_ascii_whitespace() {
                word.push(byte);
            }
            self.0.consume(1);
        }
        Ok((!word.is_empty()).then(|| String::from_utf8_lossy(&word).into_owned()))
    }
}

impl<R: BufRead> Iterator for Stream<R> {
    type Item = Result<u64, Failure>;

    fn next(&mut self) -> Option<Self::Item> {
        match self.word() {
            Ok(word) => word.map(|word| word_number(OsStr::new(&word))),
            Err(error) => Some(Err(Failure::system("standard input", &error))),
        }
    }
}

#[cfg(test)]
mod tests {
    use super::*;

    fn read(text: &str) -> Result<u64, String> {
        number(OsStr::new(text))
    }

    #[test]
    fn numbers_in_three_bases() {
        for (text, value) in [
            ("0", 0),
            ("007", 7),
            ("1_000", 1000),
            ("0x333", 0x333),
            ("0XFf", 255),
            ("0xff_ff", 0xffff),
            ("0b1_01", 5),
            ("18446744073709551615", u64::MAX),
            ("0xffff_ffff_ffff_ffff", u64::MAX),
        ] {
            assert_eq!(read(text), Ok(value), "{text}");
        }
    }

    #[test]
    fn what_is_no_number() {
        for text in ["", "_", "1_", "_1", "+1", "-1", "0x", "0b", "0b2", "12a", "0x_1", "1 2", "1.5", "18446744073709551616"] {
            assert!(read(text).is_err(), "{text}");
        }
    }

    #[test]
    fn gates_by_number_or_name() {
        assert_eq!(signal(OsStr::new("3")), Ok(3));
        assert_eq!(signal(OsStr::new("g3")), Ok(3));
        assert!(signal(OsStr::new("g")).is_err());
        assert!(signal(OsStr::new("p3")).is_err());
    }

    #[test]
    fn numbers_of_a_text() {
        let numbers: Vec<u64> = Stream("1 2\r\n\n 0x10\t0b11".as_bytes()).map(Result::unwrap).collect();
        assert_eq!(numbers, [1, 2, 16, 3]);
        assert_eq!(Stream("".as_bytes()).count(), 0);
        for long in ["1".repeat(1000), "0".repeat(200)] {
            assert!(Stream(long.as_bytes()).next().unwrap().is_err());
        }
        assert_eq!(Stream("0".repeat(130).as_bytes()).next().unwrap().unwrap(), 0);
    }
}
