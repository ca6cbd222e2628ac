//! The numbers on the head's display.
use std::fmt;

/// A refusal, by the number and the word that the papers give it; where they give a number no word, the word is that of docs/GUIDE.md.
#[derive(Clone, Copy, Debug, PartialEq, Eq, Hash, PartialOrd, Ord)]
#[repr(u8)]
pub enum Refusal {
    ForeignMark = 1,
    StrangeVersion,
    BadCount,
    CutShort,
    CrossedFeed,
    OffTheScale,
    TooWide,
    StrayOutput,
    Tail,
    LongFrame,
    NoSuchGate,
    NotAFeed,
    AgainstTheGrain,
    OffTheDial,
    Disagrees,
    NoPair,
    StillRead,
    ShortBuffer,
    UnlikeNetworks,
    BrokenRecord,
    NoSuchLine,
    EmptyJournal,
    UnsoundStep,
    BrokenMargin,
    MarginOfVersion2,
    FramesAndPlaces,
    FewerThanTenOutputs,
    BallAfterTheEnd,
    PinUpAgain,
}

use Refusal::*;

/// Every refusal with its word, in the order of the numbers.
const WORDS: [(Refusal, &str); 29] = [
    (ForeignMark, "foreign mark"),
    (StrangeVersion, "strange version"),
    (BadCount, "bad count"),
    (CutShort, "cut short"),
    (CrossedFeed, "crossed feed"),
    (OffTheScale, "off the scale"),
    (TooWide, "too wide"),
    (StrayOutput, "stray output"),
    (Tail, "tail"),
    (LongFrame, "long frame"),
    (NoSuchGate, "no such gate"),
    (NotAFeed, "not a feed"),
    (AgainstTheGrain, "against the grain"),
    (OffTheDial, "off the dial"),
    (Disagrees, "disagrees"),
    (NoPair, "no pair"),
    (StillRead, "still read"),
    (ShortBuffer, "short buffer"),
    (UnlikeNetworks, "unlike networks"),
    (BrokenRecord, "broken record"),
    (NoSuchLine, "no such line"),
    (EmptyJournal, "empty journal"),
    (UnsoundStep, "a step that would leave an unsound network"),
    (BrokenMargin, "broken margin"),
    (MarginOfVersion2, "a margin that version 1 can't hold"),
    (FramesAndPlaces, "frames and places"),
    (FewerThanTenOutputs, "fewer than ten outputs"),
    (BallAfterTheEnd, "ball after the end"),
    (PinUpAgain, "pin up again"),
];

impl Refusal {
    /// The number on the display.
    pub fn number(self) -> u8 {
        self as u8
    }

    /// Its word.
    pub fn word(self) -> &'static str {
        WORDS[self as usize - 1].1
    }

    /// The refusal of a code; none for 0.
    pub(crate) fn of(code: u8) -> Option<Refusal> {
        let place = usize::from(code).checked_sub(1)?;
        Some(WORDS.get(place).unwrap_or_else(|| panic!("the library has no code {code}")).0)
    }

    /// `Ok` for the code 0.
    pub(crate) fn test(code: u8) -> Result<(), Refusal> {
        Refusal::of(code).map_or(Ok(()), Err)
    }
}

impl fmt::Display for Refusal {
    fn fmt(&self, f: &mut fmt::Formatter<'_>) -> fmt::Result {
        write!(f, "{} {}", self.number(), self.word())
    }
}

impl std::error::Error for Refusal {}

#[cfg(test)]
mod tests {
    use super::*;

    #[test]
    fn numbers_and_words_stand_in_one_order() {
        for (place, (refusal, word)) in WORDS.iter().enumerate() {
            assert_eq!(refusal.number() as usize, place + 1);
            assert_eq!(refusal.word(), *word);
            assert_eq!(Refusal::of(place as u8 + 1), Some(*refusal));
        }
        assert_eq!(Refusal::of(0), None);
    }
}
