//! frame and score: what a mask reads.
use crate::arguments::{Arguments, Form, MANY};
use crate::boxes;
use crate::failure::{Failure, Status};
use crate::files::{read_mask, Named};
use crate::numbers;
use crate::output::Output;
use pmn::FRAMES_IN_ONE_PASS;

/// `frame FILE X..`
pub static FRAME: Form = Form {
    name: "frame",
    usage: "FILE X..",
    summary: "the output bits on frames",
    about: "Reads frames, bit i of X for patch i: decimal, or 0x and hexadecimal, or 0b and binary, with underscores between digits
where they help. The word - stands for the frames on standard input, one a line or several.

Prints a line for each frame: the frame, the output bits (output j in bit j), both in hexadecimal, and how many outputs are 1.
64 frames are read in one pass; a frame with a bit that is no patch ends the command, and nothing is printed of its pass.",
    words: (2, MANY),
    options: &[],
};

/// Reads frames, 64 in one pass.
pub fn frame(arguments: &Arguments, out: &mut Output) -> Result<Status, Failure> {
    let named = read_mask(arguments.word(0))?;
    let mut frames = numbers::each(&arguments.words()[1..]);
    loop {
        let pass = frames.by_ref().take(FRAMES_IN_ONE_PASS).collect::<Result<Vec<u64>, Failure>>()?;
        if pass.is_empty() {
            return Ok(Status::Done);
        }
        read_pass(&named, &pass, out)?;
    }
}

fn read_pass(named: &Named, pass: &[u64], out: &mut Output) -> Result<(), Failure> {
    let readings = named.mask.frames(pass).map_err(|refusal| {
        let wrong = pass.iter().find(|frame| named.mask.frame(**frame).is_err()).unwrap_or(&pass[0]);
        Failure::refused(&format!("{}, frame {wrong:#x}", named.name), refusal)
    })?;
    for (frame, bits) in pass.iter().zip(readings) {
        out.line(format_args!("{frame:#x} {bits:#x} {}", bits.count_ones()))?;
    }
    Ok(())
}

/// `score FILE X..`
pub static SCORE: Form = Form {
    name: "score",
    usage: "FILE [X..]",
    summary: "a bowler's sheet from the frames after each ball",
    about: "Scores one bowler's game by ten-pin rules. X are the frames after each ball, first ball first; the word - stands for those on
standard input. The first ten outputs of the mask are the pins, 1 for standing. The game may be under way or not begun.

Prints the sheet: X is a strike, / a spare, - no pin; below them the running scores that are known.",
    words: (1, MANY),
    options: &[],
};

/// No game has so many balls; what follows them need not be read.
const MORE_THAN_A_GAME: usize = 64;

/// Prints the sheet of a game.
pub fn score(arguments: &Arguments, out: &mut Output) -> Result<Status, Failure> {
    let named = read_mask(arguments.word(0))?;
    let frames = numbers::each(&arguments.words()[1..]).take(MORE_THAN_A_GAME).collect::<Result<Vec<u64>, Failure>>()?;
    let sheet = named.mask.score(&frames).map_err(|refusal| Failure::refused(&refused_at(&named, &frames), refusal))?;
    out.text(&boxes::draw(&sheet))?;
    Ok(Status::Done)
}

/// The file's name, and which ball is refused: the last of the shortest beginning of the game that is.
fn refused_at(named: &Named, frames: &[u64]) -> String {
    match (0..=frames.len()).find(|balls| named.mask.score(&frames[..*balls]).is_err()) {
        Some(balls) if balls > 0 => format!("{}, ball {balls}", named.name),
        _ => named.name.clone(),
    }
}
