//! A bowler's sheet in boxes: X for a strike, / for a spare, - for no pin, and the running scores that are known.
use pmn::Sheet;

/// The pins of a full rack.
const PINS: u64 = 10;

/// The frames of a game.
const FRAMES: usize = 10;

/// The sheet, five lines.
pub fn draw(sheet: &Sheet) -> String {
    let marks = marks(&sheet.felled);
    let row = |cell: &dyn Fn(usize) -> String| -> String { (0..FRAMES).map(cell).collect::<String>() + "|\n" };
    let edge: String = (0..FRAMES).map(|n| format!("+{}", "-".repeat(width(n) + 2))).collect::<String>() + "+\n";
    let numbers = row(&|n| format!("| {:^1$} ", n + 1, width(n)));
    let balls = row(&|n| format!("| {:1$} ", marks[n], width(n)));
    let scores = row(&|n| format!("| {:>1$} ", sheet.scores.get(n).map_or(String::new(), u64::to_string), width(n)));
    format!("{edge}{numbers}{balls}{scores}{edge}")
}

/// The tenth frame has room for three balls.
fn width(frame: usize) -> usize {
    if frame + 1 == FRAMES {
        5
    } else {
        3
    }
}

/// The marks of each frame.
fn marks(felled: &[u64]) -> Vec<String> {
    let mut rest = felled;
    let mut frames = Vec::new();
    for _ in 1..FRAMES {
        let balls = if rest.first() == Some(&PINS) { 1 } else { rest.len().min(2) };
        let (frame, after) = rest.split_at(balls);
        frames.push(if frame == [PINS] { "  X".to_string() } else { marks_of_balls(frame) });
        rest = after;
    }
    frames.push(marks_of_balls(rest));
    frames
}

/// The marks of balls in a row; whenever no pin stands, there is a fresh rack.
fn marks_of_balls(balls: &[u64]) -> String {
    let mut standing = PINS;
    let mut marks = Vec::new();
    for felled in balls {
        let all = *felled == standing;
        marks.push(match *felled {
            0 => "-".to_string(),
            _ if all && standing == PINS && !after_a_miss(&marks) => "X".to_string(),
            _ if all => "/".to_string(),
            some => some.to_string(),
        });
        standing = if all { PINS } else { standing - felled };
    }
    marks.join(" ")
}

/// Whether the last ball left the whole rack, so that ten pins now are a spare.
fn after_a_miss(marks: &[String]) -> bool {
    marks.last().is_some_and(|mark| mark == "-")
}

#[cfg(test)]
mod tests {
    use super::*;

    #[test]
    fn a_game_under_way() {
        let sheet = Sheet { felled: vec![7, 2, 10, 8, 2, 4], scores: vec![9, 29, 43] };
        let lines = [
            "+-----+-----+-----+-----+-----+-----+-----+-----+-----+-------+",
            "|  1  |  2  |  3  |  4  |  5  |  6  |  7  |  8  |  9  |  10   |",
            "| 7 2 |   X | 8 / | 4   |     |     |     |     |     |       |",
            "|   9 |  29 |  43 |     |     |     |     |     |     |       |",
            "+-----+-----+-----+-----+-----+-----+-----+-----+-----+-------+",
        ];
        assert_eq!(draw(&sheet), lines.join("\n") + "\n");
    }

    #[test]
    fn marks_of_the_tenth_frame() {
        for (balls, marks) in [
            (vec![10, 10, 10], "X X X"),
            (vec![10, 3, 7], "X 3 /"),
            (vec![10, 0, 10], "X - /"),
            (vec![10, 0, 0], "X - -"),
            (vec![0, 10, 10], "- / X"),
            (vec![3, 7, 0], "3 / -"),
            (vec![3, 7, 10], "3 / X"),
            (vec![0, 0], "- -"),
            (vec![10, 10], "X X"),
            (vec![], ""),
        ] {
            assert_eq!(marks_of_balls(&balls), marks);
        }
    }

    #[test]
    fn marks_of_whole_games() {
        let strikes = marks(&[10; 12]);
        assert_eq!(strikes[8], "  X");
        assert_eq!(strikes[9], "X X X");
        let spares = marks(&[0, 10, 0, 10]);
        assert_eq!(spares[..3], ["- /", "- /", ""]);
    }
}
