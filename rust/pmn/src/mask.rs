//! A PMN file that the library accepts, and every call on it.
use crate::{slices, Answer, Call, Network, Refusal, FRAMES_IN_ONE_PASS, LONGEST_FILE, LONGEST_LINE};

/// A PMN file that the library accepts.
#[derive(Clone, Debug, PartialEq, Eq, Hash)]
pub struct Mask(Vec<u8>);

/// The size of a network.
#[derive(Clone, Copy, Debug, PartialEq, Eq, PartialOrd, Ord)]
pub struct Size {
    pub gates: u64,
    pub cost: u64,
    pub levels: u64,
}

/// The reading of a frame: the output bits, output j in bit j, and how many of them are 1.
#[derive(Clone, Copy, Debug, PartialEq, Eq)]
pub struct Reading {
    pub bits: u64,
    pub ones: u64,
}

/// What a merge would answer.
#[derive(Clone, Copy, Debug, PartialEq, Eq)]
pub enum Tried {
    Accepted,
    /// refused with 15: a setting of the distinct feeds on which the two differ, with the fewest lit
    Disagrees(u64),
    Refused(Refusal),
}

/// What a comparison of two networks finds, and the steps that it took.
#[derive(Clone, Copy, Debug, PartialEq, Eq)]
pub enum Compared {
    /// the same output bits on every frame
    Alike { steps: u64 },
    /// a frame on which the output bits differ
    Apart { frame: u64, steps: u64 },
    /// neither was found with these steps; never for networks with at most 20 inputs
    Undecided { steps: u64 },
}

/// A bowler's sheet: the pins felled by each ball, and the running score of each frame that has one.
#[derive(Clone, Debug, PartialEq, Eq)]
pub struct Sheet {
    pub felled: Vec<u64>,
    pub scores: Vec<u64>,
}

/// What the three-feed table has for a truth table.
#[derive(Clone, Copy, Debug, PartialEq, Eq)]
pub enum Entry {
    /// weights and threshold of a gate with that function
    Gate([i64; 3], i64),
    /// two settings that are 1 and two that are 0, with equal sums: no gate has that function
    Settings([i64; 2], [i64; 2]),
}

impl Mask {
    /// Reads a file.
    pub fn read(file: &[u8]) -> Result<Mask, Refusal> {
        Refusal::test(slices::check(file))?;
        Ok(Mask(file.to_vec()))
    }

    /// The file.
    pub fn bytes(&self) -> &[u8] {
        &self.0
    }

    /// The network, to look at.
    pub fn network(&self) -> Network {
        Network::of(self)
    }

    pub fn report(&self) -> Size {
        let mut answer = [0; 3];
        self.always(slices::report(&self.0, &mut answer));
        let [gates, cost, levels] = answer;
        Size { gates, cost, levels }
    }

    pub fn frame(&self, frame: u64) -> Result<Reading, Refusal> {
        let mut answer = [0; 2];
        Refusal::test(slices::frame(&self.0, frame, &mut answer))?;
        let [bits, ones] = answer;
        Ok(Reading { bits, ones })
    }

    /// The output bits on any number of frames, 64 in one pass. If a frame is refused, none is read.
    pub fn frames(&self, frames: &[u64]) -> Result<Vec<u64>, Refusal> {
        let mut answers = vec![0; frames.len()];
        for (some, places) in frames.chunks(FRAMES_IN_ONE_PASS).zip(answers.chunks_mut(FRAMES_IN_ONE_PASS)) {
            Refusal::test(slices::frames(&self.0, some, places))?;
        }
        Ok(answers)
    }

    /// The least pair of u and v, k and l.
    pub fn pair(&self, u: u64, v: u64) -> Result<(u64, u64), Refusal> {
        let mut answer = [0; 2];
        Refusal::test(slices::pair(&self.0, u, v, &mut answer))?;
        Ok((answer[0], answer[1]))
    }

    /// The distinct feeds of u and v, by their signals.
    pub fn distinct(&self, u: u64, v: u64) -> Result<Vec<u64>, Refusal> {
        let mut answer = [0; 17];
        Refusal::test(slices::distinct(&self.0, u, v, &mut answer))?;
        Ok(answer[1..=answer[0] as usize].to_vec())
    }

    /// What the merge of u into v with k and l would answer, and why it disagrees.
    pub fn witness(&self, u: u64, v: u64, k: u64, l: u64) -> Tried {
        let mut answer = [0];
        match Refusal::of(slices::witness(&self.0, u, v, k, l, &mut answer)) {
            None => Tried::Accepted,
            Some(Refusal::Disagrees) => Tried::Disagrees(answer[0]),
            Some(refusal) => Tried::Refused(refusal),
        }
    }

    /// The size that a collapse of the gate would leave.
    pub fn preview(&self, signal: u64) -> Result<Size, Refusal> {
        let mut answer = [0; 3];
        Refusal::test(slices::preview(&self.0, signal, &mut answer))?;
        let [gates, cost, levels] = answer;
        Ok(Size { gates, cost, levels })
    }

    /// The same network in the other version.
    pub fn convert(&self) -> Result<Mask, Refusal> {
        file_out(|out, answer| slices::convert(&self.0, out, answer)).map(Mask)
    }

    /// One output alone, counted from 0.
    pub fn cut(&self, output: u64) -> Result<Mask, Refusal> {
        file_out(|out, answer| slices::cut(&self.0, output, out, answer)).map(Mask)
    }

    /// The bytes of one gate.
    pub fn part(&self, signal: u64) -> Result<Vec<u8>, Refusal> {
        file_out(|out, answer| slices::part(&self.0, signal, out, answer))
    }

    /// Runs a list of calls; a refused call leaves the network as it was, and the list goes on.
    pub fn run(&self, calls: &[Call]) -> (Mask, Vec<Answer>) {
        let numbers: Vec<u64> = calls.iter().flat_map(|call| call.numbers()).collect();
        let mut answers = vec![0; 1 + 4 * calls.len()];
        let mut out = vec![0; LONGEST_FILE];
        self.always(slices::run(&self.0, &numbers, &mut answers, &mut out));
        out.truncate(answers[0] as usize);
        let given = calls.iter().zip(answers[1..].chunks_exact(4)).map(|(call, four)| call.answer(four)).collect();
        (Mask(out), given)
    }

    /// Line n of the question for this network and another, line feed included.
    pub fn question_line(&self, other: &Mask, n: u64) -> Result<String, Refusal> {
        let mut out = [0; LONGEST_LINE];
        let mut answer = [0];
        Refusal::test(slices::line(&self.0, &other.0, n, &mut out, &mut answer))?;
        Ok(String::from_utf8_lossy(&out[..answer[0] as usize]).into_owned())
    }

    /// The whole question for this network and another.
    pub fn question(&self, other: &Mask) -> Result<String, Refusal> {
        let mut text = String::new();
        for n in 0.. {
            match self.question_line(other, n) {
                Ok(line) => text.push_str(&line),
                Err(Refusal::NoSuchLine) => break,
                Err(refusal) => return Err(refusal),
            }
        }
        Ok(text)
    }

    /// Whether this network and another have the same output bits on every frame, with at most so many steps.
    pub fn compare(&self, other: &Mask, budget: u64) -> Result<Compared, Refusal> {
        let mut answer = [0; 3];
        Refusal::test(slices::compare(&self.0, &other.0, budget, &mut answer))?;
        let [verdict, frame, steps] = answer;
        Ok(match verdict {
            0 => Compared::Alike { steps },
            1 => Compared::Apart { frame, steps },
            2 => Compared::Undecided { steps },
            number => panic!("the library has no verdict {number}"),
        })
    }

    /// The sheet of a bowler's game, from the frames after each ball.
    pub fn score(&self, frames: &[u64]) -> Result<Sheet, Refusal> {
        let mut answer = [0; 33];
        Refusal::test(slices::score(&self.0, frames, &mut answer))?;
        let [balls, known] = [answer[0] as usize, answer[1] as usize];
        Ok(Sheet { felled: answer[2..2 + balls].to_vec(), scores: answer[23..23 + known].to_vec() })
    }

    /// A call that is refused on no accepted file and with the places that these bindings lend.
    fn always(&self, code: u8) {
        Refusal::test(code).expect("an accepted file and places enough");
    }
}

/// The entry of a truth table of three feeds.
pub fn three_feeds(table: u64) -> Result<Entry, Refusal> {
    let mut answer = [0; 5];
    Refusal::test(slices::three_feeds(table, &mut answer))?;
    let [has_gate, a, b, c, d] = answer;
    Ok(if has_gate == 1 { Entry::Gate([a, b, c], d) } else { Entry::Settings([a, b], [c, d]) })
}

/// What a call puts out, in places that hold any file.
fn file_out(call: impl FnOnce(&mut [u8], &mut [u64]) -> u8) -> Result<Vec<u8>, Refusal> {
    let mut out = vec![0; LONGEST_FILE];
    let mut answer = [0];
    Refusal::test(call(&mut out, &mut answer))?;
    out.truncate(answer[0] as usize);
    Ok(out)
}
