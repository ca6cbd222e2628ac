//! The sheet of an alley by one pass over its bytes: a lane's file is tested and its cost added up on the way, and no network is stored. It
//! is what the benchmarks hold the program `alley` to.
use std::ops::Range;

/// What is left of a file.
struct Rest<'a>(&'a [u8]);

impl Rest<'_> {
    fn byte(&mut self) -> Result<usize, u8> {
        let (&first, rest) = self.0.split_first().ok_or(4)?;
        self.0 = rest;
        Ok(first as usize)
    }

    /// A byte from 1 up to some limit.
    fn count(&mut self, most: usize) -> Result<usize, u8> {
        match self.byte()? {
            0 => Err(3),
            count if count > most => Err(3),
            count => Ok(count),
        }
    }

    /// A number within the scale.
    fn number(&mut self) -> Result<i64, u8> {
        let (field, rest) = self.0.split_first_chunk::<4>().ok_or(4)?;
        self.0 = rest;
        let number = i32::from_le_bytes(*field);
        if number.unsigned_abs() > 1_000_000 { Err(6) } else { Ok(number as i64) }
    }

    /// The cost of the gate with this signal, on a board with these margins.
    fn gate(&mut self, own: usize, [on, off]: [i64; 2]) -> Result<u64, u8> {
        let feeds = self.byte()?;
        if feeds > 16 {
            return Err(7);
        }
        let threshold = self.number()?;
        let mut weights = [0; 16];
        let mut least = 0;
        for weight in &mut weights[..feeds] {
            let signal = self.byte()?;
            if signal < least || signal >= own {
                return Err(5);
            }
            least = signal + 1;
            *weight = self.number()?;
            if *weight == 0 {
                return Err(6);
            }
        }
        if some_sum_in(&weights[..feeds], threshold - off + 1..threshold + on) {
            return Err(24);
        }
        Ok(threshold.unsigned_abs() + weights.iter().map(|w| w.unsigned_abs()).sum::<u64>())
    }
}

/// The sums of some weights, one for each setting, rising.
fn sums(weights: &[i64]) -> Vec<i64> {
    let mut sums = vec![0];
    for weight in weights {
        let with: Vec<i64> = sums.iter().map(|sum| sum + weight).collect();
        sums.extend(with);
    }
    sums.sort_unstable();
    sums
}

/// Whether on some setting the sum of the weights is in a range: by the sums of two halves, where as the one rises the least other that
/// brings it to the range falls.
fn some_sum_in(weights: &[i64], range: Range<i64>) -> bool {
    if range.is_empty() {
        return false;
    }
    let (low, high) = weights.split_at(weights.len() / 2);
    let others = sums(high);
    let mut least = others.len();
    sums(low).iter().any(|sum| {
        while least > 0 && sum + others[least - 1] >= range.start {
            least -= 1;
        }
        others.get(least).is_some_and(|other| sum + other < range.end)
    })
}

/// Gates and cost of a file, or its refusal.
fn size(file: &[u8]) -> Result<(u64, u64), u8> {
    if file.len() < 8 || &file[..3] != b"PMN" {
        return Err(1);
    }
    let mut rest = Rest(&file[5..]);
    let margins = match file[3..5] {
        [1, 0] => [0, 1],
        [2, 0] => [rest.byte()? as i64, rest.count(255)? as i64],
        _ => return Err(2),
    };
    let (inputs, gates, outputs) = (rest.count(40)?, rest.count(128)?, rest.count(16)?);
    let mut cost = 0;
    for g in 0..gates {
        cost += rest.gate(inputs + g, margins)?;
    }
    for _ in 0..outputs {
        if !(inputs..inputs + gates).contains(&rest.byte()?) {
            return Err(8);
        }
    }
    if rest.0.is_empty() { Ok((gates as u64, cost)) } else { Err(9) }
}

fn put_number(out: &mut Vec<u8>, number: u64) {
    if number > 9 {
        put_number(out, number / 10);
    }
    out.push(b'0' + (number % 10) as u8);
}

fn put_line(out: &mut Vec<u8>, numbers: [u64; 2]) {
    put_number(out, numbers[0]);
    out.push(b' ');
    put_number(out, numbers[1]);
    out.push(b'\n');
}

/// The lane at the front and what follows it, or nothing where the lane is cut short.
fn lane(alley: &[u8]) -> Option<(&[u8], &[u8])> {
    let (length, rest) = alley.split_first_chunk::<2>()?;
    rest.split_at_checked(u16::from_le_bytes(*length) as usize)
}

/// The sheet of an alley file.
pub fn alley(file: &[u8]) -> Vec<u8> {
    let mut out = vec![];
    let (mut gates, mut cost) = (0, 0);
    let mut left = file;
    for position in 1..=65_535 {
        if left.is_empty() {
            break;
        }
        let (found, rest) = lane(left).map_or((Err(4), &[][..]), |(file, rest)| (size(file), rest));
        left = rest;
        put_number(&mut out, position);
        out.push(b' ');
        match found {
            Ok(size) => {
                put_line(&mut out, [size.0, size.1]);
                gates += size.0;
                cost += size.1;
            }
            Err(code) => {
                out.extend(b"refused ");
                put_number(&mut out, code as u64);
                out.push(b'\n');
            }
        }
    }
    out.extend(b"total ");
    put_line(&mut out, [gates, cost]);
    out
}
