//! Numbers at random from a seed: the same sequence in every run.

/// A generator of numbers.
#[derive(Clone, Debug)]
pub struct Chance(u64);

impl Chance {
    /// The sequence of a seed.
    pub fn new(seed: u64) -> Chance {
        Chance(seed)
    }

    /// Any number of 64 bits.
    pub fn number(&mut self) -> u64 {
        self.0 = self.0.wrapping_add(0x9E37_79B9_7F4A_7C15);
        let mut z = self.0;
        z = (z ^ (z >> 30)).wrapping_mul(0xBF58_476D_1CE4_E5B9);
        z = (z ^ (z >> 27)).wrapping_mul(0x94D0_49BB_1331_11EB);
        z ^ (z >> 31)
    }

    /// A number below another that is small.
    pub fn below(&mut self, limit: u64) -> u64 {
        ((self.number() >> 32) * limit) >> 32
    }

    /// A frame of so many patches. How many of them are lit is as often few as half or nearly all.
    pub fn frame(&mut self, inputs: u8) -> u64 {
        let lit = self.below(257);
        let mut frame = 0;
        let mut bytes = 0;
        for patch in 0..inputs {
            if patch % 8 == 0 {
                bytes = self.number();
            }
            frame |= u64::from((bytes & 255) < lit) << patch;
            bytes >>= 8;
        }
        frame
    }

    /// Brings things into any order.
    pub fn shuffle<T>(&mut self, things: &mut [T]) {
        for n in (1..things.len()).rev() {
            things.swap(n, self.below(n as u64 + 1) as usize);
        }
    }
}

#[cfg(test)]
mod tests {
    use super::*;

    #[test]
    fn frames_of_every_density_and_no_long_ones() {
        let mut chance = Chance::new(1);
        let frames: Vec<u64> = (0..5000).map(|_| chance.frame(40)).collect();
        assert!(frames.iter().all(|frame| frame >> 40 == 0));
        for lit in 0..=40 {
            assert!(frames.iter().any(|frame| frame.count_ones() == lit), "{lit}");
        }
        assert_eq!(Chance::new(1).frame(40), frames[0]);
    }
}
