//! The sums of some weights, one for each setting.

/// The sums of up to 16 weights, as two lists of half of them: each sum is one of the one list and one of the other.
pub struct Sums {
    low: Vec<i64>,
    high: Vec<i64>,
}

/// The sums of some weights, rising.
fn rising(weights: &[i64]) -> Vec<i64> {
    let mut sums = Vec::with_capacity(1 << weights.len());
    sums.push(0);
    for weight in weights {
        let without = sums.clone();
        sums.clear();
        let (mut next, mut next_with) = (0, 0);
        while next_with < without.len() {
            let with = without[next_with] + weight;
            if next < without.len() && without[next] <= with {
                sums.push(without[next]);
                next += 1;
            } else {
                sums.push(with);
                next_with += 1;
            }
        }
        sums.extend(&without[next..]);
    }
    sums
}

impl Sums {
    /// The sums of these weights.
    pub fn of(weights: &[i64]) -> Sums {
        let (low, high) = weights.split_at(weights.len() / 2);
        Sums { low: rising(low), high: rising(high) }
    }

    /// The least sum.
    pub fn least(&self) -> i64 {
        self.low[0] + self.high[0]
    }

    /// The greatest sum.
    pub fn greatest(&self) -> i64 {
        self.low[self.low.len() - 1] + self.high[self.high.len() - 1]
    }

    /// The greatest sum below a limit, and the least from the limit on.
    pub fn beside(&self, limit: i64) -> (Option<i64>, Option<i64>) {
        if self.greatest() < limit {
            return (Some(self.greatest()), None);
        }
        if self.least() >= limit {
            return (None, Some(self.least()));
        }
        let (mut below, mut from) = (i64::MIN, i64::MAX);
        let mut reaching = self.high.len();
        for low in &self.low {
            while reaching > 0 && low + self.high[reaching - 1] >= limit {
                reaching -= 1;
            }
            if reaching > 0 {
                below = below.max(low + self.high[reaching - 1]);
            }
            if reaching < self.high.len() {
                from = from.min(low + self.high[reaching]);
            }
        }
        (Some(below), Some(from))
    }
}

#[cfg(test)]
mod tests {
    use super::*;

    #[test]
    fn sums_beside_a_limit_are_those_of_all_settings() {
        let weights = [3, -5, 2, 2, -7, 11, 1];
        let all: Vec<i64> =
            (0..1 << weights.len()).map(|setting| (0..weights.len()).filter(|i| setting >> i & 1 == 1).map(|i| weights[i]).sum()).collect();
        for count in 0..=weights.len() {
            let sums = Sums::of(&weights[..count]);
            let some = &all[..1 << count];
            assert_eq!(Some(&sums.least()), some.iter().min());
            assert_eq!(Some(&sums.greatest()), some.iter().max());
            for limit in -20..25 {
                let below = some.iter().copied().filter(|sum| *sum < limit).max();
                let from = some.iter().copied().filter(|sum| *sum >= limit).min();
                assert_eq!(sums.beside(limit), (below, from));
            }
        }
    }
}
