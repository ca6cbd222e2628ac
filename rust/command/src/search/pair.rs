//! The pair of two gates, found by the extreme sums on either side of the thresholds: what the library finds, in less time.
use super::sums::Sums;

/// A weight or a threshold is at most this far from 0.
const SCALE: i64 = 1_000_000;

/// The greatest multiplier.
const DIAL: i64 = 32;

/// The margins of a board.
#[derive(Clone, Copy)]
pub struct Margins {
    pub on: i64,
    pub off: i64,
}

/// Which pair is taken of those that qualify.
#[derive(Clone, Copy, PartialEq, Eq)]
pub enum Choice {
    /// the one of the library: the least k + l, then the least k
    Least,
    /// one that lets the merged gate's least sum which reaches the threshold be the threshold, where there is one: more gates can then be
    /// merged into it; else the least
    Tight,
}

/// Two gates by their distinct feeds: u (or its complement, where it votes against v) and v without u.
#[derive(Default)]
pub struct Aligned {
    pub signals: Vec<u8>,
    pub weights_of_u: Vec<i64>,
    pub weights_of_v: Vec<i64>,
    /// what u's sum must reach
    pub own: i64,
    /// what v's other feeds must reach where u is 1
    pub on: i64,
    /// what they must reach more where u is 0
    pub gap: i64,
}

/// A demand on the pair: k times x and l times y together are at least `least`.
#[derive(Clone, Copy)]
struct Demand {
    x: i64,
    y: i64,
    least: i64,
}

impl Demand {
    fn holds(&self, k: i64, l: i64) -> bool {
        k * self.x + l * self.y >= self.least
    }
}

/// The demands on a pair. `lowest` and `highest` are the limits of k / l that they leave, as fractions; a limit 1 / 0 is none.
struct Demands {
    list: Vec<Demand>,
    lowest: (i64, i64),
    highest: (i64, i64),
    /// on some setting both sums are their thresholds
    meets: bool,
}

impl Demands {
    fn none() -> Demands {
        Demands { list: Vec::new(), lowest: (0, 1), highest: (1, 0), meets: false }
    }

    /// Takes a demand in. Nothing is left where no pair can meet it with the others.
    fn put(&mut self, x: i64, y: i64, least: i64) -> Option<()> {
        if x >= 0 && y >= 0 {
            if x + y < least {
                self.list.push(Demand { x, y, least });
            }
            return (x + y > 0 || least == 0).then_some(());
        }
        if x <= 0 && y <= 0 {
            return None;
        }
        let (limit, of) = if x < 0 { ((y, -x), &mut self.highest) } else { ((-y, x), &mut self.lowest) };
        let (new, old) = (limit.0 * of.1, of.0 * limit.1);
        let narrower = if x < 0 { new < old } else { new > old };
        if narrower {
            *of = limit;
        } else if new != old && least <= 1 {
            return Some(());
        }
        if self.lowest.0 * self.highest.1 > self.highest.0 * self.lowest.1 {
            return None;
        }
        self.list.push(Demand { x, y, least });
        Some(())
    }

    fn hold(&self, k: i64, l: i64) -> bool {
        self.list.iter().all(|demand| demand.holds(k, l))
    }
}

/// The greatest number that divides both.
fn common_divisor(a: i64, b: i64) -> i64 {
    if b == 0 {
        a
    } else {
        common_divisor(b, a % b)
    }
}

impl Aligned {
    /// The pair of the two gates, by this choice.
    pub fn pair(&self, margins: Margins, choice: Choice) -> Option<(i64, i64)> {
        let demands = self.demands(margins)?;
        if choice == Choice::Tight && !demands.meets && demands.highest.1 != 0 {
            let divisor = common_divisor(demands.highest.0, demands.highest.1);
            let (k, l) = (demands.highest.0 / divisor, demands.highest.1 / divisor);
            if k <= DIAL && l <= DIAL && demands.hold(k, l) && self.on_scale(k, l) {
                return Some((k, l));
            }
        }
        self.least_pair(&demands)
    }

    fn least_pair(&self, demands: &Demands) -> Option<(i64, i64)> {
        let mut stern = 0;
        for sum in 2..=2 * DIAL {
            'candidate: for k in (sum - DIAL).max(1)..=(sum - 1).min(DIAL) {
                let l = sum - k;
                if demands.list.get(stern).is_some_and(|demand| !demand.holds(k, l)) {
                    continue;
                }
                for (place, demand) in demands.list.iter().enumerate() {
                    if !demand.holds(k, l) {
                        stern = place;
                        continue 'candidate;
                    }
                }
                if self.on_scale(k, l) {
                    return Some((k, l));
                }
            }
        }
        None
    }

    /// The merged gate's feeds, those of weight 0 left out, and its threshold.
    pub fn merged(&self, k: i64, l: i64) -> (Vec<(u8, i32)>, i32) {
        let weights = self.merged_weights(k, l).map(|weight| weight as i32);
        let feeds = self.signals.iter().copied().zip(weights).filter(|feed| feed.1 != 0).collect();
        (feeds, self.merged_threshold(k, l) as i32)
    }

    fn merged_weights(&self, k: i64, l: i64) -> impl Iterator<Item = i64> + '_ {
        self.weights_of_u.iter().zip(&self.weights_of_v).map(move |(u, v)| k * u + l * v)
    }

    fn merged_threshold(&self, k: i64, l: i64) -> i64 {
        k * self.own + l * self.on
    }

    fn on_scale(&self, k: i64, l: i64) -> bool {
        self.merged_threshold(k, l).abs() <= SCALE && self.merged_weights(k, l).all(|weight| weight.abs() <= SCALE)
    }

    /// What the pair must meet. On a setting of the shared feeds the sums of either gate's other feeds go together freely, so that in each
    /// of four cases (u is 1 or 0, the merged gate is to be 1 or 0) the sums that are nearest to the threshold speak for all.
    fn demands(&self, margins: Margins) -> Option<Demands> {
        let (mut only_u, mut only_v, mut shared) = (Vec::new(), Vec::new(), Vec::new());
        for (&u, &v) in self.weights_of_u.iter().zip(&self.weights_of_v) {
            match (u, v) {
                (_, 0) => only_u.push(u),
                (0, _) => only_v.push(v),
                _ => shared.push((u, v)),
            }
        }
        let (sums_of_u, sums_of_v) = (Sums::of(&only_u), Sums::of(&only_v));
        let mut demands = Demands::none();
        let (mut lit, mut from_u, mut from_v) = (0usize, -self.own, -self.on);
        for count in 1..=1usize << shared.len() {
            let (u_below, u_reaches) = sums_of_u.beside(-from_u);
            let (v_below, v_reaches) = sums_of_v.beside(-from_v);
            let (v_below_off, v_reaches_off) = sums_of_v.beside(self.gap - from_v);
            if let Some(u) = u_reaches {
                if let Some(v) = v_reaches {
                    demands.meets |= u + from_u == 0 && v + from_v == 0;
                    demands.put(u + from_u, v + from_v, margins.on)?;
                }
                if let Some(v) = v_below {
                    demands.put(-sums_of_u.greatest() - from_u, -v - from_v, margins.off)?;
                }
            }
            if let Some(u) = u_below {
                if let Some(v) = v_reaches_off {
                    demands.put(sums_of_u.least() + from_u, v + from_v, margins.on)?;
                }
                if let Some(v) = v_below_off {
                    demands.put(-u - from_u, -v - from_v, margins.off)?;
                }
            }
            // the next setting differs in one feed
            let changed = count.trailing_zeros() as usize;
            if let Some((u, v)) = shared.get(changed) {
                let sign = if lit >> changed & 1 == 1 { -1 } else { 1 };
                lit ^= 1 << changed;
                from_u += sign * u;
                from_v += sign * v;
            }
        }
        Some(demands)
    }
}
