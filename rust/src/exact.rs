//! The pair of two gates by one pass over their settings: each setting bounds k / l from one side, or says nothing of it, so that the
//! tightest bounds decide every candidate. It is what the benchmarks hold the library's pair search to, in two forms: written plainly, as
//! one loop over the settings, and by halves of the feeds, the fastest form known. Both are for the margins 0 and 1 alone: with others a
//! merged sum must be so far from the threshold, and a setting is no longer a bound on k / l. A third form, for any margins, tries every
//! candidate on every setting, with the two gates' sums worked out once.
use crate::reference::{Answer, Net};

/// Two gates by their distinct feeds: the weights of the gate that votes (u, or its complement) and of v, the former's threshold, and what
/// v's other feeds must reach where it is 1 and where it is 0.
struct Aligned {
    us: Vec<i64>,
    vs: Vec<i64>,
    own: i64,
    on: i64,
    off: i64,
}

fn aligned(net: &Net, u: u64, v: u64) -> Answer<Aligned> {
    if u > 255 || v > 255 || !net.is_gate(u as usize) || !net.is_gate(v as usize) {
        return Err(11);
    }
    let (gate_u, gate_v) = (net.gate(u as usize), net.gate(v as usize));
    let b = gate_v.weight(u as usize).ok_or(12)?;
    let mut distinct: Vec<usize> = gate_u.feeds.iter().chain(&gate_v.feeds).map(|f| f.0).filter(|&s| s != u as usize).collect();
    distinct.sort();
    distinct.dedup();
    if distinct.len() > 16 {
        return Err(7);
    }
    let (sign, own) = if b < 0 { (-1, 1 - gate_u.threshold) } else { (1, gate_u.threshold) };
    let (counted, not_counted) = (gate_v.threshold - b, gate_v.threshold);
    Ok(Aligned {
        us: distinct.iter().map(|&s| sign * gate_u.weight(s).unwrap_or(0)).collect(),
        vs: distinct.iter().map(|&s| gate_v.weight(s).unwrap_or(0)).collect(),
        own,
        on: counted.min(not_counted),
        off: counted.max(not_counted),
    })
}

/// The sums of some weights by setting.
fn sums(weights: &[i64]) -> Vec<i64> {
    let mut sums = vec![0];
    for w in weights {
        sums.extend_from_within(..);
        let half = sums.len() / 2;
        sums[half..].iter_mut().for_each(|s| *s += w);
    }
    sums
}

/// The fractions between which k / l must lie: above the first, below the second, at most the third.
struct Bounds {
    above: (i64, i64),
    below: (i64, i64),
    most: (i64, i64),
}

impl Bounds {
    fn none() -> Self {
        Bounds { above: (-1, 1), below: (1, 0), most: (1, 0) }
    }

    /// One setting more: a is the voter's sum less its threshold, c is v's less `on`, and step is `off` less `on`. The merged gate is 1 where
    /// k × a + l × c is not negative.
    #[inline(always)]
    fn tighten(&mut self, a: i64, c: i64, step: i64) {
        if a >= 0 {
            // composed 0: k × a < l × −c
            if c < 0 && -c * self.below.1 < self.below.0 * a {
                self.below = (-c, a);
            }
        } else if c >= step {
            // composed 1: k × −a ≤ l × c
            if c * self.most.1 < self.most.0 * -a {
                self.most = (c, -a);
            }
        } else if c >= 0 && c * self.above.1 > self.above.0 * -a {
            // composed 0: k × −a > l × c
            self.above = (c, -a);
        }
    }

    fn serves(&self, k: i64, l: i64) -> bool {
        k * self.above.1 > l * self.above.0 && k * self.below.1 < l * self.below.0 && k * self.most.1 <= l * self.most.0
    }
}

/// The sums of both gates by setting, of the first 8 feeds and of the others.
struct Halves {
    low_u: Vec<i64>,
    low_v: Vec<i64>,
    high_u: Vec<i64>,
    high_v: Vec<i64>,
}

fn halves(p: &Aligned) -> Halves {
    let middle = p.us.len().min(8);
    Halves { low_u: sums(&p.us[..middle]), low_v: sums(&p.vs[..middle]), high_u: sums(&p.us[middle..]), high_v: sums(&p.vs[middle..]) }
}

/// One loop over the settings.
fn plainly(p: &Aligned) -> Bounds {
    let h = halves(p);
    let mut found = Bounds::none();
    for setting in 0..1usize << p.us.len() {
        let (low, high) = (setting % 256, setting / 256);
        found.tighten(h.low_u[low] + h.high_u[high] - p.own, h.low_v[low] + h.high_v[high] - p.on, p.off - p.on);
    }
    found
}

/// The same, half by half.
fn by_halves(p: &Aligned) -> Bounds {
    let h = halves(p);
    let mut found = Bounds::none();
    for (high_u, high_v) in h.high_u.iter().zip(&h.high_v) {
        let (u, v) = (high_u - p.own, high_v - p.on);
        for (low_u, low_v) in h.low_u.iter().zip(&h.low_v) {
            found.tighten(low_u + u, low_v + v, p.off - p.on);
        }
    }
    found
}

fn on_scale(p: &Aligned, k: i64, l: i64) -> bool {
    let fits = |z: i64| z.abs() <= 1_000_000;
    fits(k * p.own + l * p.on) && p.us.iter().zip(&p.vs).all(|(x, y)| fits(k * x + l * y))
}

fn first_pair(qualifies: impl Fn(i64, i64) -> bool) -> Answer<(u64, u64)> {
    for sum in 2..=64 {
        for k in 1..=32 {
            let l = sum - k;
            if (1..=32).contains(&l) && qualifies(k, l) {
                return Ok((k as u64, l as u64));
            }
        }
    }
    Err(16)
}

fn pair_within(p: &Aligned, bounds: Bounds) -> Answer<(u64, u64)> {
    first_pair(|k, l| bounds.serves(k, l) && on_scale(p, k, l))
}

/// The bounds are for the margins 0 and 1 only.
fn assert_no_margins(net: &Net) {
    assert_eq!((net.board.on, net.board.off), (0, 1), "k / l has no bounds with such margins");
}

pub fn pair(net: &Net, u: u64, v: u64) -> Answer<(u64, u64)> {
    assert_no_margins(net);
    let p = aligned(net, u, v)?;
    pair_within(&p, plainly(&p))
}

pub fn pair_by_halves(net: &Net, u: u64, v: u64) -> Answer<(u64, u64)> {
    assert_no_margins(net);
    let p = aligned(net, u, v)?;
    pair_within(&p, by_halves(&p))
}

/// The pair with any margins. On a setting the merged gate's sum less its threshold is k × a + l × c, with a and c as for the bounds: it
/// must be at least the on margin where the composed pair is 1, and the off margin or more below 0 where it is 0.
pub fn pair_with_margins(net: &Net, u: u64, v: u64) -> Answer<(u64, u64)> {
    let p = aligned(net, u, v)?;
    let (us, vs) = (sums(&p.us), sums(&p.vs));
    let composed = |u: i64, v: i64| v >= if u >= p.own { p.on } else { p.off };
    let settings: Vec<(i64, i64, bool)> = us.iter().zip(&vs).map(|(&u, &v)| (u - p.own, v - p.on, composed(u, v))).collect();
    let serves = |k: i64, l: i64| {
        settings.iter().all(|&(a, c, one)| {
            let sum = k * a + l * c;
            if one {
                sum >= net.board.on
            } else {
                sum <= -net.board.off
            }
        })
    };
    first_pair(|k, l| on_scale(&p, k, l) && serves(k, l))
}
