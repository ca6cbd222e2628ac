//! Networks that are made on purpose: adders, multipliers and sorters, each in several ways that are alike, racks of ten pins, chains that
//! part on one frame, and random networks up to the largest.
use crate::generate::{ends, Random};
use crate::reference::{gates_of_cut, Board, Gate, Net};
use std::collections::{BTreeMap, BTreeSet};
use std::ops::Range;

/// A network that grows gate by gate.
struct Maker {
    inputs: usize,
    gates: Vec<Gate>,
}

impl Maker {
    fn new(inputs: usize) -> Maker {
        Maker { inputs, gates: vec![] }
    }

    /// Adds a gate: its signal.
    fn gate(&mut self, mut feeds: Vec<(usize, i64)>, threshold: i64) -> usize {
        feeds.sort();
        self.gates.push(Gate { feeds, threshold });
        self.inputs + self.gates.len() - 1
    }

    /// A gate that is 1 if so many of the signals are.
    fn at_least(&mut self, count: usize, signals: &[usize]) -> usize {
        self.gate(signals.iter().map(|&s| (s, 1)).collect(), count as i64)
    }

    /// How many of up to 13 signals are 1, in binary: each bit by a gate that counts the signals less the bits above it.
    fn count(&mut self, signals: &[usize]) -> Vec<usize> {
        let mut feeds: Vec<(usize, i64)> = signals.iter().map(|&s| (s, 1)).collect();
        let mut bits = vec![];
        for place in (0..=signals.len().ilog2()).rev() {
            let bit = self.gate(feeds.clone(), 1 << place);
            feeds.push((bit, -1 << place));
            bits.push(bit);
        }
        bits.reverse();
        bits
    }

    /// The network with these outputs and the gates that they need.
    fn with_outputs(self, outputs: Vec<usize>) -> Net {
        needed(&Net { board: Board::VERSION_1, inputs: self.inputs, gates: self.gates, outputs })
    }
}

/// The network without the gates that no output needs.
fn needed(net: &Net) -> Net {
    let kept: BTreeSet<usize> = net.outputs.iter().flat_map(|&s| gates_of_cut(net, s)).collect();
    let new: BTreeMap<usize, usize> = (0..net.inputs).chain(kept.iter().copied()).zip(0..).collect();
    let renewed = |gate: &Gate| Gate { feeds: gate.feeds.iter().map(|&(s, weight)| (new[&s], weight)).collect(), ..gate.clone() };
    let gates = kept.iter().map(|&s| renewed(net.gate(s))).collect();
    Net { gates, outputs: net.outputs.iter().map(|s| new[s]).collect(), ..net.clone() }
}

// ---- adders

/// How the carries of an adder are made.
#[derive(Clone, Copy, Debug)]
pub enum Carries {
    /// each from the one before it
    Ripple,
    /// each by one wide gate, from the carry into its group of so many bits, up to seven
    Groups(usize),
    /// as in groups, but the carry out of a group by two gates that look at its bits alone: whether it gives a carry, whether it hands one on
    LookAhead(usize),
}

/// The carry out of some bits of two numbers, with the carry into them, by one gate.
fn carry(maker: &mut Maker, a: &[usize], b: &[usize], into: Option<usize>) -> usize {
    let feeds = (0..a.len()).flat_map(|i| [(a[i], 1 << i), (b[i], 1 << i)]).chain(into.map(|s| (s, 1)));
    maker.gate(feeds.collect(), 1 << a.len())
}

/// The same by whether the bits give a carry, and whether they hand one on.
fn carry_ahead(maker: &mut Maker, a: &[usize], b: &[usize], into: Option<usize>) -> usize {
    let gives = carry(maker, a, b, None);
    let Some(into) = into else { return gives };
    let feeds = (0..a.len()).flat_map(|i| [(a[i], 1 << i), (b[i], 1 << i)]);
    let hands_on = maker.gate(feeds.collect(), (1 << a.len()) - 1);
    maker.at_least(2, &[gives, hands_on, into])
}

/// The sum of two numbers of equally many bits, the last carry included.
fn sum(maker: &mut Maker, a: &[usize], b: &[usize], carries: Carries) -> Vec<usize> {
    let width = match carries {
        Carries::Ripple => 1,
        Carries::Groups(width) | Carries::LookAhead(width) => width,
    };
    let mut bits = vec![];
    let (mut into_group, mut into) = (None, None);
    for i in 0..a.len() {
        let group = i / width * width..i + 1;
        let (some_a, some_b) = (&a[group.clone()], &b[group.clone()]);
        let ends = group.len() == width || i + 1 == a.len();
        let out = match carries {
            Carries::LookAhead(_) if ends => carry_ahead(maker, some_a, some_b, into_group),
            _ => carry(maker, some_a, some_b, into_group),
        };
        let feeds = [(a[i], 1), (b[i], 1), (out, -2)].into_iter().chain(into.map(|s| (s, 1)));
        bits.push(maker.gate(feeds.collect(), 1));
        into = Some(out);
        if ends {
            into_group = into;
        }
    }
    bits.extend(into);
    bits
}

/// An adder of two numbers of so many bits, up to 20: of the sum's bits so many from the highest down, the last carry among them.
pub fn adder(bits: usize, outputs: usize, carries: Carries) -> Net {
    let mut maker = Maker::new(2 * bits);
    let (a, b): (Vec<usize>, Vec<usize>) = ((0..bits).collect(), (bits..2 * bits).collect());
    let sum = sum(&mut maker, &a, &b, carries);
    maker.with_outputs(sum[sum.len() - outputs..].to_vec())
}

// ---- multipliers

/// How the products of single bits are added.
#[derive(Clone, Copy, Debug)]
pub enum Adding {
    /// a row for each bit of the second number, each added to the sum of those before it
    Rows,
    /// the same with the numbers exchanged
    RowsOfTheFirst,
    /// column by column, each counted by wide gates
    Columns,
}

/// The product of two numbers, by rows: each row is added from its first column on.
fn product_by_rows(maker: &mut Maker, a: &[usize], b: &[usize]) -> Vec<usize> {
    let mut product: Vec<usize> = vec![];
    for (shift, &bit) in b.iter().enumerate() {
        let row: Vec<usize> = a.iter().map(|&s| maker.at_least(2, &[s, bit])).collect();
        let mut into = None;
        for (place, &one) in (shift..).zip(&row) {
            let column: Vec<usize> = product.get(place).copied().into_iter().chain([one]).chain(into).collect();
            let sum = if column.len() > 1 { maker.count(&column) } else { column };
            product.splice(place..product.len().min(place + 1), [sum[0]]);
            into = sum.get(1).copied();
        }
        product.extend(into);
    }
    product
}

/// The product of two numbers, by columns: all bits of a column counted at once, and each bit of the count put into its column.
fn product_by_columns(maker: &mut Maker, a: &[usize], b: &[usize]) -> Vec<usize> {
    let mut columns: Vec<Vec<usize>> = vec![vec![]; a.len() + b.len() + 4];
    for (i, &one) in a.iter().enumerate() {
        for (j, &other) in b.iter().enumerate() {
            let both = maker.at_least(2, &[one, other]);
            columns[i + j].push(both);
        }
    }
    let mut product = vec![];
    for place in 0..a.len() + b.len() {
        let column = std::mem::take(&mut columns[place]);
        let bits = if column.len() > 1 { maker.count(&column) } else { column };
        product.extend(bits.first());
        bits.iter().enumerate().skip(1).for_each(|(i, &bit)| columns[place + i].push(bit));
    }
    product
}

/// A multiplier of a number of so many bits and one of as many bits or fewer: the highest bits of the product, up to 16.
pub fn multiplier(first: usize, second: usize, adding: Adding) -> Net {
    let mut maker = Maker::new(first + second);
    let (a, b): (Vec<usize>, Vec<usize>) = ((0..first).collect(), (first..first + second).collect());
    let product = match adding {
        Adding::Rows => product_by_rows(&mut maker, &a, &b),
        Adding::RowsOfTheFirst => product_by_rows(&mut maker, &b, &a),
        Adding::Columns => product_by_columns(&mut maker, &a, &b),
    };
    maker.with_outputs(product[product.len().saturating_sub(16)..].to_vec())
}

// ---- sorters

/// How a sorter is made: by gates that each count all of its inputs, up to 16, or by comparators.
#[derive(Clone, Copy, Debug)]
pub enum Sorting {
    Counting,
    Bubbling,
    Neighbours,
    Merging,
}

/// The comparators of a sorter of so many wires, each by its upper and its lower wire.
fn comparators(wires: usize, sorting: Sorting) -> Vec<(usize, usize)> {
    let neighbours = |round: usize| (round % 2..wires - 1).step_by(2).map(|i| (i, i + 1));
    match sorting {
        Sorting::Counting => vec![],
        Sorting::Bubbling => (0..wires).flat_map(|done| (done + 1..wires).rev().map(|i| (i - 1, i))).collect(),
        Sorting::Neighbours => (0..wires).flat_map(neighbours).collect(),
        Sorting::Merging => merge_exchange(wires),
    }
}

/// Batcher's sorter by merges, for any number of wires.
fn merge_exchange(wires: usize) -> Vec<(usize, usize)> {
    let mut list = vec![];
    let top = wires.next_power_of_two() / 2;
    let mut p = top;
    while p > 0 {
        let (mut q, mut residue, mut distance) = (top, 0, p);
        loop {
            list.extend((0..wires - distance).filter(|i| i & p == residue).map(|i| (i, i + distance)));
            if q == p {
                break;
            }
            (distance, q, residue) = (q - p, q / 2, p);
        }
        p /= 2;
    }
    list
}

/// The signals in order, those that are 1 first.
fn sorted(maker: &mut Maker, signals: &[usize], sorting: Sorting) -> Vec<usize> {
    if let Sorting::Counting = sorting {
        return (1..=signals.len()).map(|count| maker.at_least(count, signals)).collect();
    }
    let mut wires = signals.to_vec();
    for (upper, lower) in comparators(wires.len(), sorting) {
        let both = [wires[upper], wires[lower]];
        wires[upper] = maker.at_least(1, &both);
        wires[lower] = maker.at_least(2, &both);
    }
    wires
}

/// Sorters side by side, each of so many wires, with outputs at these places of each.
pub fn sorters(count: usize, wires: usize, places: Range<usize>, sorting: Sorting) -> Net {
    let mut maker = Maker::new(count * wires);
    let mut outputs = vec![];
    for first in (0..count * wires).step_by(wires) {
        let signals: Vec<usize> = (first..first + wires).collect();
        outputs.extend(&sorted(&mut maker, &signals, sorting)[places.clone()]);
    }
    maker.with_outputs(outputs)
}

// ---- racks

/// Ten pins on 40 patches: a foot of so many patches for each pin, which reach into its neighbours', and which the pin and the pin beside it
/// count, for or against, directly or by its shadow; beside them two patches of the pin's own. Every gate but a pin's folds as long as two
/// gates have no more than 16 distinct feeds.
pub fn rack(r: &mut Random, width: usize) -> Net {
    let mut maker = Maker::new(40);
    let feet: Vec<usize> = (0..10).map(|pin| foot(&mut maker, r, pin, width)).collect();
    let shadows: Vec<usize> = feet.iter().map(|&foot| if r.below(3) == 0 { maker.gate(vec![(foot, -1)], 0) } else { foot }).collect();
    let mut pins = vec![];
    for pin in 0..10 {
        let vote = |r: &mut Random| if r.below(4) == 0 { -1 } else { 1 };
        let mut feeds = vec![(4 * pin, 2), (4 * pin + 1, 2), (shadows[pin], vote(r))];
        if r.below(3) > 0 {
            feeds.push((shadows[(pin + 1) % 10], vote(r)));
        }
        let (low, high) = ends(&feeds);
        pins.push(maker.gate(feeds, r.between(low + 1, high)));
    }
    maker.with_outputs(pins)
}

/// The foot of a pin: at least so many of the patches from its third one on, mostly all of them or one.
fn foot(maker: &mut Maker, r: &mut Random, pin: usize, width: usize) -> usize {
    let patches: Vec<usize> = (0..width).map(|i| (4 * pin + 2 + i) % 40).collect();
    let count = match r.below(3) {
        0 => 1,
        1 => width,
        _ => r.between(1, width as i64) as usize,
    };
    maker.at_least(count, &patches)
}

// ---- chains

/// A chain of so many patches whose last gate is 1 on one frame alone: each gate asks for one patch more, lit or dark as that frame has it.
/// With the last gate's threshold one higher it is never 1.
pub fn chain_to(frame: u64, patches: usize) -> Net {
    chain(patches, |patch| if frame >> patch & 1 == 1 { (1, 1) } else { (-1, 0) })
}

/// A chain of so many patches whose last gate is 1 on a frame and on all that are greater as numbers.
pub fn chain_from(frame: u64, patches: usize) -> Net {
    chain(patches, |patch| (1, (frame >> patch & 1) as i64))
}

/// A chain in which each gate counts one patch, with a weight, and the gate before it, whose threshold it has beside one of its own.
fn chain(patches: usize, vote: impl Fn(usize) -> (i64, i64)) -> Net {
    let mut maker = Maker::new(patches);
    let mut last = None;
    for patch in 0..patches {
        let (weight, threshold) = vote(patch);
        let feeds = [(patch, weight)].into_iter().chain(last.map(|s| (s, 1))).collect();
        last = Some(maker.gate(feeds, threshold + last.map_or(0, |_| 1)));
    }
    maker.with_outputs(last.into_iter().collect())
}

// ---- random networks

/// A network of so many inputs and gates. Each gate has a number of feeds from this range, half of them near ones, and weights up to a number,
/// a quarter of them against; its threshold lies at an end of its sums or anywhere between. The outputs are the last 16 gates.
pub fn tangle(r: &mut Random, inputs: usize, gates: usize, feeds: Range<usize>, largest: i64) -> Net {
    let mut maker = Maker::new(inputs);
    for own in inputs..inputs + gates {
        let count = r.between(feeds.start as i64, feeds.end as i64 - 1) as usize;
        let mut signals = BTreeSet::new();
        while signals.len() < count {
            let furthest = if r.below(2) == 0 { own } else { own.min(2 * count + 8) };
            signals.insert(own - 1 - r.below(furthest as u64) as usize);
        }
        let weight = |r: &mut Random| r.between(1, largest) * if r.below(4) == 0 { -1 } else { 1 };
        let feeds: Vec<(usize, i64)> = signals.into_iter().map(|s| (s, weight(r))).collect();
        let (low, high) = ends(&feeds);
        let threshold = match r.below(4) {
            0 => low + 1,
            1 => high,
            _ => r.between(low + 1, high),
        };
        maker.gate(feeds, threshold);
    }
    let outputs = (inputs + gates - gates.min(16)..inputs + gates).collect();
    Net { board: Board::VERSION_1, inputs, gates: maker.gates, outputs }
}

#[cfg(test)]
mod tests {
    use super::*;
    use crate::reference::{frame, read, write};

    /// The outputs of a network on every frame.
    fn readings(net: &Net) -> Vec<u64> {
        assert_eq!(read(&write(net)).as_ref(), Ok(net));
        (0..1 << net.inputs).map(|x| frame(net, x).unwrap().0).collect()
    }

    /// What the two numbers in the inputs give, for each frame.
    fn by_numbers(bits: [usize; 2], result: impl Fn(u64, u64) -> u64) -> Vec<u64> {
        (0..1 << (bits[0] + bits[1])).map(|x| result(x & ((1 << bits[0]) - 1), x >> bits[0])).collect()
    }

    #[test]
    fn sums() {
        for carries in [Carries::Ripple, Carries::Groups(2), Carries::Groups(5), Carries::LookAhead(1), Carries::LookAhead(2)] {
            assert_eq!(readings(&adder(5, 6, carries)), by_numbers([5, 5], |a, b| a + b), "{carries:?}");
            assert_eq!(readings(&adder(5, 2, carries)), by_numbers([5, 5], |a, b| (a + b) >> 4), "{carries:?}");
            assert!(read(&write(&adder(20, 16, carries))).is_ok());
        }
    }

    #[test]
    fn products() {
        for adding in [Adding::Rows, Adding::RowsOfTheFirst, Adding::Columns] {
            for bits in [[4, 4], [5, 3], [6, 2], [3, 3]] {
                assert_eq!(readings(&multiplier(bits[0], bits[1], adding)), by_numbers(bits, |a, b| a * b), "{adding:?} {bits:?}");
            }
            assert!(read(&write(&multiplier(6, 6, adding))).is_ok());
            assert!(read(&write(&multiplier(20, 2, adding))).is_ok());
        }
    }

    #[test]
    fn orders() {
        for sorting in [Sorting::Counting, Sorting::Bubbling, Sorting::Neighbours, Sorting::Merging] {
            for wires in [2, 5, 8, 9] {
                let want: Vec<u64> = (0..1u64 << wires).map(|x| (1 << x.count_ones()) - 1).collect();
                assert_eq!(readings(&sorters(1, wires, 0..wires, sorting)), want, "{sorting:?} {wires}");
            }
            let halves = |x: u64| (((x & 15).count_ones() > 1) as u64) | (((x >> 4).count_ones() > 1) as u64) << 1;
            assert_eq!(readings(&sorters(2, 4, 1..2, sorting)), (0..256).map(halves).collect::<Vec<_>>());
        }
        assert!(read(&write(&sorters(1, 16, 0..16, Sorting::Merging))).is_ok());
    }

    #[test]
    fn chains() {
        for key in [0, 1, 0b1011_0110, 0b1111_1111] {
            assert_eq!(readings(&chain_to(key, 8)), (0..256).map(|x| (x == key) as u64).collect::<Vec<_>>());
            assert_eq!(readings(&chain_from(key, 8)), (0..256).map(|x| (x >= key) as u64).collect::<Vec<_>>());
        }
    }

    #[test]
    fn racks_and_tangles() {
        let mut r = Random::new(3);
        for width in [2, 7, 12] {
            let net = rack(&mut r, width);
            assert_eq!((read(&write(&net)).as_ref(), net.outputs.len()), (Ok(&net), 10));
        }
        let net = tangle(&mut r, 40, 128, 16..17, 1000);
        assert_eq!((read(&write(&net)).as_ref(), net.gates.len()), (Ok(&net), 128));
    }
}
