//! Sets of gates: gate g is bit g. A network has at most 128 gates.

/// A set of gates.
pub type Gates = u128;

/// The set of one gate.
pub fn only(gate: usize) -> Gates {
    1 << gate
}

/// The set of the gates 0 up to `count`.
pub fn first(count: usize) -> Gates {
    if count == 0 {
        return 0;
    }
    Gates::MAX >> (128 - count)
}

/// Whether a gate is in a set.
pub fn has(set: Gates, gate: usize) -> bool {
    set >> gate & 1 == 1
}

/// The highest gate of a set that has one.
pub fn highest(set: Gates) -> usize {
    127 - set.leading_zeros() as usize
}

/// The gates of a set, rising.
pub fn members(mut set: Gates) -> impl Iterator<Item = usize> {
    std::iter::from_fn(move || {
        let gate = set.trailing_zeros() as usize;
        set &= set.checked_sub(1)?;
        Some(gate)
    })
}
