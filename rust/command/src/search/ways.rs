//! Ways to merge gates into a gate. A gate has one function of the signals below it, but its weights depend on the order of the merges, and
//! some orders end at two gates that have no pair. So several orders are tried, and the cheapest form is taken.
use super::forms::{Forms, Id, WIDEST};
use super::mixing::Table;
use super::pair::Choice;
use super::sets::{has, highest, members, only, Gates};
use pmn::Network;

/// Which gate is merged in next, of those that are read.
#[derive(Clone, Copy, PartialEq, Eq)]
enum Order {
    Highest,
    /// the one that leaves the least cost
    Cheapest,
}

/// The forms of a network, and what is known of its gates with other gates merged in.
pub struct Ways {
    pub forms: Forms,
    known: Table<(u8, Gates), Option<Id>>,
    /// the forms that a way begins with, by gate
    begin: Vec<Id>,
}

impl Ways {
    /// Nothing but the network is known.
    pub fn of(network: &Network) -> Ways {
        Ways { forms: Forms::of(network), known: Table::default(), begin: vec![0; network.gates.len()] }
    }

    /// The gates that stand between a gate and those of `kept`: what must be merged in for the gate to read none but these.
    pub fn between(&self, gate: usize, kept: Gates) -> Gates {
        let mut inner = self.forms.reads(gate as Id) & !kept;
        let mut waiting = inner;
        while waiting != 0 {
            let next = highest(waiting);
            let more = self.forms.reads(next as Id) & !kept & !inner;
            inner |= more;
            waiting = waiting ^ only(next) | more;
        }
        inner
    }

    /// The cheapest form found of a gate with all gates between merged in.
    pub fn folded(&mut self, gate: usize, inner: Gates) -> Option<Id> {
        if inner == 0 {
            return Some(gate as Id);
        }
        let key = (gate as u8, inner);
        if let Some(known) = self.known.get(&key) {
            return *known;
        }
        let found = self.try_ways(gate, inner);
        self.known.insert(key, found);
        found
    }

    fn try_ways(&mut self, gate: usize, inner: Gates) -> Option<Id> {
        if self.width(gate, inner) > WIDEST {
            return None;
        }
        for grouped in [true, false] {
            self.begin_with(inner | only(gate), inner, grouped);
            let first = self.begin[gate];
            let ways = [(Order::Highest, Choice::Tight), (Order::Cheapest, Choice::Tight), (Order::Cheapest, Choice::Least)];
            let found: Vec<Id> = ways.iter().filter_map(|(order, choice)| self.from_top(first, inner, *order, *choice)).collect();
            if let Some(form) = found.into_iter().min_by_key(|form| self.forms.cost(*form)) {
                return Some(form);
            }
            if let Some(form) = self.from_bottom(first, inner) {
                return Some(form);
            }
        }
        None
    }

    /// How many signals a gate reads once these are merged in, if none of them goes away.
    fn width(&self, gate: usize, inner: Gates) -> usize {
        let (mut reads, mut patches) = (0, 0);
        for part in members(inner | only(gate)) {
            reads |= self.forms.reads(part as Id);
            patches |= self.forms.patches(part as Id);
        }
        ((reads & !inner).count_ones() + patches.count_ones()) as usize
    }

    /// Sets the forms to begin with: the gates as they were read, or each with those merged in whose pair is 1 and 1.
    fn begin_with(&mut self, gates: Gates, inner: Gates, grouped: bool) {
        for gate in members(gates) {
            let mut form = gate as Id;
            let mut left = if grouped { inner } else { 0 };
            while self.forms.reads(form) & left != 0 {
                let next = highest(self.forms.reads(form) & left);
                left ^= only(next);
                if let Some(merged) = self.forms.merge(self.begin[next], form, Choice::Least).filter(|merged| merged.even) {
                    form = merged.form;
                }
            }
            self.begin[gate] = form;
        }
    }

    /// From the top: what is merged in is as it was in the beginning, then the gates that it reads follow.
    fn from_top(&mut self, first: Id, inner: Gates, order: Order, choice: Choice) -> Option<Id> {
        let mut form = first;
        while self.forms.reads(form) & inner != 0 {
            let rest = self.forms.reads(form) & inner;
            form = match order {
                Order::Highest => self.forms.merge(self.begin[highest(rest)], form, choice)?.form,
                Order::Cheapest => self.cheapest(form, rest, choice)?,
            };
        }
        Some(form)
    }

    fn cheapest(&mut self, form: Id, rest: Gates, choice: Choice) -> Option<Id> {
        let merged: Vec<Id> = members(rest).filter_map(|next| self.forms.merge(self.begin[next], form, choice)).map(|merged| merged.form).collect();
        merged.into_iter().min_by_key(|form| self.forms.cost(*form))
    }

    /// From the bottom: what is merged in reads no gate between any more.
    fn from_bottom(&mut self, first: Id, inner: Gates) -> Option<Id> {
        let mut form = first;
        while self.forms.reads(form) & inner != 0 {
            let next = highest(self.forms.reads(form) & inner);
            let below = self.between(next, !inner);
            let complete = self.folded(next, below)?;
            form = self.forms.merge(complete, form, Choice::Tight)?.form;
        }
        Some(form)
    }

    /// Whether a form reads a gate.
    pub fn reads(&self, form: Id, gate: usize) -> bool {
        has(self.forms.reads(form), gate)
    }
}
