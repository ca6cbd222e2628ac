//! A choice of the gates that are kept. Every other gate is merged into the kept gates that need it.
use super::forms::Id;
use super::sets::{first, has, members, only, Gates};
use super::ways::Ways;
use pmn::{Network, Size};

/// The gates that are kept, and the form that each of them has.
pub struct Folding {
    pub ways: Ways,
    pub kept: Gates,
    /// the form of each kept gate
    pub forms: Vec<Id>,
    /// the gates that are merged into each kept gate
    inner: Vec<Gates>,
    cost: u64,
}

impl Folding {
    /// Every gate is kept.
    pub fn of(network: &Network) -> Folding {
        let count = network.gates.len();
        let mut folding = Folding {
            ways: Ways::of(network),
            kept: first(count),
            forms: (0..count as Id).collect(),
            inner: vec![0; count],
            cost: 0,
        };
        folding.cost = folding.forms.iter().map(|form| folding.ways.forms.cost(*form)).sum();
        folding
    }

    /// The same choice, with nothing else remembered.
    pub fn anew(&self, network: &Network) -> Folding {
        let mut folding = Folding::of(network);
        folding.keep(self.kept, self.kept);
        folding
    }

    /// How many gates are kept, and their cost.
    pub fn measure(&self) -> (u64, u64) {
        (self.kept.count_ones().into(), self.cost)
    }

    /// Gates, cost and levels.
    pub fn size(&self) -> Size {
        let mut levels = [0; 128];
        for gate in members(self.kept) {
            let form = self.forms[gate];
            let below = members(self.ways.forms.reads(form)).map(|feed| levels[feed]).max().unwrap_or(0);
            levels[gate] = if self.ways.forms.is_strapped(form) { 0 } else { below + 1 };
        }
        let (gates, cost) = self.measure();
        Size { gates, cost, levels: levels.into_iter().max().unwrap_or(0) }
    }

    /// Keeps a gate no longer, if it can be merged into every kept gate that reads it.
    pub fn fold(&mut self, gate: usize) -> bool {
        let readers = members(self.kept).filter(|reader| self.ways.reads(self.forms[*reader], gate)).fold(0, |set, reader| set | only(reader));
        self.keep(self.kept ^ only(gate), readers)
    }

    /// Keeps a gate again. It may fail, if some gate that has it merged in can't be made to read it.
    pub fn unfold(&mut self, gate: usize) -> bool {
        let holders = members(self.kept).filter(|holder| has(self.inner[*holder], gate)).fold(only(gate), |set, holder| set | only(holder));
        self.keep(self.kept | only(gate), holders)
    }

    /// Keeps other gates, of which these get new forms.
    fn keep(&mut self, kept: Gates, changed: Gates) -> bool {
        let mut new = Vec::with_capacity(changed.count_ones() as usize);
        for gate in members(changed) {
            let inner = self.ways.between(gate, kept);
            let Some(form) = self.ways.folded(gate, inner) else { return false };
            new.push((gate, inner, form));
        }
        for gate in members(self.kept & !kept | self.kept & changed) {
            self.cost -= self.ways.forms.cost(self.forms[gate]);
        }
        for (gate, inner, form) in new {
            self.inner[gate] = inner;
            self.forms[gate] = form;
            self.cost += self.ways.forms.cost(form);
        }
        self.kept = kept;
        true
    }
}
