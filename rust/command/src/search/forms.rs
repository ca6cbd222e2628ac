//! The forms that gates take in the search, each stored once, and the merges of any two. Signals are those of the network as it was read.
use super::mixing::Table;
use super::pair::{Aligned, Choice, Margins};
use super::sets::{only, Gates};
use pmn::Network;
use std::rc::Rc;

/// The widest gate, and the most distinct feeds of a merge.
pub const WIDEST: usize = 16;

/// A gate at some moment: which gate it is, its feeds by signal and weight, and its threshold.
#[derive(PartialEq, Eq, Hash)]
pub struct Form {
    pub gate: u8,
    pub feeds: Vec<(u8, i32)>,
    pub threshold: i32,
}

/// The number of a form.
pub type Id = u32;

/// How a form came about: the form u was merged into the form v with k and l.
#[derive(Clone, Copy)]
pub struct Step {
    pub u: Id,
    pub v: Id,
    pub k: u8,
    pub l: u8,
}

/// What a merge makes.
#[derive(Clone, Copy)]
pub struct Merged {
    pub form: Id,
    /// k and l are 1
    pub even: bool,
}

struct Entry {
    form: Rc<Form>,
    reads: Gates,
    patches: u64,
    cost: u64,
    step: Option<Step>,
}

/// Every form met so far, and every merge.
pub struct Forms {
    inputs: usize,
    margins: Margins,
    entries: Vec<Entry>,
    numbers: Table<Rc<Form>, Id>,
    merges: Table<u64, Option<Merged>>,
}

impl Forms {
    /// The forms of a network's gates: gate g has the number g.
    pub fn of(network: &Network) -> Forms {
        let margins = Margins { on: network.on_margin.into(), off: network.off_margin.into() };
        let inputs = network.inputs.into();
        let mut forms = Forms { inputs, margins, entries: Vec::new(), numbers: Table::default(), merges: Table::default() };
        for (gate, held) in network.gates.iter().enumerate() {
            let feeds = held.feeds.iter().map(|feed| (feed.signal, feed.weight)).collect();
            forms.store(Form { gate: gate as u8, feeds, threshold: held.threshold }, None);
        }
        forms
    }

    /// How many forms there are.
    pub fn count(&self) -> usize {
        self.entries.len()
    }

    /// The gate that a form is of.
    pub fn gate(&self, form: Id) -> usize {
        self.entries[form as usize].form.gate.into()
    }

    /// The gates that a form reads.
    pub fn reads(&self, form: Id) -> Gates {
        self.entries[form as usize].reads
    }

    /// The inputs that a form reads: input i is bit i.
    pub fn patches(&self, form: Id) -> u64 {
        self.entries[form as usize].patches
    }

    /// Whether a form has no feeds at all.
    pub fn is_strapped(&self, form: Id) -> bool {
        self.entries[form as usize].form.feeds.is_empty()
    }

    /// The sizes of a form's weights and threshold, added up.
    pub fn cost(&self, form: Id) -> u64 {
        self.entries[form as usize].cost
    }

    /// How a form came about; nothing for a gate as it was read.
    pub fn step(&self, form: Id) -> Option<Step> {
        self.entries[form as usize].step
    }

    /// What the merge of the form u into the form v makes, with the pair of this choice.
    pub fn merge(&mut self, u: Id, v: Id, choice: Choice) -> Option<Merged> {
        let key = u64::from(u) << 32 | u64::from(v) << 1 | u64::from(choice == Choice::Tight);
        if let Some(known) = self.merges.get(&key) {
            return *known;
        }
        let merged = self.find(u, v, choice);
        self.merges.insert(key, merged);
        merged
    }

    fn find(&mut self, u: Id, v: Id, choice: Choice) -> Option<Merged> {
        let aligned = self.align(u, v)?;
        let (k, l) = aligned.pair(self.margins, choice)?;
        let (feeds, threshold) = aligned.merged(k, l);
        let step = Step { u, v, k: k as u8, l: l as u8 };
        let form = self.store(Form { gate: self.gate(v) as u8, feeds, threshold }, Some(step));
        Some(Merged { form, even: k == 1 && l == 1 })
    }

    fn store(&mut self, form: Form, step: Option<Step>) -> Id {
        if let Some(number) = self.numbers.get(&form) {
            return *number;
        }
        let number = self.entries.len() as Id;
        let (mut reads, mut patches) = (0, 0);
        for signal in form.feeds.iter().map(|feed| usize::from(feed.0)) {
            match signal.checked_sub(self.inputs) {
                Some(gate) => reads |= only(gate),
                None => patches |= 1 << signal,
            }
        }
        let cost = form.feeds.iter().fold(form.threshold.unsigned_abs().into(), |cost, feed| cost + u64::from(feed.1.unsigned_abs()));
        let form = Rc::new(form);
        self.numbers.insert(form.clone(), number);
        self.entries.push(Entry { form, reads, patches, cost, step });
        number
    }

    /// The two gates by their distinct feeds; nothing where u does not feed v, or the feeds are too many.
    fn align(&self, u: Id, v: Id) -> Option<Aligned> {
        let (u, v) = (&self.entries[u as usize].form, &self.entries[v as usize].form);
        let signal = self.inputs as u8 + u.gate;
        let weight = i64::from(v.feeds.iter().find(|feed| feed.0 == signal)?.1);
        let (threshold_of_u, threshold_of_v) = (i64::from(u.threshold), i64::from(v.threshold));
        let (own, on) = if weight > 0 { (threshold_of_u, threshold_of_v - weight) } else { (1 - threshold_of_u, threshold_of_v) };
        let mut aligned = Aligned { own, on, gap: weight.abs(), ..Aligned::default() };
        let mut feeds_of_u = u.feeds.iter().peekable();
        let mut feeds_of_v = v.feeds.iter().filter(|feed| feed.0 != signal).peekable();
        loop {
            let next = [feeds_of_u.peek(), feeds_of_v.peek()].into_iter().flatten().map(|feed| feed.0).min();
            let Some(next) = next else { break };
            let of_u = feeds_of_u.next_if(|feed| feed.0 == next).map_or(0, |feed| i64::from(feed.1));
            let of_v = feeds_of_v.next_if(|feed| feed.0 == next).map_or(0, |feed| i64::from(feed.1));
            aligned.signals.push(next);
            aligned.weights_of_u.push(weight.signum() * of_u);
            aligned.weights_of_v.push(of_v);
        }
        (aligned.signals.len() <= WIDEST).then_some(aligned)
    }
}
