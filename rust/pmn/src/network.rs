//! The network of an accepted file, to look at. It is decoded from the file's bytes, which the library has tested field by field; the tests
//! hold it against the library.
use crate::Mask;

/// A feed of a gate.
#[derive(Clone, Copy, Debug, PartialEq, Eq)]
pub struct Feed {
    pub signal: u8,
    pub weight: i32,
}

/// A gate, written [weights; T].
#[derive(Clone, Debug, PartialEq, Eq)]
pub struct Gate {
    pub feeds: Vec<Feed>,
    pub threshold: i32,
}

/// A network: gate g has the signal inputs + g.
#[derive(Clone, Debug, PartialEq, Eq)]
pub struct Network {
    pub version: u8,
    pub on_margin: u8,
    pub off_margin: u8,
    pub inputs: u8,
    pub gates: Vec<Gate>,
    /// the signal that each output names
    pub outputs: Vec<u8>,
}

/// Bytes that are taken from the front.
struct Rest<'a>(&'a [u8]);

impl Rest<'_> {
    fn byte(&mut self) -> u8 {
        let byte = self.0[0];
        self.0 = &self.0[1..];
        byte
    }

    fn number(&mut self) -> i32 {
        let (field, rest) = self.0.split_first_chunk::<4>().expect("the library tested the file");
        self.0 = rest;
        i32::from_le_bytes(*field)
    }

    fn gate(&mut self) -> Gate {
        let count = self.byte();
        let threshold = self.number();
        let feeds = (0..count).map(|_| Feed { signal: self.byte(), weight: self.number() }).collect();
        Gate { feeds, threshold }
    }
}

impl Network {
    pub(crate) fn of(mask: &Mask) -> Network {
        let mut rest = Rest(&mask.bytes()[3..]);
        let version = rest.byte();
        rest.byte();
        let (on_margin, off_margin) = if version == 2 { (rest.byte(), rest.byte()) } else { (0, 1) };
        let [inputs, gates, outputs] = [rest.byte(), rest.byte(), rest.byte()];
        let gates = (0..gates).map(|_| rest.gate()).collect();
        let outputs = (0..outputs).map(|_| rest.byte()).collect();
        Network { version, on_margin, off_margin, inputs, gates, outputs }
    }

    /// The signal of gate g.
    pub fn signal(&self, gate: usize) -> u8 {
        self.inputs + gate as u8
    }

    /// The gate of a signal, if it is a gate's.
    pub fn gate(&self, signal: u8) -> Option<&Gate> {
        self.gates.get(usize::from(signal.checked_sub(self.inputs)?))
    }

    /// The gates that have a signal among their feeds, by their signals.
    pub fn readers(&self, signal: u8) -> Vec<u8> {
        let reads = |g: &usize| self.gates[*g].feeds.iter().any(|feed| feed.signal == signal);
        (0..self.gates.len()).filter(reads).map(|g| self.signal(g)).collect()
    }

    /// The level of every gate: a gate without feeds has level 0, another one more than its highest feed.
    pub fn levels(&self) -> Vec<usize> {
        let mut levels: Vec<usize> = Vec::new();
        for gate in &self.gates {
            let level = |feed: &Feed| feed.signal.checked_sub(self.inputs).map_or(0, |g| levels[usize::from(g)]);
            levels.push(gate.feeds.iter().map(level).max().map_or(0, |highest| highest + 1));
        }
        levels
    }
}
