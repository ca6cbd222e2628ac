//! What a picture shows of a network: nodes in columns by their level, and the edges between them.
use pmn::{Mask, Network};

/// Up to this many inputs, all of them are shown; of more, those that some gate reads.
const INPUTS_ALL_SHOWN: u8 = 16;

/// What a node stands for.
#[derive(Clone, Copy, PartialEq, Eq)]
pub(super) enum Kind {
    Input,
    Gate {
        threshold: i32,
    },
    /// an output, by its number
    Output(usize),
}

/// A node, with the signal that it has or names, and its column: inputs and gates stand in that of their level, outputs in the last.
pub(super) struct Node {
    pub kind: Kind,
    pub signal: u8,
    pub column: usize,
}

/// An edge between two nodes, given by their places. One that leads to an output has no weight.
pub(super) struct Edge {
    pub from: usize,
    pub to: usize,
    pub weight: Option<i32>,
}

/// Nodes and edges: inputs come first, then gates, then outputs, each by number.
pub(super) struct Graph {
    pub nodes: Vec<Node>,
    pub edges: Vec<Edge>,
    pub columns: usize,
    /// whether inputs are left out that no gate reads
    pub inputs_left_out: bool,
}

impl Graph {
    pub fn of(mask: &Mask) -> Graph {
        let network = mask.network();
        let inputs = inputs_shown(&network);
        let inputs_left_out = inputs.len() < usize::from(network.inputs);
        let levels = network.levels();
        let last = levels.iter().max().map_or(1, |highest| highest + 1);
        let input_nodes = inputs.iter().map(|&signal| Node { kind: Kind::Input, signal, column: 0 });
        let gate_nodes = network.gates.iter().zip(&levels).enumerate().map(|(g, (gate, &column))| Node {
            kind: Kind::Gate { threshold: gate.threshold },
            signal: network.signal(g),
            column,
        });
        let output_nodes =
            network.outputs.iter().enumerate().map(|(number, &signal)| Node { kind: Kind::Output(number), signal, column: last });
        let edges = edges(&network, &inputs);
        Graph { nodes: input_nodes.chain(gate_nodes).chain(output_nodes).collect(), edges, columns: last + 1, inputs_left_out }
    }

    /// What stands over a column.
    pub fn heading(&self, column: usize) -> String {
        if column + 1 == self.columns {
            return "outputs".to_string();
        }
        if column > 0 {
            return format!("level {column}");
        }
        if self.inputs_left_out { "inputs read" } else { "inputs" }.to_string()
    }
}

fn inputs_shown(network: &Network) -> Vec<u8> {
    let all = network.inputs <= INPUTS_ALL_SHOWN;
    (0..network.inputs).filter(|&signal| all || !network.readers(signal).is_empty()).collect()
}

fn edges(network: &Network, inputs: &[u8]) -> Vec<Edge> {
    let place = |signal: u8| match signal.checked_sub(network.inputs) {
        Some(gate) => inputs.len() + usize::from(gate),
        None => inputs.binary_search(&signal).expect("an input that a gate reads is shown"),
    };
    let mut edges = Vec::new();
    for (g, gate) in network.gates.iter().enumerate() {
        edges.extend(gate.feeds.iter().map(|feed| Edge { from: place(feed.signal), to: inputs.len() + g, weight: Some(feed.weight) }));
    }
    let first_output = inputs.len() + network.gates.len();
    edges.extend(network.outputs.iter().enumerate().map(|(number, &signal)| Edge {
        from: place(signal),
        to: first_output + number,
        weight: None,
    }));
    edges
}
