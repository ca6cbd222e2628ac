//! A network in the language of Graphviz.
use super::graph::{Graph, Kind, Node};

/// The text for Graphviz, from left to right, with the nodes of one level in one rank.
pub(super) fn text(graph: &Graph, name: &str) -> String {
    let mut out = String::from("digraph mask {\n");
    out.push_str(&format!("  graph [rankdir=LR, ranksep=0.9, nodesep=0.05, label={}, labelloc=t, fontname=Helvetica];\n", quoted(name)));
    out.push_str("  node [fontname=Helvetica, fontsize=10, height=0.2, width=0.3, margin=\"0.06,0.03\"];\n");
    out.push_str("  edge [fontname=Helvetica, fontsize=9, arrowsize=0.5];\n");
    for column in 0..graph.columns {
        out.push_str(&rank(graph, column));
    }
    out.push_str(&inputs_in_order(graph));
    for edge in &graph.edges {
        let (from, to) = (identifier(&graph.nodes[edge.from]), identifier(&graph.nodes[edge.to]));
        out.push_str(&format!("  {from} -> {to}{};\n", edge.weight.map_or(String::new(), attributes)));
    }
    out.push_str("}\n");
    out
}

/// The nodes of a column. Outputs are in the last rank, whatever level their gates have.
fn rank(graph: &Graph, column: usize) -> String {
    let kind = if column + 1 == graph.columns { "sink" } else { "same" };
    let nodes = graph.nodes.iter().filter(|node| node.column == column);
    let lines: String = nodes.map(|node| format!("    {} [{}];\n", identifier(node), looks(node))).collect();
    format!("  {{\n    rank={kind};\n{lines}  }}\n")
}

/// Edges that are not drawn, and keep the inputs in the order of their signals from top to bottom.
fn inputs_in_order(graph: &Graph) -> String {
    let inputs: Vec<String> = graph.nodes.iter().filter(|node| node.kind == Kind::Input).map(identifier).collect();
    if inputs.len() < 2 {
        return String::new();
    }
    format!("  {{\n    rank=same;\n    {} [style=invis];\n  }}\n", inputs.join(" -> "))
}

fn identifier(node: &Node) -> String {
    match node.kind {
        Kind::Output(number) => format!("output_{number}"),
        _ => format!("signal_{}", node.signal),
    }
}

fn looks(node: &Node) -> String {
    match node.kind {
        Kind::Input => format!("shape=ellipse, label=\"{}\"", node.signal),
        Kind::Gate { threshold } => format!("shape=box, label=\"{}\\nT = {threshold}\"", node.signal),
        Kind::Output(number) => format!("shape=plaintext, label=\"output {number}\""),
    }
}

fn attributes(weight: i32) -> String {
    let dashed = if weight < 0 { ", style=dashed" } else { "" };
    format!(" [label=\"{weight}\"{dashed}]")
}

/// A label in quotes that shows the text as it is: Graphviz reads backslashes and the entities of HTML in labels.
fn quoted(text: &str) -> String {
    let mut out = String::from("\"");
    for character in text.chars() {
        match character {
            '"' => out.push_str("\\\""),
            '\\' => out.push_str("\\\\"),
            '&' => out.push_str("&amp;"),
            other if other.is_control() => out.push('\u{fffd}'),
            other => out.push(other),
        }
    }
    out.push('"');
    out
}
