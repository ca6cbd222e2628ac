//! Where the nodes and edges of a picture stand.
use super::graph::{Graph, Kind, Node};
use super::markup::signed;
use super::stops::Stops;
use super::{order, places};

/// With more weights than this, none is written out: they are shown by colour and width.
const MOST_WEIGHTS_WRITTEN: usize = 60;
/// With more gates than this in a column, signal and threshold of a gate stand in one line.
const MOST_TWO_LINED: usize = 24;
/// The size of the letters.
pub(super) const LETTERS: f64 = 9.0;
/// The distance of two feeds of a gate whose weights are written.
const FEED_STEP: f64 = 10.0;
/// The height over the columns, for their headings.
const HEAD: f64 = 13.0;
/// The distance from the edge of the picture.
const MARGIN: f64 = 6.0;
/// How far an edge runs on level behind its weight, up to the gate; the last of it is drawn.
pub(super) const BEHIND_WEIGHT: f64 = 6.0;
/// The distance between an edge and its weight: wide enough that a minus sign does not look like a dash of the edge.
pub(super) const BEFORE_WEIGHT: f64 = 4.0;

/// The box of a node: its left end, its middle height, its size.
#[derive(Clone, Copy)]
pub(super) struct Place {
    pub left: f64,
    pub middle: f64,
    pub width: f64,
    pub height: f64,
}

/// One bend of a line: it curves to `from` at a height, and runs on level to `to`.
pub(super) struct Bend {
    pub from: f64,
    pub to: f64,
    pub height: f64,
}

/// An edge as it is drawn.
pub(super) struct Line {
    pub start: (f64, f64),
    pub bends: Vec<Bend>,
}

/// What is written in a picture, and how.
#[derive(Clone, Copy)]
pub(super) struct Writing {
    /// whether the weights stand on the edges
    pub weights: bool,
    /// whether signal and threshold of a gate stand in one line
    pub one_line: bool,
}

impl Writing {
    fn of(graph: &Graph) -> Writing {
        let gates =
            |column: usize| graph.nodes.iter().filter(|node| node.column == column && matches!(node.kind, Kind::Gate { .. })).count();
        let weights = graph.edges.iter().filter(|edge| edge.weight.is_some()).count();
        Writing { weights: weights <= MOST_WEIGHTS_WRITTEN, one_line: (0..graph.columns).any(|column| gates(column) > MOST_TWO_LINED) }
    }
}

/// The whole picture.
pub(super) struct Layout {
    /// the place of each node
    pub places: Vec<Place>,
    /// the line of each edge
    pub lines: Vec<Line>,
    /// the left and right end of each column
    pub columns: Vec<(f64, f64)>,
    pub writing: Writing,
    pub width: f64,
    pub height: f64,
}

impl Layout {
    pub fn of(graph: &Graph) -> Layout {
        let writing = Writing::of(graph);
        let stops = Stops::of(graph);
        let order = order::columns(&stops, graph.columns);
        let sizes: Vec<(f64, f64)> = (0..graph.nodes.len()).map(|node| size(graph, node, writing)).collect();
        let rooms: Vec<f64> = (0..stops.columns.len()).map(|stop| room(graph, &sizes, stop, writing)).collect();
        let heights = if stops.straight { places::even(&order, &rooms) } else { places::level(&stops, &order, &rooms) };
        let heights: Vec<f64> = heights.iter().map(|height| height + HEAD + MARGIN).collect();
        let leads: Vec<f64> = (0..graph.columns).map(|column| lead(graph, column, writing)).collect();
        let columns = columns(graph, &stops, &order, &sizes, &heights, &leads);
        let places: Vec<Place> =
            graph.nodes.iter().zip(&sizes).zip(&heights).map(|((node, size), height)| place(node, *size, *height, &columns)).collect();
        let lines = lines(graph, &stops, &places, &heights, &columns, &leads);
        let width = columns[columns.len() - 1].1 + MARGIN;
        let bottom = heights.iter().zip(&rooms).map(|(height, room)| height + room / 2.0).fold(0.0, f64::max);
        Layout { places, lines, columns, writing, width, height: bottom + MARGIN }
    }
}

/// About how wide a text is.
pub(super) fn text_width(text: &str) -> f64 {
    text.chars().count() as f64 * LETTERS * 0.58
}

/// What stands in a gate under its signal.
pub(super) fn threshold_text(threshold: i32) -> String {
    format!("T = {}", signed(i64::from(threshold)))
}

fn size(graph: &Graph, node: usize, writing: Writing) -> (f64, f64) {
    let threshold = match graph.nodes[node].kind {
        Kind::Input => return (22.0, 11.0),
        Kind::Output(number) => return (text_width(&format!("output {number}")) + 4.0, 11.0),
        Kind::Gate { threshold } => text_width(&threshold_text(threshold)),
    };
    let feeds = graph.edges.iter().filter(|edge| edge.to == node).count();
    let weights = if writing.weights { feeds as f64 * FEED_STEP + 4.0 } else { 0.0 };
    if writing.one_line {
        return (text_width("167  ") + threshold + 8.0, f64::max(12.0, weights));
    }
    (f64::max(36.0, threshold + 8.0), f64::max(26.0, weights))
}

/// The height that a stop takes up, with the distance to its neighbours.
fn room(graph: &Graph, sizes: &[(f64, f64)], stop: usize, writing: Writing) -> f64 {
    match graph.nodes.get(stop).map(|node| node.kind) {
        Some(Kind::Gate { .. }) => sizes[stop].1 + if writing.one_line { 3.0 } else { 8.0 },
        Some(_) => sizes[stop].1 + 1.5,
        None => 8.0,
    }
}

/// How far the edges run on level before the gates of a column, where their weights are written.
fn lead(graph: &Graph, column: usize, writing: Writing) -> f64 {
    let weights = graph.edges.iter().filter(|edge| graph.nodes[edge.to].column == column).filter_map(|edge| edge.weight);
    let widest = weights.map(|weight| text_width(&signed(i64::from(weight)))).fold(0.0, f64::max);
    if writing.weights && widest > 0.0 {
        BEFORE_WEIGHT + widest + BEHIND_WEIGHT
    } else {
        4.0
    }
}

/// The left and right end of each column. The gap before a column grows with the steepest edge in it, less so where there are many columns.
fn columns(graph: &Graph, stops: &Stops, order: &[Vec<usize>], sizes: &[(f64, f64)], heights: &[f64], leads: &[f64]) -> Vec<(f64, f64)> {
    let widest = f64::max(24.0, 900.0 / order.len() as f64);
    let mut columns = Vec::new();
    let mut right = 0.0;
    for (column, stops_here) in order.iter().enumerate() {
        let width = stops_here.iter().filter_map(|&stop| sizes.get(stop)).map(|size| size.0).fold(0.0, f64::max);
        let width = f64::max(width, text_width(&graph.heading(column)) * 0.9);
        let rise = |&stop: &usize| stops.before[stop].iter().map(move |&before| (heights[stop] - heights[before]).abs());
        let steepest = stops_here.iter().flat_map(rise).fold(0.0, f64::max);
        let gap = if column == 0 { MARGIN } else { (steepest * 0.35).clamp(24.0, widest) + leads[column] };
        columns.push((right + gap, right + gap + width));
        right += gap + width;
    }
    columns
}

/// Nodes stand in the middle of their column; outputs at its left end.
fn place(node: &Node, (width, height): (f64, f64), middle: f64, columns: &[(f64, f64)]) -> Place {
    let (left, right) = columns[node.column];
    let left = match node.kind {
        Kind::Output(_) => left,
        _ => (left + right - width) / 2.0,
    };
    Place { left, middle, width, height }
}

fn lines(graph: &Graph, stops: &Stops, places: &[Place], heights: &[f64], columns: &[(f64, f64)], leads: &[f64]) -> Vec<Line> {
    let ends = ends(graph, stops, places, heights);
    let line = |edge: usize| {
        let route = &stops.routes[edge];
        let (from, to) = (places[route[0]], places[graph.edges[edge].to]);
        let points = route[1..route.len() - 1].iter().map(|&stop| {
            let (left, right) = columns[stops.columns[stop]];
            Bend { from: left, to: right, height: heights[stop] }
        });
        let last = Bend { from: to.left - leads[graph.nodes[graph.edges[edge].to].column], to: to.left, height: ends[edge] };
        Line { start: (from.left + from.width, from.middle), bends: points.chain([last]).collect() }
    };
    (0..graph.edges.len()).map(line).collect()
}

/// The height at which each edge meets its end: the feeds of a gate come in one over another, in the order in which they come from before.
fn ends(graph: &Graph, stops: &Stops, places: &[Place], heights: &[f64]) -> Vec<f64> {
    let mut ends = vec![0.0; graph.edges.len()];
    for (node, place) in places.iter().enumerate() {
        let mut feeds: Vec<usize> = (0..graph.edges.len()).filter(|&edge| graph.edges[edge].to == node).collect();
        let from = |edge: &usize| heights[stops.routes[*edge][stops.routes[*edge].len() - 2]];
        feeds.sort_by(|one, other| from(one).total_cmp(&from(other)));
        let step = f64::min(FEED_STEP, (place.height - 4.0) / feeds.len() as f64);
        for (number, &edge) in feeds.iter().enumerate() {
            ends[edge] = place.middle + (number as f64 - (feeds.len() as f64 - 1.0) / 2.0) * step;
        }
    }
    ends
}
