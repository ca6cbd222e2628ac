//! A network drawn as SVG.
use super::graph::{Graph, Kind};
use super::layout::{text_width, threshold_text, Layout, Line, Place, BEFORE_WEIGHT, BEHIND_WEIGHT, LETTERS};
use super::markup::{escaped, signed};
use crate::text::counted;

/// Edges with a positive weight, and those to outputs.
const FOR: &str = "#1c2f4a";
/// Edges with a negative weight, which are dashed; they print as a lighter grey.
const AGAINST: &str = "#b0402c";
/// With more edges than this they let what lies behind them shine through, and have longer dashes.
const MANY_EDGES: usize = 300;
/// The height of the line with the name.
const NAME_LINE: f64 = 18.0;
/// The width of a letter of the name.
const NAME_LETTER: f64 = 7.0;
/// The width of a picture of its own, so that there is room for the name.
const LEAST_WIDTH: f64 = 240.0;
/// What holds for every picture.
const LOOKS: &str = "role=\"img\" font-family=\"Helvetica, Arial, sans-serif\" font-size=\"9\"";

/// A picture and its size.
pub(crate) struct Drawing {
    pub width: f64,
    pub height: f64,
    /// whether the weights are written on the edges
    pub weights_written: bool,
    title: String,
    inside: String,
}

impl Drawing {
    pub(super) fn of(graph: &Graph, name: &str) -> Drawing {
        let layout = Layout::of(graph);
        let inside = [headings(graph, &layout), edges(graph, &layout), nodes(graph, &layout), weights(graph, &layout)].concat();
        let (width, height) = (layout.width.ceil(), layout.height.ceil());
        Drawing { width, height, weights_written: layout.writing.weights, title: title(graph, name), inside }
    }

    /// The element as it stands in a page of HTML, with these attributes.
    pub fn in_page(&self, attributes: &str) -> String {
        let Drawing { width, height, title, inside, .. } = self;
        format!("<svg viewBox=\"0 0 {width} {height}\" preserveAspectRatio=\"xMinYMin\" {attributes} {LOOKS}>\n<title>{}</title>\n{inside}</svg>\n", escaped(title))
    }

    /// The element as a file of its own, with the name over the picture.
    pub fn alone(&self, name: &str) -> String {
        let width = f64::max(self.width, LEAST_WIDTH);
        let height = self.height + NAME_LINE;
        let name = shortened(name, (width / NAME_LETTER) as usize);
        format!(
            "<svg xmlns=\"http://www.w3.org/2000/svg\" viewBox=\"0 0 {width} {height}\" width=\"{width}\" height=\"{height}\" {LOOKS}>\n\
             <title>{title}</title>\n<rect width=\"{width}\" height=\"{height}\" fill=\"#fff\"/>\n\
             <text x=\"6\" y=\"15\" font-size=\"12\" font-weight=\"bold\">{name}</text>\n\
             <g transform=\"translate(0 {NAME_LINE})\">\n{inside}</g>\n</svg>\n",
            title = escaped(&self.title),
            name = escaped(&name),
            inside = self.inside
        )
    }
}

/// The end of a name that is longer than so many letters.
fn shortened(name: &str, letters: usize) -> String {
    let count = name.chars().count();
    if count <= letters {
        return name.to_string();
    }
    std::iter::once('…').chain(name.chars().skip(count + 1 - letters)).collect()
}

/// What the picture shows, in words.
fn title(graph: &Graph, name: &str) -> String {
    let count = |wanted: fn(&Kind) -> bool| graph.nodes.iter().filter(|node| wanted(&node.kind)).count();
    let read = if graph.inputs_left_out { " that gates read" } else { "" };
    let inputs = counted(count(|kind| matches!(kind, Kind::Input)), "input", "inputs");
    let gates = counted(count(|kind| matches!(kind, Kind::Gate { .. })), "gate", "gates");
    let outputs = counted(count(|kind| matches!(kind, Kind::Output(_))), "output", "outputs");
    format!("{name}: {inputs}{read}, {gates}, {outputs}")
}

fn headings(graph: &Graph, layout: &Layout) -> String {
    let mut out = String::from("<g text-anchor=\"middle\" font-size=\"8\" fill=\"#555\">\n");
    for (column, (left, right)) in layout.columns.iter().enumerate() {
        out.push_str(&format!("<text x=\"{}\" y=\"12\">{}</text>\n", short((left + right) / 2.0), graph.heading(column)));
    }
    out + "</g>\n"
}

fn edges(graph: &Graph, layout: &Layout) -> String {
    let heaviest = graph.edges.iter().filter_map(|edge| edge.weight).map(i32::unsigned_abs).max().unwrap_or(1);
    let (opacity, dashes) = if graph.edges.len() > MANY_EDGES { (0.6, "9 5") } else { (1.0, "4 2.5") };
    let mut out = format!("<g fill=\"none\" stroke-opacity=\"{opacity}\">\n");
    for (edge, line) in graph.edges.iter().zip(&layout.lines) {
        let weight = edge.weight.unwrap_or(0);
        let looks = if weight < 0 { format!("stroke=\"{AGAINST}\" stroke-dasharray=\"{dashes}\"") } else { format!("stroke=\"{FOR}\"") };
        let width = if layout.writing.weights || edge.weight.is_none() { 0.9 } else { width(weight, heaviest) };
        let words = edge.weight.map_or(String::new(), |weight| {
            let [from, to] = [edge.from, edge.to].map(|node| graph.nodes[node].signal);
            format!("<title>{from} into {to}: weight {}</title>", signed(i64::from(weight)))
        });
        out.push_str(&format!("<path d=\"{}\" {looks} stroke-width=\"{}\">{words}</path>\n", path(line), short(width)));
    }
    out + "</g>\n"
}

/// The width of an edge whose weight is not written: with the logarithm of the weight.
fn width(weight: i32, heaviest: u32) -> f64 {
    let part = f64::from(weight.unsigned_abs()).ln_1p() / f64::from(heaviest).ln_1p();
    0.3 + 1.2 * part
}

fn path(line: &Line) -> String {
    let (mut x, mut y) = line.start;
    let mut out = format!("M{} {}", short(x), short(y));
    for bend in &line.bends {
        let middle = short((x + bend.from) / 2.0);
        let (from, to, height) = (short(bend.from), short(bend.to), short(bend.height));
        out.push_str(&format!("C{middle} {} {middle} {height} {from} {height}H{to}", short(y)));
        (x, y) = (bend.to, bend.height);
    }
    out
}

fn nodes(graph: &Graph, layout: &Layout) -> String {
    let mut out = String::from("<g text-anchor=\"middle\" fill=\"#000\">\n");
    for (node, place) in graph.nodes.iter().zip(&layout.places) {
        out.push_str(&match node.kind {
            Kind::Input => frame(place, 6.0) + &line(place, 3.2, &node.signal.to_string(), ""),
            Kind::Gate { threshold } => frame(place, 2.0) + &gate(place, node.signal, threshold, layout.writing.one_line),
            Kind::Output(number) => line(place, 3.2, &format!("output {number}"), ""),
        });
    }
    out + "</g>\n"
}

fn gate(place: &Place, signal: u8, threshold: i32, one_line: bool) -> String {
    let threshold = threshold_text(threshold);
    if one_line {
        return line(place, 3.2, &format!("<tspan font-weight=\"bold\">{signal}</tspan>\u{a0} {threshold}"), "");
    }
    line(place, -1.6, &signal.to_string(), " font-weight=\"bold\"") + &line(place, 8.8, &threshold, "")
}

fn frame(place: &Place, round: f64) -> String {
    let [left, top, width, height] = [place.left, place.middle - place.height / 2.0, place.width, place.height].map(short);
    format!("<rect x=\"{left}\" y=\"{top}\" width=\"{width}\" height=\"{height}\" rx=\"{round}\" fill=\"#fff\" stroke=\"#000\" stroke-width=\"0.8\"/>")
}

/// A line of text in a node, so far below its middle.
fn line(place: &Place, below: f64, text: &str, attributes: &str) -> String {
    let [x, y] = [place.left + place.width / 2.0, place.middle + below].map(short);
    format!("<text x=\"{x}\" y=\"{y}\"{attributes}>{text}</text>\n")
}

/// The weights, each on its edge a little before the gate.
fn weights(graph: &Graph, layout: &Layout) -> String {
    if !layout.writing.weights {
        return String::new();
    }
    let mut out = String::from("<g text-anchor=\"end\" fill=\"#000\">\n");
    for (edge, line) in graph.edges.iter().zip(&layout.lines) {
        let (Some(weight), Some(last)) = (edge.weight, line.bends.last()) else { continue };
        let text = signed(i64::from(weight));
        let right = last.to - BEHIND_WEIGHT;
        let width = BEFORE_WEIGHT + text_width(&text);
        let [left, top, width] = [right - width, last.height - LETTERS / 2.0, width + BEHIND_WEIGHT / 3.0].map(short);
        out.push_str(&format!("<rect x=\"{left}\" y=\"{top}\" width=\"{width}\" height=\"{LETTERS}\" fill=\"#fff\"/>"));
        out.push_str(&format!("<text x=\"{}\" y=\"{}\">{text}</text>\n", short(right), short(last.height + 3.2)));
    }
    out + "</g>\n"
}

/// A number with at most one digit after the point.
fn short(number: f64) -> String {
    let text = format!("{number:.1}");
    match text.strip_suffix(".0") {
        Some("-0") => "0".to_string(),
        Some(whole) => whole.to_string(),
        None => text,
    }
}
