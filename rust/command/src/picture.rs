//! A network as a picture: inputs, gates with their thresholds, weights on the edges, outputs named, levels in ranks.
mod drawing;
mod graph;
mod graphviz;
mod layout;
pub(crate) mod markup;
mod order;
mod places;
mod stops;
#[cfg(test)]
mod tests;

pub(crate) use drawing::Drawing;
use graph::Graph;
use pmn::Mask;

/// The network in the language of Graphviz.
pub fn dot(mask: &Mask, name: &str) -> String {
    graphviz::text(&Graph::of(mask), name)
}

/// The network drawn as SVG, an element that can stand in a page and a file of its own.
pub fn svg(mask: &Mask, name: &str) -> String {
    drawing(mask, name).alone(name)
}

/// The network drawn, with its size.
pub(crate) fn drawing(mask: &Mask, name: &str) -> Drawing {
    Drawing::of(&Graph::of(mask), name)
}
