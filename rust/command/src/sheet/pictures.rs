//! Both pictures, side by side or one above the other.
use super::Named;
use crate::picture::markup::escaped;
use crate::picture::{self, Drawing};

/// The room for both pictures on a page with a short list of calls, in the units of the pictures.
const ROOM: (f64, f64) = (700.0, 520.0);
/// The pictures take what the rest of the page leaves them, together no less than this height where they would be higher.
const LEAST_HEIGHT: f64 = 200.0;
/// How much a small picture is enlarged at most.
const MOST_SCALE: f64 = 1.25;
/// By how much pictures must be larger to be clearly larger.
const CLEARLY: f64 = 1.2;
/// The height of a line that names a picture.
const NAME_LINE: f64 = 18.0;

/// How the two pictures stand: beside each other or one above the other, at which scale, and how high they are together.
struct Arrangement {
    beside: bool,
    scale: f64,
    height: f64,
}

impl Arrangement {
    /// Beside each other, unless they are clearly larger one above the other.
    fn best(old: &Drawing, new: &Drawing) -> Arrangement {
        let beside = Arrangement::of(true, old.width + new.width, f64::max(old.height, new.height), NAME_LINE);
        let above = Arrangement::of(false, f64::max(old.width, new.width), old.height + new.height, 2.0 * NAME_LINE);
        if beside.scale * CLEARLY >= above.scale {
            return beside;
        }
        above
    }

    fn of(beside: bool, width: f64, height: f64, names: f64) -> Arrangement {
        let scale = (ROOM.0 / width).min((ROOM.1 - names) / height).min(MOST_SCALE);
        Arrangement { beside, scale, height: names + scale * height }
    }

    /// The parts of the room that the two pictures get: one half each where both fit into a half.
    fn parts(&self, old: &Drawing, new: &Drawing) -> [f64; 2] {
        if !self.beside {
            return [old.height, new.height];
        }
        if self.scale * f64::max(old.width, new.width) < ROOM.0 / 2.0 {
            return [1.0, 1.0];
        }
        [old.width, new.width]
    }
}

/// Both pictures, and what is to be seen in them.
pub(super) fn both(before: &Named, after: &Named) -> String {
    let [old, new] = [before, after].map(|named| picture::drawing(named.mask, named.name));
    let arrangement = Arrangement::best(&old, &new);
    let class = if arrangement.beside { "beside" } else { "above" };
    let style = format!("flex-basis:{:.0}px;max-height:{:.0}px", arrangement.height.min(LEAST_HEIGHT), arrangement.height);
    let [old_part, new_part] = arrangement.parts(&old, &new);
    let figures = figure(&old, "old", before.name, old_part) + &figure(&new, "new", after.name, new_part);
    let key = key(old.weights_written && new.weights_written);
    format!("<div class=\"pictures {class}\" style=\"{style}\">\n{figures}</div>\n<p class=\"key\">{key}</p>\n")
}

/// One picture, which takes its part of the room.
fn figure(drawing: &Drawing, which: &str, name: &str, part: f64) -> String {
    let [width, height] = [drawing.width, drawing.height].map(|size| size * MOST_SCALE);
    let style = format!("style=\"max-width:{width:.0}px;max-height:{height:.0}px\"");
    let caption = format!("<figcaption>{which}: {}</figcaption>", escaped(name));
    format!("<figure style=\"flex-grow:{part:.0}\">\n{caption}\n{}</figure>\n", drawing.in_page(&style))
}

/// What is to be seen in the pictures.
fn key(weights_written: bool) -> &'static str {
    if weights_written {
        return "Round: a patch. Box: a gate with its signal and threshold T. On the edges: weights, dashed where they are negative.";
    }
    "Round: a patch. Box: a gate with its signal and threshold T. Edges without a number: the wider, the heavier; dashed where negative."
}
