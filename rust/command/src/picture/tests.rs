//! Pictures of small networks, and of the samples.
use super::layout::{Layout, Place};
use super::*;
use std::io::Write;
use std::process::{Command, Stdio};

const SAMPLES: [&str; 9] =
    ["f", "full_rack", "corner_pin", "shadow_rack", "strapped_pin", "far_fold", "no_fold", "tolerant_rack", "strict_pin"];

fn sample(name: &str) -> Mask {
    let file = std::path::Path::new(env!("CARGO_MANIFEST_DIR")).join(format!("../../samples/{name}.pmn"));
    Mask::read(&std::fs::read(file).expect("the sample is there")).expect("the library accepts the samples")
}

/// A mask of gates with feeds (signal, weight) and thresholds.
fn mask(inputs: u8, gates: &[(&[(u8, i32)], i32)], outputs: &[u8]) -> Mask {
    let mut file = vec![b'P', b'M', b'N', 1, 0, inputs, gates.len() as u8, outputs.len() as u8];
    for (feeds, threshold) in gates {
        file.push(feeds.len() as u8);
        file.extend(threshold.to_le_bytes());
        for (signal, weight) in *feeds {
            file.push(*signal);
            file.extend(weight.to_le_bytes());
        }
    }
    file.extend(outputs);
    Mask::read(&file).expect("a sound mask")
}

/// A chain of 128 gates, each of which reads the one before and three patches.
fn deepest() -> Mask {
    let feeds: Vec<Vec<(u8, i32)>> = (0..128)
        .map(|gate: u8| {
            let patches = (0..3).map(|n| ((gate / 3 + 13 * n) % 40, i32::from(gate) - 60));
            let mut feeds: Vec<(u8, i32)> = patches.filter(|(_, weight)| *weight != 0).collect();
            feeds.sort();
            feeds.extend((gate > 0).then_some((39 + gate, 1)));
            feeds
        })
        .collect();
    let gates: Vec<(&[(u8, i32)], i32)> = feeds.iter().map(|feeds| (feeds.as_slice(), -1_000_000)).collect();
    mask(40, &gates, &[167, 100, 40])
}

/// 128 gates in one column.
fn widest() -> Mask {
    let feeds: Vec<[(u8, i32); 2]> = (0..128).map(|gate| [(gate % 10, 1), (10 + gate % 7, -2)]).collect();
    let gates: Vec<(&[(u8, i32)], i32)> = feeds.iter().map(|feeds| (feeds.as_slice(), 1)).collect();
    mask(17, &gates, &[17, 144])
}

/// Masks of every shape: the samples, gates without feeds alone, the widest and the deepest.
fn masks() -> Vec<Mask> {
    let mut masks: Vec<Mask> = SAMPLES.iter().map(|name| sample(name)).collect();
    masks.push(mask(1, &[(&[], 0)], &[1]));
    masks.push(mask(40, &[(&[], 1), (&[(3, -1_000_000), (40, 1_000_000)], -1_000_000)], &[41, 40, 41]));
    masks.push(widest());
    masks.push(deepest());
    masks
}

fn are_apart(one: &Place, other: &Place) -> bool {
    let beside = one.left + one.width <= other.left || other.left + other.width <= one.left;
    beside || (one.middle - other.middle).abs() * 2.0 >= one.height + other.height
}

#[test]
fn no_node_stands_on_another_and_all_are_inside() {
    for mask in masks() {
        let layout = Layout::of(&Graph::of(&mask));
        for (n, place) in layout.places.iter().enumerate() {
            assert!(place.left >= 0.0 && place.left + place.width <= layout.width);
            assert!(place.middle - place.height / 2.0 >= 0.0 && place.middle + place.height / 2.0 <= layout.height);
            assert!(layout.places[..n].iter().all(|other| are_apart(place, other)));
        }
    }
}

#[test]
fn edges_run_from_left_to_right_into_their_gates() {
    for mask in masks() {
        let graph = Graph::of(&mask);
        let layout = Layout::of(&graph);
        for (edge, line) in graph.edges.iter().zip(&layout.lines) {
            let mut x = line.start.0;
            for bend in &line.bends {
                assert!(x <= bend.from && bend.from <= bend.to);
                x = bend.to;
            }
            let (end, gate) = (&line.bends[line.bends.len() - 1], layout.places[edge.to]);
            assert!(end.to == gate.left && (end.height - gate.middle).abs() <= gate.height / 2.0);
        }
    }
}

#[test]
fn every_gate_weight_and_output_is_in_the_picture() {
    let svg = svg(&sample("shadow_rack"), "shadow_rack.pmn");
    assert!(svg.starts_with("<svg xmlns=") && svg.contains(" viewBox=\"0 0 "));
    assert!(svg.contains("<title>shadow_rack.pmn: 40 inputs, 30 gates, 10 outputs</title>"));
    assert_eq!((svg.matches("<path ").count(), svg.matches("stroke-dasharray").count()), (70, 20));
    assert_eq!((svg.matches(">−1</text>").count(), svg.matches("font-weight=\"bold\">").count()), (20, 31));
    assert_eq!((svg.matches(">T = 1</text>").count(), svg.matches(">T = 0</text>").count()), (20, 10));
    for words in [">output 0</text>", ">output 9</text>", ">inputs</text>", ">level 3</text>", ">outputs</text>", ">69</text>"] {
        assert!(svg.contains(words), "{words}");
    }
}

#[test]
fn inputs_that_no_gate_reads_are_shown_where_there_are_few() {
    let gates: [(&[(u8, i32)], i32); 1] = [(&[(2, 1), (4, -2)], 1)];
    let inputs = |count| Graph::of(&mask(count, &gates, &[count])).nodes.iter().filter(|node| node.kind == graph::Kind::Input).count();
    assert_eq!((inputs(5), inputs(16), inputs(17), inputs(40)), (5, 16, 2, 2));
    assert!(svg(&mask(17, &gates, &[17]), "").contains(">inputs read</text>"));
}

#[test]
fn many_weights_are_shown_by_width() {
    let svg = svg(&deepest(), "deepest");
    assert!(svg.contains("<title>166 into 167: weight 1</title>"));
    assert!(!svg.contains("text-anchor=\"end\""));
}

#[test]
fn dot_has_ranks_weights_and_dashes() {
    let dot = dot(&sample("f"), "f.pmn");
    assert!(dot.starts_with("digraph mask {\n") && dot.ends_with("}\n"));
    let nodes = [
        "signal_3 [shape=box, label=\"3\\nT = 5\"];",
        "signal_0 [shape=ellipse, label=\"0\"];",
        "output_0 [shape=plaintext, label=\"output 0\"];",
    ];
    let edges = ["signal_0 -> signal_3 [label=\"4\"];", "signal_3 -> signal_4 [label=\"2\"];", "signal_4 -> output_0;"];
    for line in nodes.iter().chain(&edges) {
        assert!(dot.contains(line), "{line}");
    }
    assert_eq!((dot.matches("rank=same").count(), dot.matches("rank=sink").count()), (4, 1));
    assert!(super::dot(&sample("no_fold"), "").contains("signal_8 -> signal_9 [label=\"-2\", style=dashed];"));
}

#[test]
fn names_are_escaped() {
    let name = "a & b \\ \"c\" <d>\n&lt;";
    let f = sample("f");
    assert!(dot(&f, name).contains("label=\"a &amp; b \\\\ \\\"c\\\" <d>\u{fffd}&amp;lt;\""));
    assert!(svg(&f, name).contains("<title>a &amp; b \\ &quot;c&quot; &lt;d&gt;\u{fffd}&amp;lt;: 3 inputs, 2 gates, 1 output</title>"));
    let long = "folder/".repeat(40) + "f.pmn";
    assert!(svg(&f, &long).contains("older/folder/f.pmn</text>"));
}

#[test]
fn graphviz_draws_it_where_it_is_installed() {
    let name = "a & b \\N \"c\" <d> &lt;";
    for mask in [sample("strapped_pin"), sample("shadow_rack")] {
        let started = Command::new("dot").arg("-Tsvg").stdin(Stdio::piped()).stdout(Stdio::piped()).stderr(Stdio::null()).spawn();
        let Ok(mut program) = started else {
            eprintln!("passed over: Graphviz (dot) is not installed");
            return;
        };
        program.stdin.take().expect("a pipe").write_all(dot(&mask, name).as_bytes()).expect("Graphviz reads");
        let drawn = program.wait_with_output().expect("Graphviz ends");
        assert!(drawn.status.success());
        let svg = String::from_utf8_lossy(&drawn.stdout).replace("&#45;", "-");
        assert!(svg.contains(">a &amp; b \\N &quot;c&quot; &lt;d&gt; &amp;lt;</text>"), "{svg}");
    }
}
