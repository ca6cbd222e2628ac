//! A network as text. A patch is p and its number, a gate g and its signal, which is the number that calls take.
use pmn::{Gate, Mask, Network, Size};

/// A signal by its name.
pub fn signal(network: &Network, signal: u8) -> String {
    if signal < network.inputs {
        return format!("p{signal}");
    }
    format!("g{signal}")
}

/// A gate as [signal weight, ..; T].
pub fn gate(network: &Network, gate: &Gate) -> String {
    let feeds: Vec<String> = gate.feeds.iter().map(|feed| format!("{} {}", signal(network, feed.signal), feed.weight)).collect();
    format!("[{}; {}]", feeds.join(", "), gate.threshold)
}

/// The whole network, a gate a line.
pub fn network(mask: &Mask) -> String {
    let network = mask.network();
    let size = mask.report();
    let mut lines = vec![
        format!("version {}, on margin {}, off margin {}", network.version, network.on_margin, network.off_margin),
        format!(
            "{}, {}, {}",
            counted(network.inputs as usize, "patch", "patches"),
            counted(network.gates.len(), "gate", "gates"),
            counted(network.outputs.len(), "output", "outputs")
        ),
        format!("cost {}, {}", size.cost, counted(size.levels as usize, "level", "levels")),
    ];
    let levels = network.levels();
    let level_width = size.levels.to_string().len();
    let signal_width = 1 + network.signal(network.gates.len() - 1).to_string().len();
    for (n, one) in network.gates.iter().enumerate() {
        let (name, level) = (signal(&network, network.signal(n)), levels[n]);
        lines.push(format!("{name:signal_width$}  level {level:<level_width$}  {}", gate(&network, one)));
    }
    let output_width = (network.outputs.len() - 1).to_string().len();
    for (n, output) in network.outputs.iter().enumerate() {
        lines.push(format!("output {n:<output_width$}  {}", signal(&network, *output)));
    }
    lines.join("\n") + "\n"
}

/// The lit patches of a frame.
pub fn lit(frame: u64) -> String {
    let names: Vec<String> = (0..u64::BITS).filter(|n| frame >> n & 1 == 1).map(|n| format!("p{n}")).collect();
    if names.is_empty() {
        return "none".to_string();
    }
    names.join(" ")
}

/// The sizes before and after, as the program `fold` prints them.
pub fn sizes(before: Size, after: Size) -> String {
    format!("gates {} {}\ncost {} {}\nlevels {} {}\n", before.gates, after.gates, before.cost, after.cost, before.levels, after.levels)
}

/// A number of things with its word.
pub fn counted(number: usize, one: &str, several: &str) -> String {
    format!("{number} {}", if number == 1 { one } else { several })
}
