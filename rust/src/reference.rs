//! Document 01, as the requests of document 02 that have landed change it, written out as it stands, with no regard for speed: what the
//! library is compared with. It was written from the papers and shares nothing with the library.
use std::collections::{BTreeMap, BTreeSet};
use std::ops::RangeInclusive;

/// A gate: its feeds, each a signal with a weight, and its threshold.
#[derive(Clone, PartialEq, Eq, Debug)]
pub struct Gate {
    pub feeds: Vec<(usize, i64)>,
    pub threshold: i64,
}

/// What a file says of its board: the version that it is written in, and the on and the off margin.
#[derive(Clone, Copy, PartialEq, Eq, Debug)]
pub struct Board {
    pub version: u16,
    pub on: i64,
    pub off: i64,
}

impl Board {
    /// "Version 1 means 0 and 1".
    pub const VERSION_1: Board = Board { version: 1, on: 0, off: 1 };

    /// Version 2 with these margins.
    pub fn version_2(on: i64, off: i64) -> Board {
        Board { version: 2, on, off }
    }
}

/// A network: inputs have signals below `inputs`, gate g has signal `inputs + g`, and each output is the signal of a gate.
#[derive(Clone, PartialEq, Eq, Debug)]
pub struct Net {
    pub board: Board,
    pub inputs: usize,
    pub gates: Vec<Gate>,
    pub outputs: Vec<usize>,
}

pub type Answer<T> = Result<T, u8>;

const SCALE: i64 = 1_000_000;

// ---- the file

struct Cursor<'a> {
    bytes: &'a [u8],
    at: usize,
}

impl Cursor<'_> {
    fn byte(&mut self) -> Answer<usize> {
        let b = *self.bytes.get(self.at).ok_or(4)?;
        self.at += 1;
        Ok(b as usize)
    }

    /// A count within its limits.
    fn count(&mut self, limits: RangeInclusive<usize>) -> Answer<usize> {
        let count = self.byte()?;
        if limits.contains(&count) {
            Ok(count)
        } else {
            Err(3)
        }
    }

    fn signed(&mut self) -> Answer<i64> {
        let field = self.bytes.get(self.at..self.at + 4).ok_or(4)?;
        self.at += 4;
        Ok(i32::from_le_bytes(field.try_into().unwrap()) as i64)
    }
}

fn off_scale(z: i64) -> bool {
    !(-SCALE..=SCALE).contains(&z)
}

pub fn read(file: &[u8]) -> Answer<Net> {
    if file.len() < 8 || &file[..3] != b"PMN" {
        return Err(1);
    }
    let mut c = Cursor { bytes: file, at: 5 };
    let board = match u16::from_le_bytes([file[3], file[4]]) {
        1 => Board::VERSION_1,
        2 => Board::version_2(c.byte()? as i64, c.count(1..=255)? as i64),
        _ => return Err(2),
    };
    let (inputs, gates, outputs) = (c.count(1..=40)?, c.count(1..=128)?, c.count(1..=16)?);
    let mut net = Net { board, inputs, gates: vec![], outputs: vec![] };
    for g in 0..gates {
        let count = c.byte()?;
        if count > 16 {
            return Err(7);
        }
        let threshold = c.signed()?;
        if off_scale(threshold) {
            return Err(6);
        }
        let mut feeds: Vec<(usize, i64)> = vec![];
        for _ in 0..count {
            let signal = c.byte()?;
            if signal >= inputs + g || feeds.last().is_some_and(|&(last, _)| signal <= last) {
                return Err(5);
            }
            let weight = c.signed()?;
            if weight == 0 || off_scale(weight) {
                return Err(6);
            }
            feeds.push((signal, weight));
        }
        let gate = Gate { feeds, threshold };
        if !gate.keeps(board) {
            return Err(24);
        }
        net.gates.push(gate);
    }
    for _ in 0..outputs {
        let signal = c.byte()?;
        if !net.is_gate(signal) {
            return Err(8);
        }
        net.outputs.push(signal);
    }
    if c.at < file.len() {
        return Err(9);
    }
    Ok(net)
}

fn gate_bytes(gate: &Gate) -> Vec<u8> {
    let mut out = vec![gate.feeds.len() as u8];
    out.extend((gate.threshold as i32).to_le_bytes());
    for &(signal, weight) in &gate.feeds {
        out.push(signal as u8);
        out.extend((weight as i32).to_le_bytes());
    }
    out
}

pub fn write(net: &Net) -> Vec<u8> {
    let mut out = b"PMN".to_vec();
    out.extend(net.board.version.to_le_bytes());
    if net.board.version == 2 {
        out.extend([net.board.on as u8, net.board.off as u8]);
    }
    out.extend([net.inputs as u8, net.gates.len() as u8, net.outputs.len() as u8]);
    for gate in &net.gates {
        out.extend(gate_bytes(gate));
    }
    out.extend(net.outputs.iter().map(|&s| s as u8));
    out
}

/// The bytes of the gate with a signal.
pub fn part(file: &[u8], signal: u64) -> Answer<Vec<u8>> {
    let net = read(file)?;
    if signal > 255 || !net.is_gate(signal as usize) {
        return Err(11);
    }
    Ok(gate_bytes(net.gate(signal as usize)))
}

/// The file of the same network in the other version, in so much room.
pub fn convert(file: &[u8], room: usize) -> Answer<Vec<u8>> {
    let mut net = read(file)?;
    net.board = match net.board {
        Board { version: 1, .. } => Board::version_2(0, 1),
        Board { on: 0, off: 1, .. } => Board::VERSION_1,
        _ => return Err(25),
    };
    let other = write(&net);
    if other.len() > room {
        return Err(18);
    }
    Ok(other)
}

// ---- networks

impl Net {
    pub fn is_gate(&self, signal: usize) -> bool {
        signal >= self.inputs && signal - self.inputs < self.gates.len()
    }

    pub fn gate(&self, signal: usize) -> &Gate {
        &self.gates[signal - self.inputs]
    }

    pub fn readers(&self, signal: usize) -> Vec<usize> {
        (self.inputs..self.inputs + self.gates.len()).filter(|&v| self.gate(v).weight(signal).is_some()).collect()
    }

    /// The readers that a gate votes against.
    pub fn voted_against(&self, signal: usize) -> Vec<usize> {
        self.readers(signal).into_iter().filter(|&v| self.gate(v).weight(signal).is_some_and(|b| b < 0)).collect()
    }
}

impl Gate {
    pub fn weight(&self, signal: usize) -> Option<i64> {
        self.feeds.iter().find(|f| f.0 == signal).map(|f| f.1)
    }

    /// The sums of the feeds, one for each setting: bit i of a setting is feed i, from 0.
    pub fn sums(&self) -> Vec<i64> {
        let mut sums = vec![0];
        for &(_, weight) in &self.feeds {
            let with: Vec<i64> = sums.iter().map(|sum| sum + weight).collect();
            sums.extend(with);
        }
        sums
    }

    /// Whether on no setting of the feeds the sum lies above T − off and below T + on. Nothing lies between for the margins 0 and 1.
    pub fn keeps(&self, board: Board) -> bool {
        let between = self.threshold - board.off + 1..self.threshold + board.on;
        between.is_empty() || !self.sums().iter().any(|sum| between.contains(sum))
    }

    fn bit(&self, value: impl Fn(usize) -> bool) -> bool {
        self.feeds.iter().filter(|f| value(f.0)).map(|f| f.1).sum::<i64>() >= self.threshold
    }
}

/// The output bits on a frame, output j in bit j, and how many of them are 1.
pub fn frame(net: &Net, frame: u64) -> Answer<(u64, u64)> {
    if frame >> net.inputs != 0 {
        return Err(10);
    }
    let mut values: Vec<bool> = (0..net.inputs).map(|i| frame >> i & 1 == 1).collect();
    for gate in &net.gates {
        let bit = gate.bit(|s| values[s]);
        values.push(bit);
    }
    let mut bits = 0;
    for (j, &s) in net.outputs.iter().enumerate() {
        bits |= (values[s] as u64) << j;
    }
    Ok((bits, net.outputs.iter().filter(|&&s| values[s]).count() as u64))
}

/// The output bits on each of several frames, with so many places for the answers.
pub fn frames(net: &Net, frames: &[u64], places: usize) -> Answer<Vec<u64>> {
    if frames.len() > 64 || places < frames.len() {
        return Err(26);
    }
    frames.iter().map(|&x| frame(net, x).map(|(bits, _)| bits)).collect()
}

// ---- scores

/// A game so far: the pins felled by each ball, and the running score of every finished frame whose bonus balls are known.
#[derive(Clone, PartialEq, Eq, Debug)]
pub struct Sheet {
    pub felled: Vec<u64>,
    pub scores: Vec<u64>,
}

/// The pins that stand after a ball, out of those that stood before it: "ball by ball comes 10, .. then 29".
fn standing_after(net: &Net, x: u64, rack: &BTreeSet<usize>) -> Answer<BTreeSet<usize>> {
    let (bits, _) = frame(net, x)?;
    let standing: BTreeSet<usize> = (0..10).filter(|pin| bits >> pin & 1 == 1).collect();
    if standing.is_subset(rack) {
        Ok(standing)
    } else {
        Err(29)
    }
}

/// The balls of one frame, as many as are thrown: two, or one where it is a strike; in the tenth a third after a strike or a spare.
fn balls_of_frame(net: &Net, tenth: bool, shots: &mut dyn Iterator<Item = u64>) -> Answer<Vec<u64>> {
    let full: BTreeSet<usize> = (0..10).collect();
    let mut rack = full.clone();
    let mut balls: Vec<u64> = vec![];
    loop {
        let more = match balls[..] {
            [] => true,
            [10] => tenth,
            [_] => true,
            [10, _] => tenth,
            [first, second] => tenth && first + second == 10,
            _ => false,
        };
        if !more {
            return Ok(balls);
        }
        let Some(x) = shots.next() else { return Ok(balls) };
        let standing = standing_after(net, x, &rack)?;
        balls.push((rack.len() - standing.len()) as u64);
        rack = if standing.is_empty() { full.clone() } else { standing };
    }
}

/// The score of a frame by itself, with the balls thrown after it, where it is finished and its bonus balls are known.
fn frame_score(tenth: bool, balls: &[u64], later: &[u64]) -> Option<u64> {
    match *balls {
        [10] if !tenth => Some(10 + later.first()? + later.get(1)?),
        [first, second] if first + second < 10 => Some(first + second),
        [_, _] if !tenth => Some(10 + later.first()?),
        [first, second, third] => Some(first + second + third),
        _ => None,
    }
}

/// The sheet of a game, from the frames after each ball.
pub fn score(net: &Net, shots: &[u64]) -> Answer<Sheet> {
    if net.outputs.len() < 10 {
        return Err(27);
    }
    let mut shots = shots.iter().copied();
    let frames = (1..=10).map(|number| balls_of_frame(net, number == 10, &mut shots)).collect::<Answer<Vec<_>>>()?;
    if let Some(x) = shots.next() {
        frame(net, x)?;
        return Err(28);
    }
    let known = (0..10).map_while(|i| frame_score(i == 9, &frames[i], &frames[i + 1..].concat()));
    let scores = known.scan(0, |sum, score| {
        *sum += score;
        Some(*sum)
    });
    Ok(Sheet { scores: scores.collect(), felled: frames.concat() })
}

// ---- merge, pair, drop, collapse, sweep

/// u and v with the weight b, and the distinct feeds.
struct Edge<'a> {
    u: usize,
    gate_u: &'a Gate,
    gate_v: &'a Gate,
    b: i64,
    distinct: Vec<usize>,
}

fn edge(net: &Net, u: u64, v: u64) -> Answer<Edge<'_>> {
    if u > 255 || v > 255 || !net.is_gate(u as usize) || !net.is_gate(v as usize) {
        return Err(11);
    }
    let (u, v) = (u as usize, v as usize);
    let (gate_u, gate_v) = (net.gate(u), net.gate(v));
    let b = gate_v.weight(u).ok_or(12)?;
    let mut distinct: Vec<usize> = gate_u.feeds.iter().chain(&gate_v.feeds).map(|f| f.0).filter(|&s| s != u).collect();
    distinct.sort();
    distinct.dedup();
    Ok(Edge { u, gate_u, gate_v, b, distinct })
}

fn merged(e: &Edge, k: i64, l: i64) -> Answer<Gate> {
    let (times, threshold) = if e.b < 0 {
        (-k, k * (1 - e.gate_u.threshold) + l * e.gate_v.threshold)
    } else {
        (k, k * e.gate_u.threshold + l * (e.gate_v.threshold - e.b))
    };
    let weight = |s: usize| times * e.gate_u.weight(s).unwrap_or(0) + l * e.gate_v.weight(s).unwrap_or(0);
    let feeds: Vec<(usize, i64)> = e.distinct.iter().map(|&s| (s, weight(s))).filter(|f| f.1 != 0).collect();
    if off_scale(threshold) || feeds.iter().any(|f| off_scale(f.1)) {
        return Err(6);
    }
    Ok(Gate { feeds, threshold })
}

/// Whether the merged gate and the composed pair have the same bit on a setting.
fn agrees_on(e: &Edge, gate: &Gate, setting: u64) -> bool {
    let value = |s: usize| setting >> e.distinct.binary_search(&s).unwrap() & 1 == 1;
    let bit_u = e.gate_u.bit(value);
    gate.bit(value) == e.gate_v.bit(|s| if s == e.u { bit_u } else { value(s) })
}

fn agrees(e: &Edge, gate: &Gate) -> bool {
    (0..1 << e.distinct.len()).all(|setting| agrees_on(e, gate, setting))
}

fn with_gate(net: &Net, v: usize, gate: Gate) -> Net {
    let mut out = net.clone();
    out.gates[v - net.inputs] = gate;
    out
}

pub fn merge(net: &Net, u: u64, v: u64, k: u64, l: u64) -> Answer<Net> {
    let e = edge(net, u, v)?;
    if !(1..=32).contains(&k) || !(1..=32).contains(&l) {
        return Err(14);
    }
    if e.distinct.len() > 16 {
        return Err(7);
    }
    let gate = merged(&e, k as i64, l as i64)?;
    if !gate.keeps(net.board) {
        return Err(24);
    }
    if !agrees(&e, &gate) {
        return Err(15);
    }
    Ok(with_gate(net, v as usize, gate))
}

/// The distinct feeds of u and v, rising.
pub fn distinct(net: &Net, u: u64, v: u64) -> Answer<Vec<usize>> {
    let e = edge(net, u, v)?;
    if e.distinct.len() > 16 {
        return Err(7);
    }
    Ok(e.distinct)
}

/// Every setting that a witness of a merge may have: where it is refused with 15, those on which the two differ with as few distinct feeds
/// lit as any such setting has. None where it is accepted; any other number is the refusal, 24 also where the two differ.
pub fn witnesses(net: &Net, u: u64, v: u64, k: u64, l: u64) -> Answer<Vec<u64>> {
    match merge(net, u, v, k, l) {
        Ok(_) => return Ok(vec![]),
        Err(15) => {}
        Err(code) => return Err(code),
    }
    let e = edge(net, u, v)?;
    let gate = merged(&e, k as i64, l as i64)?;
    let lit = |setting: u64| (0..e.distinct.len()).filter(|i| setting >> i & 1 == 1).count();
    let differing: Vec<u64> = (0..1 << e.distinct.len()).filter(|&setting| !agrees_on(&e, &gate, setting)).collect();
    let fewest = differing.iter().map(|&setting| lit(setting)).min().unwrap();
    Ok(differing.into_iter().filter(|&setting| lit(setting) == fewest).collect())
}

pub fn pair(net: &Net, u: u64, v: u64) -> Answer<(u64, u64)> {
    let e = edge(net, u, v)?;
    if e.distinct.len() > 16 {
        return Err(7);
    }
    for sum in 2..=64i64 {
        for k in 1..=32i64 {
            let l = sum - k;
            if (1..=32).contains(&l) && merged(&e, k, l).is_ok_and(|gate| agrees(&e, &gate) && gate.keeps(net.board)) {
                return Ok((k as u64, l as u64));
            }
        }
    }
    Err(16)
}

fn without(net: &Net, u: usize) -> Net {
    let lower = |s: usize| if s > u { s - 1 } else { s };
    let mut out = net.clone();
    out.gates.remove(u - net.inputs);
    for gate in &mut out.gates {
        for feed in &mut gate.feeds {
            feed.0 = lower(feed.0);
        }
    }
    for s in &mut out.outputs {
        *s = lower(*s);
    }
    out
}

pub fn drop_gate(net: &Net, s: u64) -> Answer<Net> {
    if s > 255 || !net.is_gate(s as usize) {
        return Err(11);
    }
    let s = s as usize;
    if net.outputs.contains(&s) || !net.readers(s).is_empty() {
        return Err(17);
    }
    Ok(without(net, s))
}

/// A way to find the pair of two gates.
pub type Find = fn(&Net, u64, u64) -> Answer<(u64, u64)>;

pub fn collapse(net: &Net, s: u64) -> Answer<Net> {
    collapse_by(net, s, pair)
}

fn collapse_by(net: &Net, s: u64, find: Find) -> Answer<Net> {
    if s > 255 || !net.is_gate(s as usize) {
        return Err(11);
    }
    let u = s as usize;
    if net.outputs.contains(&u) {
        return Err(17);
    }
    let mut pairs = vec![];
    for v in net.readers(u) {
        pairs.push((v, find(net, s, v as u64)?));
    }
    let mut out = net.clone();
    for (v, (k, l)) in pairs {
        let gate = merged(&edge(net, s, v as u64)?, k as i64, l as i64)?;
        out = with_gate(&out, v, gate);
    }
    Ok(without(&out, u))
}

/// The network after a sweep, and its collapses: for each the network that it got, and the gate's signal.
pub fn sweep(net: &Net, b: u64) -> Answer<(Net, Vec<(Net, u64)>)> {
    sweep_by(net, b, pair)
}

/// The same with the pairs found another way.
pub fn sweep_by(net: &Net, b: u64, find: Find) -> Answer<(Net, Vec<(Net, u64)>)> {
    if b > 128 {
        return Err(14);
    }
    let mut net = net.clone();
    let mut collapses = vec![];
    'again: loop {
        for u in net.inputs..net.inputs + net.gates.len() {
            if net.readers(u).len() as u64 <= b {
                if let Ok(next) = collapse_by(&net, u as u64, find) {
                    collapses.push((net, u as u64));
                    net = next;
                    continue 'again;
                }
            }
        }
        return Ok((net, collapses));
    }
}

// ---- the cut

/// The signals of the gates of a cut: "a gate belongs to the cut if the output names it or a gate of the cut reads it".
pub fn gates_of_cut(net: &Net, named: usize) -> BTreeSet<usize> {
    let (mut gates, mut waiting) = (BTreeSet::new(), vec![named]);
    while let Some(s) = waiting.pop() {
        if net.is_gate(s) && gates.insert(s) {
            waiting.extend(net.gate(s).feeds.iter().map(|f| f.0));
        }
    }
    gates
}

/// The network of one output alone: "all inputs, the margins and the file version stay, the gates of the cut keep their order with new
/// signals, .. and there is one output".
pub fn cut(net: &Net, output: u64) -> Answer<Net> {
    if output >= net.outputs.len() as u64 {
        return Err(8);
    }
    let named = net.outputs[output as usize];
    let kept = gates_of_cut(net, named);
    let new: BTreeMap<usize, usize> = (0..net.inputs).chain(kept.iter().copied()).zip(0..).collect();
    let renewed = |gate: &Gate| Gate { feeds: gate.feeds.iter().map(|&(s, weight)| (new[&s], weight)).collect(), ..gate.clone() };
    let gates = kept.iter().map(|&s| renewed(net.gate(s))).collect();
    Ok(Net { board: net.board, inputs: net.inputs, gates, outputs: vec![new[&named]] })
}

/// The file of the cut of a file's network, with so many places for the answer and so much room.
pub fn cut_file(file: &[u8], output: u64, places: usize, room: usize) -> Answer<Vec<u8>> {
    let net = read(file)?;
    if places == 0 {
        return Err(18);
    }
    let alone = write(&cut(&net, output)?);
    if alone.len() > room {
        return Err(18);
    }
    Ok(alone)
}

// ---- the report

pub fn cost(net: &Net) -> u64 {
    net.gates.iter().map(|g| g.threshold.unsigned_abs() + g.feeds.iter().map(|f| f.1.unsigned_abs()).sum::<u64>()).sum()
}

/// The highest level of a gate. A gate without feeds has level 0, any other one more than its highest feed.
pub fn levels(net: &Net) -> u64 {
    let mut levels = vec![0u64; net.inputs];
    for gate in &net.gates {
        let level = match gate.feeds.iter().map(|f| levels[f.0]).max() {
            None => 0,
            Some(highest) => highest + 1,
        };
        levels.push(level);
    }
    *levels[net.inputs..].iter().max().unwrap()
}

/// Gates, cost and levels.
pub fn report(net: &Net) -> [u64; 3] {
    [net.gates.len() as u64, cost(net), levels(net)]
}

/// The report on a copy that was really collapsed.
pub fn preview(net: &Net, s: u64) -> Answer<[u64; 3]> {
    preview_by(net, s, pair)
}

/// The same with the pairs found another way.
pub fn preview_by(net: &Net, s: u64, find: Find) -> Answer<[u64; 3]> {
    let copy = collapse_by(net, s, find)?;
    Ok(report(&copy))
}

// ---- the journal, undo, and lists of calls

/// How many steps a journal holds.
pub const JOURNAL: usize = 64;

/// A step of the journal: the merge into a gate, by its signal, with the gate that stood there; or the drop of a gate, by the signal that
/// it had, with that gate.
#[derive(Clone, PartialEq, Eq, Debug)]
pub enum Step {
    Merge(usize, Gate),
    Drop(usize, Gate),
}

/// A network and its journal, the newest step last.
#[derive(Clone, PartialEq, Eq, Debug)]
pub struct Record {
    pub net: Net,
    pub journal: Vec<Step>,
}

impl Record {
    /// "A read empties the journal."
    pub fn just_read(net: Net) -> Record {
        Record { net, journal: vec![] }
    }

    /// The record once these steps were accepted and left this network: "the oldest step goes when it is full".
    fn stepped(&self, steps: Vec<Step>, net: Net) -> Record {
        let mut journal = self.journal.clone();
        for step in steps {
            if journal.len() == JOURNAL {
                journal.remove(0);
            }
            journal.push(step);
        }
        Record { net, journal }
    }
}

/// The steps of a collapse of u that a network's own call accepts: its merges, in rising order of the readers, then its drop.
pub fn steps_of_collapse(net: &Net, u: usize) -> Vec<Step> {
    let merges = net.readers(u).into_iter().map(|v| Step::Merge(v, net.gate(v).clone()));
    merges.chain([Step::Drop(u, net.gate(u).clone())]).collect()
}

/// The network with a gate put in at a signal: signals at or above it rise by one, and the gate's own feeds are below it.
fn with_gate_put_in(net: &Net, s: usize, gate: Gate) -> Net {
    let raise = |t: usize| if t >= s { t + 1 } else { t };
    let mut out = net.clone();
    for gate in &mut out.gates {
        for feed in &mut gate.feeds {
            feed.0 = raise(feed.0);
        }
    }
    for t in &mut out.outputs {
        *t = raise(*t);
    }
    out.gates.insert(s - net.inputs, gate);
    out
}

/// Whether a file describes the network.
fn described(net: &Net) -> bool {
    read(&write(net)).as_ref() == Ok(net)
}

/// The network before a step that left this one. None where the step has no place in it.
fn before(net: &Net, step: Step) -> Option<Net> {
    match step {
        Step::Merge(v, gate) => net.is_gate(v).then(|| with_gate(net, v, gate)),
        Step::Drop(s, gate) => (s == net.inputs + net.gates.len() || net.is_gate(s)).then(|| with_gate_put_in(net, s, gate)),
    }
}

/// The record before its latest step, which is in its journal no more. An undo is no step itself.
pub fn undo(record: &Record) -> Answer<Record> {
    if !described(&record.net) || record.journal.len() > JOURNAL {
        return Err(20);
    }
    let mut journal = record.journal.clone();
    let step = journal.pop().ok_or(22)?;
    let net = before(&record.net, step).filter(described).ok_or(23)?;
    Ok(Record { net, journal })
}

/// One call of a list, a kind and four numbers: its three numbers, and the record that it leaves.
pub fn call(record: &Record, call: &[u64]) -> Answer<([u64; 3], Record)> {
    call_by(record, call, pair)
}

/// The same with the pairs found another way.
pub fn call_by(record: &Record, call: &[u64], find: Find) -> Answer<([u64; 3], Record)> {
    let net = &record.net;
    let s = call[1];
    let mut numbers = [0; 3];
    let next = match call[0] {
        0 => {
            let (v, next) = (call[2] as usize, merge(net, s, call[2], call[3], call[4])?);
            record.stepped(vec![Step::Merge(v, net.gate(v).clone())], next)
        }
        1 => {
            let next = drop_gate(net, s)?;
            record.stepped(vec![Step::Drop(s as usize, net.gate(s as usize).clone())], next)
        }
        2 => {
            let next = collapse_by(net, s, find)?;
            record.stepped(steps_of_collapse(net, s as usize), next)
        }
        3 => {
            let (next, collapses) = sweep_by(net, s, find)?;
            numbers[0] = collapses.len() as u64;
            record.stepped(collapses.iter().flat_map(|(net, u)| steps_of_collapse(net, *u as usize)).collect(), next)
        }
        4 => {
            numbers = preview_by(net, s, find)?;
            record.clone()
        }
        _ => undo(record)?,
    };
    Ok((numbers, next))
}

/// A list of calls on a file, with so many places for the answers and so much room: the answers, the file's length first, and the file
/// after the list.
pub fn run(file: &[u8], calls: &[u64], places: usize, room: usize) -> Answer<(Vec<u64>, Vec<u8>)> {
    let mut record = Record::just_read(read(file)?);
    if calls.len() % 5 != 0 || calls.chunks(5).any(|call| call[0] > 5) {
        return Err(14);
    }
    let mut answers = vec![0];
    for one in calls.chunks(5) {
        match call(&record, one) {
            Ok((numbers, next)) => {
                answers.push(0);
                answers.extend(numbers);
                record = next;
            }
            Err(code) => answers.extend([code as u64, 0, 0, 0]),
        }
    }
    let after = write(&record.net);
    if places < answers.len() || room < after.len() {
        return Err(18);
    }
    answers[0] = after.len() as u64;
    Ok((answers, after))
}

// ---- the question

fn line(terms: &[(i64, usize)], right: i64) -> String {
    let terms: String = terms.iter().map(|(c, v)| format!("{c:+} x{v} ")).collect();
    format!("{terms}>= {right} ;\n")
}

fn gate_lines(gate: &Gate, variable: impl Fn(usize) -> usize, y: usize) -> [String; 2] {
    let highest: i64 = gate.feeds.iter().map(|f| f.1.max(0)).sum();
    let lowest: i64 = gate.feeds.iter().map(|f| f.1.min(0)).sum();
    let mut upper: Vec<(i64, usize)> = gate.feeds.iter().map(|f| (-f.1, variable(f.0))).collect();
    let mut lower: Vec<(i64, usize)> = gate.feeds.iter().map(|f| (f.1, variable(f.0))).collect();
    upper.push((highest - gate.threshold + 1, y));
    lower.push((lowest - gate.threshold, y));
    [line(&upper, 1 - gate.threshold), line(&lower, lowest)]
}

/// The lines of the question, the header first.
pub fn question(first: &Net, second: &Net) -> Answer<Vec<String>> {
    if first.inputs != second.inputs || first.outputs.len() != second.outputs.len() {
        return Err(19);
    }
    let shift = first.gates.len();
    let of_first = |s: usize| s + 1;
    let of_second = |s: usize| if s < first.inputs { s + 1 } else { s + shift + 1 };
    let difference = first.inputs + first.gates.len() + second.gates.len() + 1;
    let mut lines = vec![];
    for (g, gate) in first.gates.iter().enumerate() {
        lines.extend(gate_lines(gate, of_first, of_first(first.inputs + g)));
    }
    for (g, gate) in second.gates.iter().enumerate() {
        lines.extend(gate_lines(gate, of_second, of_second(second.inputs + g)));
    }
    for j in 0..first.outputs.len() {
        let (p, q, d) = (of_first(first.outputs[j]), of_second(second.outputs[j]), difference + j);
        lines.push(line(&[(1, p), (1, q), (-1, d)], 0));
        lines.push(line(&[(-1, p), (-1, q), (-1, d)], -2));
    }
    let all: Vec<(i64, usize)> = (0..first.outputs.len()).map(|j| (1, difference + j)).collect();
    lines.push(line(&all, 1));
    let variables = difference + first.outputs.len() - 1;
    lines.insert(0, format!("* #variable= {variables} #constraint= {}\n", lines.len()));
    Ok(lines)
}

/// How many 0/1 solutions the question has: the sum over all frames of 2 to the power t, less 1, where t is the number of outputs that
/// differ on the frame.
pub fn ways(first: &Net, second: &Net) -> Answer<u64> {
    if first.inputs != second.inputs || first.outputs.len() != second.outputs.len() {
        return Err(19);
    }
    let mut sum = 0;
    for x in 0..1u64 << first.inputs {
        let (one, other) = (frame(first, x)?.0, frame(second, x)?.0);
        let differing = (0..first.outputs.len()).filter(|j| one >> j & 1 != other >> j & 1).count();
        sum += (1 << differing) - 1;
    }
    Ok(sum)
}

// ---- the program

/// What `fold` prints for a network, and for what so many collapses made of it.
pub fn folded(net: &Net, after: &Net, collapses: usize) -> String {
    let ([gates, cost, levels], [gates_after, cost_after, levels_after]) = (report(net), report(after));
    let mut out = format!("gates {gates} {gates_after}\ncost {cost} {cost_after}\nlevels {levels} {levels_after}\nfolded {collapses}\n");
    for line in question(net, after).unwrap() {
        out += &line;
    }
    out
}

/// What `fold` prints for a file.
pub fn fold(file: &[u8]) -> String {
    match read(file) {
        Ok(net) => {
            let (after, collapses) = sweep(&net, 128).unwrap();
            folded(&net, &after, collapses.len())
        }
        Err(code) => format!("refused {code}\n"),
    }
}

#[cfg(test)]
mod tests {
    use super::*;

    const F: &[u8] = b"PMN\x01\x00\x03\x02\x01\x02\x05\0\0\0\x00\x04\0\0\0\x01\x03\0\0\0\x02\x03\0\0\0\x02\x01\0\0\0\x03\x02\0\0\0\x04";

    #[test]
    fn the_paper_prints_this_for_f() {
        let want = "gates 2 1\ncost 18 18\nlevels 2 1\nfolded 1\n* #variable= 7 #constraint= 9\n-4 x1 -3 x2 +3 x4 >= -4 ;\n+4 x1 +3 x2 -5 x4 >= 0 ;\n-1 x3 -2 x4 +1 x5 >= -2 ;\n+1 x3 +2 x4 -3 x5 >= 0 ;\n-4 x1 -3 x2 -3 x3 +3 x6 >= -7 ;\n+4 x1 +3 x2 +3 x3 -8 x6 >= 0 ;\n+1 x5 +1 x6 -1 x7 >= 0 ;\n-1 x5 -1 x6 -1 x7 >= -2 ;\n+1 x7 >= 1 ;\n";
        assert_eq!(fold(F), want);
        assert_eq!(write(&read(F).unwrap()), F);
    }

    #[test]
    fn a_constant_never_waits() {
        let levels_of = |gates: &[&[usize]]| {
            let gate = |signals: &&[usize]| Gate { feeds: signals.iter().map(|&s| (s, 1)).collect(), threshold: 1 };
            levels(&Net { board: Board::VERSION_1, inputs: 1, gates: gates.iter().map(gate).collect(), outputs: vec![1] })
        };
        assert_eq!(levels_of(&[&[]]), 0);
        assert_eq!(levels_of(&[&[], &[]]), 0);
        assert_eq!(levels_of(&[&[0]]), 1);
        assert_eq!(levels_of(&[&[], &[1]]), 1);
        assert_eq!(levels_of(&[&[], &[0, 1]]), 1);
        assert_eq!(levels_of(&[&[], &[1], &[2]]), 2);
        assert_eq!(levels_of(&[&[0], &[], &[1, 2]]), 2);
    }

    /// Signal 1 is merged into [ ;0] and [x −1; 0], signals 2 and 4, which the output reads; signal 3 has no reader.
    fn two_readers() -> Net {
        let gate = |feeds: &[(usize, i64)], threshold| Gate { feeds: feeds.to_vec(), threshold };
        Net {
            board: Board::VERSION_1,
            inputs: 1,
            gates: vec![gate(&[(0, 1)], 1), gate(&[(0, -1), (1, 1)], 0), gate(&[(0, 7)], 5), gate(&[(1, -1)], 0), gate(&[(2, 1), (4, 1)], 2)],
            outputs: vec![5],
        }
    }

    #[test]
    fn before_you_fold() {
        let f = read(F).unwrap();
        assert_eq!(report(&f), [2, 18, 2]);
        assert_eq!(preview(&f, 3), Ok([1, 18, 1]));
        assert_eq!((preview(&f, 2), preview(&f, 4), preview(&f, 5), preview(&f, 259)), (Err(11), Err(17), Err(11), Err(11)));
        let net = two_readers();
        assert_eq!(report(&net), [5, 21, 3]);
        assert_eq!(preview(&net, 3), Ok([4, 9, 3]));
        assert_eq!(preview(&net, 1), Ok([4, 17, 2]));
    }

    /// The example of the theorem: two outputs that name one gate, which differs on one of two frames.
    #[test]
    fn three_ways() {
        let twice = |feeds: &[(usize, i64)], threshold| Net {
            board: Board::VERSION_1,
            inputs: 1,
            gates: vec![Gate { feeds: feeds.to_vec(), threshold }],
            outputs: vec![1, 1],
        };
        let (input, one) = (twice(&[(0, 1)], 1), twice(&[], 0));
        assert_eq!((ways(&input, &one), ways(&one, &input), ways(&one, &one)), (Ok(3), Ok(3), Ok(0)));
        assert_eq!(ways(&input, &twice(&[], 1)), Ok(3));
        assert_eq!(ways(&one, &twice(&[], 1)), Ok(6));
        assert_eq!(ways(&input, &read(F).unwrap()), Err(19));
    }

    #[test]
    fn the_fewest_lit_patches() {
        let f = read(F).unwrap();
        assert_eq!(distinct(&f, 3, 4), Ok(vec![0, 1, 2]));
        // "[4,3,2;7] differs at 1,1 with y = 0"
        assert_eq!(witnesses(&f, 3, 4, 1, 2), Ok(vec![0b011]));
        assert_eq!((witnesses(&f, 3, 4, 1, 3), witnesses(&f, 3, 4, 1, 33)), (Ok(vec![]), Err(14)));
        assert_eq!((distinct(&f, 2, 4), distinct(&f, 4, 3), witnesses(&f, 4, 3, 1, 1)), (Err(11), Err(12), Err(12)));
        // [ ;0] is 1 where one of x and y is lit, P9's v is not; signals 1 and 2 are the distinct ones
        let u = Gate { feeds: vec![(1, -1), (2, -1)], threshold: 0 };
        let v = Gate { feeds: vec![(1, 1), (2, 1), (3, 2)], threshold: 2 };
        let p9 = Net { board: Board::VERSION_1, inputs: 3, gates: vec![u, v], outputs: vec![4] };
        assert_eq!(distinct(&p9, 3, 4), Ok(vec![1, 2]));
        assert_eq!(witnesses(&p9, 3, 4, 1, 1), Ok(vec![0b01, 0b10]));
    }

    /// Margins by hand: a gate, the fields of a file's head, merges in which the one side or the other is too near, and the converter.
    #[test]
    fn board_tolerance() {
        let gate = |feeds: &[(usize, i64)], threshold| Gate { feeds: feeds.to_vec(), threshold };
        let keeps = |gate: &Gate, on, off| gate.keeps(Board::version_2(on, off));
        // the sums are 0, 3, 4 and 7
        let u = gate(&[(0, 4), (1, 3)], 5);
        assert_eq!(u.sums(), [0, 4, 3, 7]);
        assert!(keeps(&u, 2, 1) && keeps(&u, 0, 1) && !keeps(&u, 3, 1) && !keeps(&u, 2, 2));
        assert!(keeps(&gate(&[], 0), 0, 255) && !keeps(&gate(&[], 0), 1, 1) && keeps(&gate(&[], 1), 255, 1) && !keeps(&gate(&[], 1), 0, 2));
        // a missing byte before its field's value, and each field before the next one
        let head = |fields: &[u8]| read(&[b"PMN\x02\x00", fields].concat()).unwrap_err();
        assert_eq!([head(&[]), head(&[0, 1]), head(&[0, 0]), head(&[0, 0, 1]), head(&[0, 1, 0]), head(&[0, 1, 1])], [1, 1, 1, 3, 3, 4]);
        assert_eq!([head(&[9, 1, 1, 0]), head(&[9, 1, 1, 1]), head(&[9, 1, 1, 1, 0]), head(&[9, 1, 1, 1, 1])], [3, 4, 3, 4]);
        // [4,4;7] and [y 4, u 4; 7] keep 1 and 3; merged they are [4,4,4;10], with the sums 8 and 12 beside 10: too near below
        let mut net = Net {
            board: Board::version_2(1, 3),
            inputs: 3,
            gates: vec![gate(&[(0, 4), (1, 4)], 7), gate(&[(2, 4), (3, 4)], 7)],
            outputs: vec![4],
        };
        assert_eq!(read(&write(&net)), Ok(net.clone()));
        assert_eq!((merge(&net, 3, 4, 1, 1), merge(&net, 3, 4, 1, 3), merge(&net, 3, 4, 3, 32)), (Err(24), Err(24), Err(15)));
        assert_eq!((witnesses(&net, 3, 4, 1, 1), witnesses(&net, 3, 4, 1, 3)), (Err(24), Err(24)));
        assert_eq!((witnesses(&net, 3, 4, 3, 32), merge(&net, 3, 4, 1, 33)), (Ok(vec![0b100]), Err(14)));
        assert_eq!((pair(&net, 3, 4), preview(&net, 3)), (Ok((2, 2)), Ok([1, 44, 1])));
        assert_eq!(merge(&net, 3, 4, 2, 2).unwrap().gates[1], gate(&[(0, 8), (1, 8), (2, 8)], 20));
        // without the margins the first fits, and the second, [4,4,12;16], disagrees where y and one of the others are lit
        let file = write(&net);
        net.board = Board::version_2(0, 1);
        assert_eq!((pair(&net, 3, 4), witnesses(&net, 3, 4, 1, 3)), (Ok((1, 1)), Ok(vec![0b101, 0b110])));
        // a vote against, of u = [4,4;7] in [u −4; −1], which keeps 1 and 3 too: [−4,−4;−7] would keep them only if they were exchanged
        net.gates[1] = gate(&[(3, -4)], -1);
        assert_eq!(merge(&net, 3, 4, 1, 1).unwrap().gates[1], gate(&[(0, -4), (1, -4)], -7));
        net.board = Board::version_2(1, 3);
        assert!(read(&write(&net)).is_ok() && keeps(&gate(&[(0, -4), (1, -4)], -7), 3, 1));
        assert_eq!((merge(&net, 3, 4, 1, 1), merge(&net, 3, 4, 1, 2), pair(&net, 3, 4)), (Err(24), Err(24), Ok((2, 1))));
        // the converter
        assert_eq!((convert(&file, 100), convert(&file, 0), convert(F, F.len() + 1)), (Err(25), Err(25), Err(18)));
        assert_eq!((convert(&F[..9], 0), convert(&write(&Net { board: Board::version_2(1, 4), ..net.clone() }), 0)), (Err(4), Err(24)));
        assert_eq!(read(&convert(F, F.len() + 2).unwrap()), Ok(Net { board: Board::version_2(0, 1), ..read(F).unwrap() }));
        assert_eq!(convert(&convert(F, 100).unwrap(), F.len()), Ok(F.to_vec()));
    }

    /// A collapse and its single steps taken back by hand; a full journal; and the three refusals.
    #[test]
    fn take_a_fold_back() {
        let gate = |feeds: &[(usize, i64)], threshold| Gate { feeds: feeds.to_vec(), threshold };
        let f = read(F).unwrap();
        let folded = call(&Record::just_read(f.clone()), &[2, 3, 0, 0, 0]).unwrap().1;
        let (u, v, merged) = (gate(&[(0, 4), (1, 3)], 5), gate(&[(2, 1), (3, 2)], 3), gate(&[(0, 4), (1, 3), (2, 3)], 8));
        assert_eq!((&folded.net.gates, &folded.net.outputs), (&vec![merged.clone()], &vec![3]));
        assert_eq!(folded.journal, [Step::Merge(4, v.clone()), Step::Drop(3, u.clone())]);
        let once = undo(&folded).unwrap();
        assert_eq!((&once.net.gates, &once.net.outputs), (&vec![u.clone(), merged.clone()], &vec![4]));
        assert_eq!(once.journal, [Step::Merge(4, v)]);
        let twice = undo(&once).unwrap();
        assert_eq!((&twice, undo(&twice)), (&Record::just_read(f.clone()), Err(22)));
        // the gates above one that comes back are raised, with what reads them
        let net = two_readers();
        let list = [[1, 3], [2, 1], [4, 1], [2, 9], [5, 0], [5, 0]].map(|[kind, s]| [kind, s, 0, 0, 0]).concat();
        let (answers, after) = run(&write(&net), &list, 25, 100).unwrap();
        let codes: Vec<u64> = answers[1..].chunks(4).map(|answer| answer[0]).collect();
        assert_eq!(codes, [0, 0, 0, 11, 0, 0]);
        let left = read(&after).unwrap();
        assert_eq!(left.gates, [gate(&[(0, 1)], 1), gate(&[], 0), gate(&[(1, -1)], 0), gate(&[(2, 1), (3, 1)], 2)]);
        let (_, after) = run(&write(&net), &[&list[..], &[5; 10]].concat(), 33, 100).unwrap();
        assert_eq!(read(&after), Ok(net));
        // kinds, places and room
        assert_eq!((run(F, &[6, 0, 0, 0, 0], 0, 0), run(F, &[5; 4], 0, 0), run(F, &[5; 5], 4, 100)), (Err(14), Err(14), Err(18)));
        assert_eq!(run(F, &[5; 5], 5, F.len() - 1), Err(18));
        assert_eq!(run(F, &[5; 5], 5, F.len()), Ok((vec![F.len() as u64, 22, 0, 0, 0], F.to_vec())));
        // the oldest step goes: after 62, 63 and 64 more steps both of the collapse's are left, the drop alone, and neither
        let first = Step::Merge(4, f.gate(4).clone());
        let later = |count: usize| folded.stepped(vec![first.clone(); count], f.clone()).journal;
        assert_eq!((&later(62)[..2], later(62).len()), (&folded.journal[..], JOURNAL));
        assert_eq!((later(63).remove(0), later(63).len()), (Step::Drop(3, u.clone()), JOURNAL));
        assert_eq!(later(64), vec![first.clone(); JOURNAL]);
        // a journal of 65 steps, a network that no file describes, and steps that leave none that a file describes
        let with = |net: &Net, journal: Vec<Step>| undo(&Record { net: net.clone(), journal });
        assert_eq!((with(&f, vec![first.clone(); JOURNAL + 1]), with(&f, vec![])), (Err(20), Err(22)));
        assert_eq!(with(&Net { outputs: vec![2], ..f.clone() }, vec![]), Err(20));
        let crossed = gate(&[(3, 1)], 1);
        for step in [Step::Merge(2, u.clone()), Step::Merge(5, u.clone()), Step::Merge(3, crossed.clone()), Step::Drop(3, crossed)] {
            assert_eq!(with(&f, vec![first.clone(), step]), Err(23));
        }
        assert_eq!((with(&f, vec![Step::Drop(2, u.clone())]), with(&f, vec![Step::Drop(6, u.clone())])), (Err(23), Err(23)));
        assert_eq!(with(&f, vec![Step::Drop(5, u.clone())]).unwrap().net.gates[2], u);
    }

    /// Pins of a small network by hand: outputs at the highest gate, at the lowest, at one between, and twice at one that nothing reads.
    #[test]
    fn cut_out_one_pin() {
        let gate = |feeds: &[(usize, i64)], threshold| Gate { feeds: feeds.to_vec(), threshold };
        // 6 reads 5, and 5 reads 3
        let gates = [gate(&[(0, 4)], 3), gate(&[(1, 2)], 1), gate(&[(2, 2), (3, 2)], 3), gate(&[(0, 5), (5, -2)], 4)];
        let board = Board::version_2(1, 1);
        let net = Net { board, inputs: 3, gates: gates.to_vec(), outputs: vec![6, 4, 3, 5, 4] };
        assert_eq!(read(&write(&net)), Ok(net.clone()));
        let [lowest, unread, between, _] = gates;
        let alone = |gates: &[&Gate], output| {
            Ok(Net { board, inputs: 3, gates: gates.iter().map(|&gate| gate.clone()).collect(), outputs: vec![output] })
        };
        assert_eq!(cut(&net, 0), alone(&[&lowest, &between, &gate(&[(0, 5), (4, -2)], 4)], 5));
        assert_eq!((cut(&net, 1), cut(&net, 4)), (alone(&[&unread], 3), alone(&[&unread], 3)));
        assert_eq!((cut(&net, 2), cut(&net, 3)), (alone(&[&lowest], 3), alone(&[&lowest, &between], 4)));
        assert_eq!((cut(&net, 5), cut(&net, 16), cut(&net, 1 << 8), cut(&net, u64::MAX)), (Err(8), Err(8), Err(8), Err(8)));
        // the file, its room and its places
        let file = write(&net);
        let want = b"PMN\x02\x00\x01\x01\x03\x01\x01\x01\x01\0\0\0\x01\x02\0\0\0\x03".to_vec();
        assert_eq!((cut_file(&file, 1, 1, 21), cut_file(&file, 4, 2, 100)), (Ok(want.clone()), Ok(want)));
        assert_eq!((cut_file(&file, 1, 1, 20), cut_file(&file, 1, 0, 21), cut_file(&file, 5, 0, 0)), (Err(18), Err(18), Err(18)));
        assert_eq!((cut_file(&file, 5, 1, 0), cut_file(&file[..20], 5, 0, 0), cut_file(&[], 0, 0, 0)), (Err(8), Err(4), Err(1)));
        // F has one output, and needs both of its gates
        assert_eq!((cut_file(F, 0, 1, F.len()), cut_file(F, 1, 1, F.len())), (Ok(F.to_vec()), Err(8)));
    }

    #[test]
    fn the_bench_gates() {
        let net = |u: &[(usize, i64)], tu, v: &[(usize, i64)], tv| Net {
            board: Board::VERSION_1,
            inputs: 3,
            gates: vec![Gate { feeds: u.to_vec(), threshold: tu }, Gate { feeds: v.to_vec(), threshold: tv }],
            outputs: vec![4],
        };
        let f = read(F).unwrap();
        assert_eq!(merge(&f, 3, 4, 1, 3).unwrap().gates[1], Gate { feeds: vec![(0, 4), (1, 3), (2, 3)], threshold: 8 });
        assert_eq!(merge(&f, 3, 4, 1, 2), Err(15));
        assert_eq!(pair(&f, 3, 4), Ok((1, 3)));
        assert!(merge(&f, 3, 4, 1, 32).is_ok());
        assert_eq!(merge(&f, 3, 4, 1, 33), Err(14));
        let p8 = net(&[(0, 1)], 1, &[(0, -1), (3, 1)], 0);
        assert_eq!(merge(&p8, 3, 4, 1, 1).unwrap().gates[1], Gate { feeds: vec![], threshold: 0 });
        assert_eq!(pair(&net(&[(0, -1), (1, -1)], 0, &[(0, 1), (1, 1), (3, 2)], 2), 3, 4), Err(16));
        assert!(merge(&net(&[(0, 500_000)], 500_000, &[(3, 1)], 1), 3, 4, 2, 1).is_ok());
        assert_eq!(merge(&net(&[(0, 500_001)], 500_001, &[(3, 1)], 1), 3, 4, 2, 1), Err(6));
        let p11 = net(&[(0, 1), (1, 1)], 1, &[(0, 1), (3, 1)], 2);
        assert_eq!(merge(&p11, 3, 4, 1, 1).unwrap().gates[1], Gate { feeds: vec![(0, 2), (1, 1)], threshold: 2 });
        assert_eq!((frame(&f, 7), frame(&f, 8)), (Ok((1, 1)), Err(10)));
        let against = net(&[(0, 1), (1, 1)], 2, &[(3, -1)], 0);
        assert_eq!(merge(&against, 3, 4, 1, 1).unwrap().gates[1], Gate { feeds: vec![(0, -1), (1, -1)], threshold: -1 });
    }
}

// ---- an alley

/// What `alley` prints for an alley file.
pub fn alley(mut file: &[u8]) -> String {
    let mut out = String::new();
    let (mut gates, mut sum) = (0, 0);
    for position in 1..=65_535 {
        if file.is_empty() {
            break;
        }
        let length = if file.len() < 2 { usize::MAX } else { u16::from_le_bytes([file[0], file[1]]) as usize };
        let lane = if file.len() < 2 || file.len() - 2 < length { Err(4) } else { read(&file[2..2 + length]) };
        match lane {
            Ok(net) => {
                out += &format!("{position} {} {}\n", net.gates.len(), cost(&net));
                gates += net.gates.len();
                sum += cost(&net);
            }
            Err(code) => out += &format!("{position} refused {code}\n"),
        }
        file = file.get(2usize.saturating_add(length)..).unwrap_or(&[]);
    }
    out + &format!("total {gates} {sum}\n")
}
