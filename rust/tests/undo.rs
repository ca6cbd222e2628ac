//! Undo and the journal, with fixed seeds: the independent implementation by itself, against copies of the network kept before every step;
//! and the library against it, in lists with undo at any place, lists taken back step by step, lists of more than 64 steps, and what is
//! refused. Each test counts what it came to, and asks for so much of it.
use std::collections::BTreeMap;
use yovrenik_tests::exact;
use yovrenik_tests::generate::{
    against, alternating, chain, fan, folding_chain, full_folding, heavier, inverters, network, tolerant, Random,
};
use yovrenik_tests::reference::{self as paper, Answer, Board, Gate, Net, Record, Step, JOURNAL};
use yovrenik_tests::{frame, run, LONGEST_FILE};

const MARK: u64 = 0xA5A5_A5A5_A5A5_A5A5;

/// File F.
const F: &[u8] = b"PMN\x01\x00\x03\x02\x01\x02\x05\0\0\0\x00\x04\0\0\0\x01\x03\0\0\0\x02\x03\0\0\0\x02\x01\0\0\0\x03\x02\0\0\0\x04";

/// How often a run came to what.
#[derive(Default)]
struct Reached(BTreeMap<String, u64>);

impl Reached {
    fn count(&mut self, what: &str, happened: bool) {
        *self.0.entry(what.to_string()).or_default() += happened as u64;
    }

    /// One undo of a record.
    fn undo(&mut self, record: &Record, code: u64) {
        let net = &record.net;
        match (record.journal.last(), code) {
            (None, 22) => self.count("undo 22", true),
            (Some(Step::Merge(v, gate)), 0) => {
                let merged = &net.gate(*v).feeds;
                self.count("undo of a merge", true);
                self.count("undo of a merge, more feeds before it", gate.feeds.len() > merged.len());
                self.count("undo of a merge, fewer feeds before it", gate.feeds.len() < merged.len());
            }
            (Some(Step::Drop(s, _)), 0) => {
                let feeds = || net.gates.iter().flat_map(|gate| &gate.feeds).map(|f| f.0);
                self.count("undo of a drop", true);
                self.count("undo of a drop, at the highest signal", *s == net.inputs + net.gates.len());
                self.count("undo of a drop, feeds that rise", feeds().any(|t| t >= *s));
                self.count("undo of a drop, a feed at its signal", feeds().any(|t| t == *s));
                self.count("undo of a drop, outputs that rise", net.outputs.iter().any(|t| t >= s));
                self.count("undo of a drop, an output at its signal", net.outputs.contains(s));
                self.count("undo of a drop, outputs that stay", net.outputs.iter().any(|t| t < s));
            }
            (step, code) => panic!("an undo of {step:?} is answered with {code}"),
        }
    }

    /// Where in a list with such codes its undos stand.
    fn places(&mut self, calls: &[[u64; 5]], codes: &[u64]) {
        for i in (0..calls.len()).filter(|&i| calls[i][0] == 5) {
            let accepted = codes[i] == 0;
            self.count("undo first in its list", i == 0);
            self.count("undo last in its list", i + 1 == calls.len());
            let Some(before) = i.checked_sub(1) else { continue };
            let (kind, change) = (calls[before][0], calls[before][0] < 4);
            self.count("undo accepted right after an accepted merge", accepted && kind == 0 && codes[before] == 0);
            self.count("undo accepted right after an accepted drop", accepted && kind == 1 && codes[before] == 0);
            self.count("undo accepted right after an accepted collapse", accepted && kind == 2 && codes[before] == 0);
            self.count("undo accepted right after an accepted sweep", accepted && kind == 3 && codes[before] == 0);
            self.count("undo accepted right after an accepted preview", accepted && kind == 4 && codes[before] == 0);
            self.count("undo accepted right after an undo", accepted && kind == 5);
            self.count("undo accepted right after a refused change", accepted && change && codes[before] != 0);
            self.count("undo accepted right after a refused preview", accepted && kind == 4 && codes[before] != 0);
            let next = calls.get(i + 1).map(|call| (call[0] < 3, codes[i + 1]));
            self.count("undo accepted right before an accepted change", accepted && next == Some((true, 0)));
            self.count("undo 22 right after an accepted undo", codes[i] == 22 && kind == 5 && codes[before] == 0);
        }
    }

    /// Prints what the run came to, and asks for so much of it.
    fn at_least(&self, wanted: &[(&str, u64)]) {
        println!("reached: {:#?}", self.0);
        for &(what, least) in wanted {
            let count = self.0.get(what).copied().unwrap_or(0);
            assert!(count >= least, "{what}: {count} of {least}");
        }
    }
}

// ---- networks

/// The network in a file of version 1, of version 2 with the margins 0 and 1, or one like it with other margins.
fn on_any_board(r: &mut Random, net: Net) -> Net {
    match r.below(4) {
        0 => tolerant(r, &net),
        1 => Net { board: Board::version_2(0, 1), ..net },
        _ => net,
    }
}

/// A small network of some kind.
fn some_network(r: &mut Random) -> Net {
    let net = match r.below(8) {
        0..=2 => chain(r),
        3 => inverters(r),
        4 => against(r),
        5 => {
            let readers = 1 + r.below(6) as usize;
            fan(r, readers)
        }
        _ => network(r, 9, 4),
    };
    on_any_board(r, net)
}

/// A chain that folds into one gate: each asks for all, or each for one, of an input and the gate before it, with four inputs in turn.
fn long_chain(gates: usize, all: bool) -> Net {
    let inputs = 4;
    let gate = |g: usize| {
        let mut feeds = vec![(g % inputs, 1)];
        if g > 0 {
            feeds.push((inputs + g - 1, 1));
        }
        Gate { threshold: if all { feeds.len() as i64 } else { 1 }, feeds }
    };
    Net { board: Board::VERSION_1, inputs, gates: (0..gates).map(gate).collect(), outputs: vec![inputs + gates - 1] }
}

/// A network with so many folds that a journal is soon full.
fn some_large_network(r: &mut Random) -> Net {
    let net = match r.below(4) {
        0 => {
            let gates = 20 + r.below(60) as usize;
            alternating(&long_chain(gates, r.below(2) == 0))
        }
        _ => {
            let readers = 20 + r.below(108) as usize;
            fan(r, readers)
        }
    };
    on_any_board(r, net)
}

// ---- calls

/// The pair by the exact method, or with margins by the form of it that takes them.
fn quick_pair(net: &Net, u: u64, v: u64) -> Answer<(u64, u64)> {
    match net.board {
        Board { on: 0, off: 1, .. } => exact::pair(net, u, v),
        _ => exact::pair_with_margins(net, u, v),
    }
}

/// One of several.
fn one_of<T: Clone>(r: &mut Random, all: &[T]) -> Option<T> {
    all.get(r.below(all.len().max(1) as u64) as usize).cloned()
}

/// A signal, mostly that of a gate.
fn some_signal(r: &mut Random, net: &Net) -> u64 {
    let gate = net.inputs as u64 + r.below(net.gates.len() as u64);
    match r.below(20) {
        0 => r.below((net.inputs + net.gates.len()) as u64 + 2),
        1 => gate + (1 << [8, 16, 32][r.below(3) as usize]),
        _ => gate,
    }
}

/// An undo with any numbers.
fn some_undo(r: &mut Random) -> [u64; 5] {
    [5, r.next(), r.below(3), r.next(), r.below(40)]
}

/// A merge, mostly of a gate into a reader with their pair.
fn some_merge(r: &mut Random, net: &Net) -> [u64; 5] {
    let mut u = some_signal(r, net);
    if r.below(4) > 0 {
        // a gate that is read, if the first of several has it
        u = (0..4).map(|_| some_signal(r, net)).find(|&s| s <= 255 && !net.readers(s as usize).is_empty()).unwrap_or(u);
    }
    let readers = if u <= 255 { net.readers(u as usize) } else { vec![] };
    let v = one_of(r, &readers).map_or_else(|| some_signal(r, net), |v| v as u64);
    let (k, l) = match r.below(8) {
        0 => (r.below(35), r.below(35)),
        1 => (1 + r.below(4), 1 + r.below(4)),
        _ => quick_pair(net, u, v).unwrap_or((1, 1)),
    };
    [0, u, v, k, l]
}

/// A drop, mostly of a gate that nothing reads, where there is one.
fn some_drop(r: &mut Random, net: &Net) -> [u64; 5] {
    let unread: Vec<usize> = (net.inputs..net.inputs + net.gates.len()).filter(|&s| paper::drop_gate(net, s as u64).is_ok()).collect();
    let s = if r.below(5) > 0 { one_of(r, &unread) } else { None };
    [1, s.map_or_else(|| some_signal(r, net), |s| s as u64), r.next(), r.next(), r.next()]
}

/// A call of some kind that is no undo.
fn some_call(r: &mut Random, net: &Net) -> [u64; 5] {
    match r.below(10) {
        0..=3 => some_merge(r, net),
        4 | 5 => some_drop(r, net),
        6 | 7 => [2, some_signal(r, net), r.next(), r.next(), r.next()],
        8 => [3, if r.below(6) == 0 { r.below(200) } else { r.below(4) }, r.next(), 0, 0],
        _ => [4, some_signal(r, net), r.next(), r.next(), r.next()],
    }
}

// ---- lists of calls

/// A list of calls on a file by the paper: its answers, the record that it leaves, and how many steps were accepted in it.
#[derive(Clone)]
struct Evening {
    file: Vec<u8>,
    calls: Vec<[u64; 5]>,
    answers: Vec<u64>,
    record: Record,
    steps: usize,
}

/// How many steps a call is that a network accepts.
fn steps(net: &Net, call: &[u64; 5]) -> usize {
    let of_collapse = |net: &Net, s: u64| paper::steps_of_collapse(net, s as usize).len();
    match call[0] {
        0 | 1 => 1,
        2 => of_collapse(net, call[1]),
        3 => paper::sweep_by(net, call[1], quick_pair).unwrap().1.iter().map(|(net, s)| of_collapse(net, *s)).sum(),
        _ => 0,
    }
}

impl Evening {
    /// The empty list.
    fn on(net: &Net) -> Evening {
        Evening { file: paper::write(net), calls: vec![], answers: vec![], record: Record::just_read(net.clone()), steps: 0 }
    }

    /// The list with one more call; its code.
    fn call(&mut self, reached: &mut Reached, call: [u64; 5]) -> u64 {
        let answer = paper::call_by(&self.record, &call, quick_pair);
        let code = answer.as_ref().map_or_else(|&code| code as u64, |_| 0);
        self.calls.push(call);
        self.answers.push(code);
        self.answers.extend(answer.as_ref().map_or([0; 3], |(numbers, _)| *numbers));
        if call[0] == 5 {
            reached.undo(&self.record, code);
        }
        if let Ok((_, next)) = answer {
            self.steps += steps(&self.record.net, &call);
            self.record = next;
        }
        code
    }

    fn codes(&self) -> Vec<u64> {
        self.answers.chunks(4).map(|answer| answer[0]).collect()
    }

    /// The library gives the same answers and leaves the same file; what is lent beyond them is as it was.
    fn agrees(&self) {
        let (after, want) = (paper::write(&self.record.net), &self.answers);
        // in turns room for any file, with which the list is run once, and little more than the file has, with which it is run twice
        let room = if self.calls.len() % 2 == 0 { 11_000 } else { after.len() + 3 };
        let (answers, out) = lent(&self.file, &self.calls.concat(), want.len() + 3, room, 0);
        assert_eq!((answers[0], &answers[1..=want.len()]), (after.len() as u64, &want[..]), "{:?} {:?}", self.file, self.calls);
        assert_eq!(&out[..after.len()], &after[..], "{:?} {:?}", self.file, self.calls);
        assert!(answers[1 + want.len()..].iter().all(|&a| a == MARK) && out[after.len()..].iter().all(|&b| b == 170));
    }
}

/// What is lent after a list of calls by the library with so many places and so much room, which gives this code.
fn lent(file: &[u8], calls: &[u64], places: usize, room: usize, code: u8) -> (Vec<u64>, Vec<u8>) {
    let (mut answers, mut out) = (vec![MARK; places], vec![170u8; room]);
    assert_eq!(run(file, calls, &mut answers, &mut out), code, "{file:?} {calls:?}");
    (answers, out)
}

/// The codes of a list by the library, and the file after it.
fn after_calls(file: &[u8], calls: &[[u64; 5]]) -> (Vec<u64>, Vec<u8>) {
    let (answers, mut out) = lent(file, &calls.concat(), 1 + 4 * calls.len(), 11_000, 0);
    out.truncate(answers[0] as usize);
    (answers[1..].chunks(4).map(|answer| answer[0]).collect(), out)
}

/// The library reads the same from the two files on some frames.
fn same_frames(r: &mut Random, inputs: usize, file: &[u8], after: &[u8]) {
    for x in [0, (1 << inputs) - 1, r.next() >> (64 - inputs), r.next() >> (64 - inputs)] {
        let (mut one, mut other) = ([MARK; 2], [MARK; 2]);
        assert_eq!((frame(file, x, &mut one), frame(after, x, &mut other)), (0, 0));
        assert_eq!(one, other, "{file:?} {after:?} on {x}");
    }
}

// ---- the independent implementation by itself

/// The networks before the single steps of a collapse, and the one after the last: merges and a drop, each by its own call.
fn copies_of_collapse(net: &Net, u: u64) -> Vec<Net> {
    let mut copies = vec![net.clone()];
    for v in net.readers(u as usize) {
        let now = copies.last().unwrap();
        let (k, l) = paper::pair(now, u, v as u64).unwrap();
        let next = paper::merge(now, u, v as u64, k, l).unwrap();
        copies.push(next);
    }
    copies.push(paper::drop_gate(copies.last().unwrap(), u).unwrap());
    copies
}

/// The networks before the single steps of a call that a network accepts, and the one after the last.
fn copies(net: &Net, call: &[u64; 5]) -> Vec<Net> {
    let s = call[1];
    match call[0] {
        0 => vec![net.clone(), paper::merge(net, s, call[2], call[3], call[4]).unwrap()],
        1 => vec![net.clone(), paper::drop_gate(net, s).unwrap()],
        2 => copies_of_collapse(net, s),
        _ => paper::sweep(net, s).unwrap().1.iter().fold(vec![net.clone()], |mut copies, (_, u)| {
            let now = copies.pop().unwrap();
            copies.extend(copies_of_collapse(&now, *u));
            copies
        }),
    }
}

/// A list by the paper, and the copies that its journal stands for: of more than 64 the oldest is gone.
struct Kept {
    evening: Evening,
    copies: Vec<Net>,
}

impl Kept {
    fn call(&mut self, reached: &mut Reached, call: [u64; 5]) {
        let before = self.evening.record.net.clone();
        let code = self.evening.call(reached, call);
        let now = &self.evening.record.net;
        match (call[0], code) {
            (5, 0) => assert_eq!(Some(now), self.copies.pop().as_ref()),
            (5, 22) => assert!(self.copies.is_empty() && *now == before),
            (5, code) => panic!("an undo is refused with {code}"),
            (0..=3, 0) => {
                self.copies.extend(copies(&before, &call));
                assert_eq!(Some(now), self.copies.pop().as_ref());
                let gone = self.copies.len().saturating_sub(JOURNAL);
                self.copies.drain(..gone);
                reached.count("overflow", gone > 0);
            }
            _ => assert_eq!(*now, before),
        }
        assert_eq!(self.evening.record.journal.len(), self.copies.len());
    }

    /// Undo until it is refused.
    fn to_the_end(&mut self, reached: &mut Reached) {
        for left in (0..=self.copies.len()).rev() {
            assert_eq!(self.copies.len(), left);
            self.call(reached, [5; 5]);
        }
        if self.evening.steps <= JOURNAL {
            assert_eq!(paper::write(&self.evening.record.net), self.evening.file);
        }
    }
}

/// An undo of the independent implementation gives exactly the copy that was kept before the step, in any list.
#[test]
fn copies_kept_before_each_step() {
    let mut r = Random::new(51);
    let mut reached = Reached::default();
    for round in 0..10_000 {
        let large = round % 100 == 0;
        let net = if large { some_large_network(&mut r) } else { some_network(&mut r) };
        let mut kept = Kept { evening: Evening::on(&net), copies: vec![] };
        for _ in 0..if large { 12 } else { r.below(10) } {
            let call = if r.below(3) == 0 { some_undo(&mut r) } else { some_call(&mut r, &kept.evening.record.net) };
            kept.call(&mut reached, call);
        }
        kept.to_the_end(&mut reached);
    }
    reached.at_least(&[
        ("undo of a merge", 12_000),
        ("undo of a merge, more feeds before it", 3_500),
        ("undo of a merge, fewer feeds before it", 4_500),
        ("undo of a drop", 10_000),
        ("undo of a drop, feeds that rise", 6_000),
        ("undo of a drop, outputs that rise", 9_500),
        ("undo of a drop, outputs that stay", 2_000),
        ("undo 22", 15_000),
        ("overflow", 30),
    ]);
}

// ---- lists with undo at any place

/// Lists that mix all calls, with good and bad numbers: codes, figures and the file afterwards, and the same readings as before.
#[test]
fn lists_with_undo() {
    let mut r = Random::new(52);
    let mut reached = Reached::default();
    for _ in 0..16_000 {
        let net = some_network(&mut r);
        let mut evening = Evening::on(&net);
        let undos = 1 + r.below(4);
        for _ in 0..r.below(16) {
            let call = if r.below(6) < undos { some_undo(&mut r) } else { some_call(&mut r, &evening.record.net) };
            evening.call(&mut reached, call);
        }
        reached.places(&evening.calls, &evening.codes());
        reached.count("version 2", net.board.version == 2);
        evening.agrees();
        same_frames(&mut r, net.inputs, &evening.file, &paper::write(&evening.record.net));
    }
    reached.at_least(&[
        ("version 2", 6_500),
        ("undo of a merge", 7_500),
        ("undo of a merge, more feeds before it", 2_200),
        ("undo of a merge, fewer feeds before it", 2_500),
        ("undo of a drop", 7_500),
        ("undo of a drop, at the highest signal", 250),
        ("undo of a drop, feeds that rise", 2_400),
        ("undo of a drop, a feed at its signal", 2_200),
        ("undo of a drop, outputs that rise", 7_000),
        ("undo of a drop, an output at its signal", 4_400),
        ("undo of a drop, outputs that stay", 900),
        ("undo 22", 25_000),
        ("undo 22 right after an accepted undo", 2_300),
        ("undo first in its list", 5_000),
        ("undo last in its list", 5_000),
        ("undo accepted right after an accepted merge", 3_500),
        ("undo accepted right after an accepted drop", 1_100),
        ("undo accepted right after an accepted collapse", 1_500),
        ("undo accepted right after an accepted sweep", 1_300),
        ("undo accepted right after an accepted preview", 320),
        ("undo accepted right after a refused preview", 390),
        ("undo accepted right after a refused change", 3_400),
        ("undo accepted right after an undo", 3_300),
        ("undo accepted right before an accepted change", 3_000),
    ]);
}

/// A list with one undo, and with several, put in at every place.
#[test]
fn undo_at_every_place() {
    let mut r = Random::new(53);
    let mut reached = Reached::default();
    for _ in 0..3_000 {
        let net = some_network(&mut r);
        let mut plain = Evening::on(&net);
        for _ in 0..1 + r.below(5) {
            let call = some_call(&mut r, &plain.record.net);
            plain.call(&mut reached, call);
        }
        for place in 0..=plain.calls.len() {
            for undos in [1, 1 + r.below(6) as usize] {
                let mut evening = Evening::on(&net);
                plain.calls[..place].iter().for_each(|&call| {
                    evening.call(&mut reached, call);
                });
                (0..undos).for_each(|_| {
                    evening.call(&mut reached, some_undo(&mut r));
                });
                plain.calls[place..].iter().for_each(|&call| {
                    evening.call(&mut reached, call);
                });
                reached.places(&evening.calls, &evening.codes());
                evening.agrees();
            }
        }
    }
    reached.at_least(&[
        ("undo of a merge", 7_000),
        ("undo of a drop", 7_000),
        ("undo of a drop, feeds that rise", 2_500),
        ("undo 22", 28_000),
        ("undo 22 right after an accepted undo", 2_800),
        ("undo first in its list", 6_000),
        ("undo last in its list", 6_000),
        ("undo accepted right after an undo", 4_400),
        ("undo accepted right before an accepted change", 1_400),
    ]);
}

// ---- lists taken back

/// A list with 1, 2, 3 .. undos after it, until one is refused: each time as the paper says, and the last is the file read where at most 64
/// steps were accepted. How many undos were accepted.
fn taken_back(reached: &mut Reached, mut evening: Evening) -> usize {
    let calls = evening.calls.len();
    evening.agrees();
    while evening.call(reached, [5, 0, 0, 0, 0]) == 0 {
        evening.agrees();
    }
    evening.agrees();
    let (undos, back) = (evening.calls.len() - calls - 1, paper::write(&evening.record.net) == evening.file);
    assert!(back || evening.steps > JOURNAL, "{:?} {:?}", evening.file, evening.calls);
    reached.count("taken back to the file read", back);
    reached.count("taken back to the file read, after steps", back && undos > 0);
    reached.count("more than 64 steps", evening.steps > JOURNAL);
    reached.count("64 undos, then 22", undos == JOURNAL);
    reached.count("64 undos, then 22, not at the file read", undos == JOURNAL && !back);
    undos
}

/// Whole lists taken back step by step. Some have undos of their own.
#[test]
fn evenings_taken_back() {
    let mut r = Random::new(54);
    let mut reached = Reached::default();
    for _ in 0..5_000 {
        let net = some_network(&mut r);
        let mut evening = Evening::on(&net);
        let own = r.below(2);
        for _ in 0..1 + r.below(8) {
            let call = if r.below(6) < own { some_undo(&mut r) } else { some_call(&mut r, &evening.record.net) };
            evening.call(&mut reached, call);
        }
        let (steps, length) = (evening.steps, evening.record.journal.len());
        let undos = taken_back(&mut reached, evening);
        assert_eq!(undos, length);
        reached.count("version 2", net.board.version == 2);
        reached.count("ten steps or more", steps >= 10);
    }
    reached.at_least(&[
        ("version 2", 2_000),
        ("taken back to the file read", 5_000),
        ("taken back to the file read, after steps", 3_000),
        ("ten steps or more", 280),
        ("undo of a merge", 7_000),
        ("undo of a drop", 5_500),
        ("undo of a drop, feeds that rise", 2_800),
    ]);
}

/// One call on a network, of so many steps, taken back: 64 undos are accepted, or as many as there were steps.
fn one_call_taken_back(reached: &mut Reached, net: &Net, call: [u64; 5], steps: usize) {
    let mut evening = Evening::on(net);
    assert_eq!((evening.call(reached, call), evening.steps), (0, steps), "{net:?}");
    assert_eq!(taken_back(reached, evening), steps.min(JOURNAL));
    reached.count("at most 64 steps", steps <= JOURNAL);
    reached.count("exactly 64 steps", steps == JOURNAL);
    reached.count("exactly 65 steps", steps == JOURNAL + 1);
}

/// Sweeps of chains and collapses of a gate with many readers, with as many steps as the journal holds, one fewer, one more, and many more.
#[test]
fn more_than_64_steps() {
    let mut r = Random::new(55);
    let mut reached = Reached::default();
    let sweep = [3, 128, 0, 0, 0];
    for gates in [2, 32, 33, 34, 35, 66, 100, 128] {
        let net = long_chain(gates, gates % 2 == 0);
        one_call_taken_back(&mut reached, &net, sweep, 2 * (gates - 1));
        one_call_taken_back(&mut reached, &heavier(&net), sweep, 2 * (gates - 1));
        one_call_taken_back(&mut reached, &alternating(&net), sweep, 2 * (gates - 1));
    }
    one_call_taken_back(&mut reached, &folding_chain(48), sweep, 94);
    one_call_taken_back(&mut reached, &full_folding(), sweep, 254);
    for readers in [1, 2, 61, 62, 63, 64, 65, 90, 126, 127] {
        let net = fan(&mut r, readers);
        let collapse = [2, net.inputs as u64, 0, 0, 0];
        one_call_taken_back(&mut reached, &net, collapse, readers + 1);
        one_call_taken_back(&mut reached, &Net { board: Board::version_2(0, 1), ..net }, collapse, readers + 1);
    }
    reached.at_least(&[
        ("at most 64 steps", 10),
        ("exactly 64 steps", 5),
        ("exactly 65 steps", 2),
        ("64 undos, then 22", 30),
        ("64 undos, then 22, not at the file read", 25),
        ("undo of a merge", 1_500),
        ("undo of a drop", 700),
    ]);
}

/// Long lists on large networks, in which the journal is filled, partly taken back and filled again, and then taken back to its end.
#[test]
fn a_full_journal_in_lists() {
    let mut r = Random::new(56);
    let mut reached = Reached::default();
    for _ in 0..24 {
        let net = some_large_network(&mut r);
        let mut evening = Evening::on(&net);
        let full = |evening: &Evening| evening.record.journal.len() == JOURNAL;
        for _ in 0..4 {
            let before = full(&evening);
            for _ in 0..r.below(40) {
                evening.call(&mut reached, some_undo(&mut r));
            }
            let left = evening.record.journal.len();
            for _ in 0..r.below(60) {
                let call = some_call(&mut r, &evening.record.net);
                evening.call(&mut reached, call);
            }
            reached.count("full", full(&evening));
            reached.count("full, then not, then full again", before && left < JOURNAL && full(&evening));
            evening.agrees();
        }
        taken_back(&mut reached, evening);
    }
    reached.at_least(&[
        ("full", 40),
        ("full, then not, then full again", 20),
        ("more than 64 steps", 20),
        ("64 undos, then 22", 7),
        ("64 undos, then 22, not at the file read", 7),
        ("undo of a merge", 750),
        ("undo of a drop", 1_400),
        ("undo of a drop, feeds that rise", 1_100),
        ("undo of a drop, outputs that rise", 1_000),
        ("undo 22", 100),
    ]);
}

// ---- by hand, and again

/// Undo on F: first of all, after one step, after refused calls and a preview, and the same merge or collapse again.
#[test]
fn undo_on_f() {
    let (merge, collapse, undo) = ([0, 3, 4, 1, 3], [2, 3, 0, 0, 0], [5, 0, 0, 0, 0]);
    let (refused, drop, preview) = ([0, 3, 4, 1, 2], [1, 3, 0, 0, 0], [4, 3, 0, 0, 0]);
    let codes = |calls: &[[u64; 5]]| after_calls(F, calls).0;
    let file = |calls: &[[u64; 5]]| after_calls(F, calls).1;
    let (merged, folded) = (file(&[merge]), file(&[collapse]));
    assert!(merged != F && folded != F && merged.len() > F.len() && folded.len() < F.len());
    assert_eq!((codes(&[undo]), file(&[undo])), (vec![22], F.to_vec()));
    assert_eq!((codes(&[undo, merge]), file(&[undo, merge])), (vec![22, 0], merged.clone()));
    assert_eq!((codes(&[merge, undo]), file(&[merge, undo])), (vec![0, 0], F.to_vec()));
    assert_eq!((codes(&[merge, undo, undo]), file(&[merge, undo, undo])), (vec![0, 0, 22], F.to_vec()));
    assert_eq!((codes(&[merge, undo, merge]), file(&[merge, undo, merge])), (vec![0, 0, 0], merged.clone()));
    // a collapse is two steps, and the first to be taken back is its drop
    assert_eq!((codes(&[collapse, undo]), file(&[collapse, undo])), (vec![0, 0], merged.clone()));
    assert_eq!((codes(&[collapse, undo, undo, undo]), file(&[collapse, undo, undo])), (vec![0, 0, 0, 22], F.to_vec()));
    assert_eq!(file(&[collapse, undo, undo, collapse]), folded);
    assert_eq!((codes(&[merge, drop, undo, drop]), file(&[merge, drop])), (vec![0; 4], folded.clone()));
    assert_eq!((file(&[collapse, undo, drop]), file(&[merge, drop, undo, drop])), (folded.clone(), folded));
    // neither refused calls nor previews are steps
    let list = [merge, refused, [1, 4, 0, 0, 0], [2, 9, 0, 0, 0], [3, 129, 0, 0, 0], preview, [4, 4, 0, 0, 0], undo, undo];
    assert_eq!((codes(&list), file(&list)), (vec![0, 12, 17, 11, 14, 0, 17, 0, 22], F.to_vec()));
    assert_eq!(codes(&[refused, undo, preview, undo]), [15, 22, 0, 22]);
    // a sweep that finds nothing enters nothing
    assert_eq!(codes(&[[3, 0, 0, 0, 0], undo, [3, 1, 0, 0, 0], undo, undo, undo]), [0, 22, 0, 0, 0, 22]);
    // a file has no journal
    assert_eq!(after_calls(&merged, &[undo]), (vec![22], merged.clone()));
}

/// An accepted call, taken back and made again: the file read, the same file as after the call, and again.
#[test]
fn the_same_again() {
    let mut r = Random::new(57);
    let mut reached = Reached::default();
    for _ in 0..10_000 {
        let net = some_network(&mut r);
        let call = some_call(&mut r, &net);
        let mut evening = Evening::on(&net);
        if call[0] == 4 || evening.call(&mut reached, call) != 0 || evening.steps == 0 {
            continue;
        }
        let undos: Vec<[u64; 5]> = (0..evening.steps).map(|_| some_undo(&mut r)).collect();
        let list = [&[call], &undos[..], &[call], &undos[..]].concat();
        let file = |calls: usize| after_calls(&evening.file, &list[..calls]);
        let once = file(1).1;
        assert_eq!(once, paper::write(&evening.record.net), "{net:?} {call:?}");
        assert_eq!(file(1 + undos.len()).1, evening.file, "{net:?} {call:?}");
        assert_eq!(file(2 + undos.len()).1, once, "{net:?} {call:?}");
        assert_eq!(file(list.len()), (vec![0; list.len()], evening.file.clone()), "{net:?} {call:?}");
        // a file carries no journal
        assert_eq!(after_calls(&once, &undos[..1]), (vec![22], once), "{net:?} {call:?}");
        reached.count("merge again", call[0] == 0);
        reached.count("drop again", call[0] == 1);
        reached.count("collapse again", call[0] == 2);
        reached.count("sweep again", call[0] == 3);
    }
    reached.at_least(&[("merge again", 2_000), ("drop again", 350), ("collapse again", 800), ("sweep again", 550)]);
}

// ---- what is refused

/// Kinds above 5 are refused with 14 wherever they stand, before short places and room, and nothing that was lent is touched; kind 5 is
/// not, with any numbers.
#[test]
fn kinds() {
    let mut r = Random::new(58);
    let mut reached = Reached::default();
    let untouched = |file: &[u8], calls: &[u64], places: usize, room: usize, code: u8| {
        assert_eq!(paper::run(file, calls, places, room), Err(code), "{file:?} {calls:?}");
        let (answers, out) = lent(file, calls, places, room, code);
        assert!(answers.iter().all(|&a| a == MARK) && out.iter().all(|&b| b == 170), "{file:?} {calls:?}");
    };
    for _ in 0..3_000 {
        let net = some_network(&mut r);
        let mut evening = Evening::on(&net);
        for _ in 0..1 + r.below(5) {
            let call = if r.below(2) == 0 { some_undo(&mut r) } else { some_call(&mut r, &evening.record.net) };
            evening.call(&mut reached, call);
        }
        evening.agrees();
        let (file, calls) = (&evening.file, evening.calls.concat());
        let (places, room) = (1 + evening.answers.len(), paper::write(&evening.record.net).len());
        assert_eq!(paper::run(file, &calls, places, room).unwrap().0[1..], evening.answers);
        for kind in [6, 7, 255, 256, 5 + (1 << 8), 5 + (1 << 32), 1 << 63, u64::MAX] {
            let mut wrong = calls.clone();
            wrong[5 * r.below(evening.calls.len() as u64) as usize] = kind;
            untouched(file, &wrong, places, LONGEST_FILE, 14);
            untouched(file, &wrong, 0, 0, 14);
        }
        untouched(file, &[&calls[..], &[5]].concat(), places + 4, LONGEST_FILE, 14);
        untouched(file, &calls, places - 1, LONGEST_FILE, 18);
        untouched(file, &calls, places, room - 1, 18);
        // other numbers beside the kind 5
        let mut other = evening.clone();
        other.calls.iter_mut().filter(|call| call[0] == 5).for_each(|call| *call = [5, u64::MAX, r.next(), 0, r.below(9)]);
        other.agrees();
        let mut answered = evening.calls.iter().zip(evening.codes());
        reached.count("lists with an undo accepted", answered.any(|(call, code)| call[0] == 5 && code == 0));
    }
    reached.at_least(&[("lists with an undo accepted", 600), ("undo of a merge", 400), ("undo of a drop", 300), ("undo 22", 2_500)]);
}
