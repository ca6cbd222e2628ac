//! The cut of one output, with fixed seeds: the library against the independent implementation, with every output number and with places and
//! room of every kind; and by itself, against what the cut is for: which gates it has, its bit on frames, cuts of cuts, and cuts before and
//! after lists of calls. Each test counts what it came to, and asks for so much of it.
use std::collections::BTreeMap;
use std::sync::mpsc::RecvTimeoutError;
use std::sync::{mpsc, OnceLock};
use std::thread;
use std::time::Duration;
use yovrenik_tests::exact;
use yovrenik_tests::generate::{
    against, chain, damaged, fan, folding_chain, full_folding, full_standing, heavier, inverters, largest, largest_tolerant, lattice,
    near_miss, network, standing_chain, tolerant, Random,
};
use yovrenik_tests::reference::{self as paper, Board, Gate, Net};
use yovrenik_tests::*;

const MARK: u64 = 0xA5A5_A5A5_A5A5_A5A5;

/// File F.
const F: &[u8] = b"PMN\x01\x00\x03\x02\x01\x02\x05\0\0\0\x00\x04\0\0\0\x01\x03\0\0\0\x02\x03\0\0\0\x02\x01\0\0\0\x03\x02\0\0\0\x04";

fn code<T>(answer: &Result<T, u8>) -> u8 {
    match answer {
        Ok(_) => 0,
        Err(code) => *code,
    }
}

/// How often a run came to what.
#[derive(Default)]
struct Reached(BTreeMap<String, u64>);

impl Reached {
    fn count(&mut self, what: &str, happened: bool) {
        *self.0.entry(what.to_string()).or_default() += happened as u64;
    }

    /// One cut by what it leaves out, and what moves in it.
    fn cut(&mut self, net: &Net, alone: &Net, named: usize) {
        let kept = paper::gates_of_cut(net, named);
        let reads = |s: usize| alone.gates.iter().any(|gate| gate.weight(s).is_some());
        let last = net.inputs + net.gates.len() - 1;
        let falls = |feed: &(usize, i64)| (net.inputs..feed.0).any(|s| !kept.contains(&s));
        self.count("one gate of several", kept.len() == 1 && net.gates.len() > 1);
        self.count("some gates", kept.len() > 1 && kept.len() < net.gates.len());
        self.count("all gates of several", kept.len() > 1 && kept.len() == net.gates.len());
        self.count("the output names the lowest of several gates", named == net.inputs && last > named);
        self.count("the output names not the highest gate", named < last);
        self.count("the output's signal falls", alone.outputs[0] < named);
        self.count("a feed's signal falls", kept.iter().any(|&s| net.gate(s).feeds.iter().any(falls)));
        self.count("an input that no gate of the cut reads", (0..net.inputs).any(|s| !reads(s)));
        self.count("an input that only gates left out read", (0..net.inputs).any(|s| !reads(s) && !net.readers(s).is_empty()));
        self.count("a gate without feeds below the named one", kept.iter().any(|&s| s != named && net.gate(s).feeds.is_empty()));
        self.count("a vote against", kept.iter().any(|&s| !net.voted_against(s).is_empty()));
        self.count("over 64 gates", kept.len() > 64);
        self.count("a signal above 127", named > 127);
        self.count("version 2", net.board.version == 2);
        self.count("version 2, other margins than 0 and 1", net.board.version == 2 && (net.board.on, net.board.off) != (0, 1));
    }

    /// Prints what the run came to, and asks for so much of it.
    fn at_least(&self, wanted: &[(&str, u64)]) {
        println!("reached: {:#?}", self.0);
        for &(what, least) in wanted {
            let count = self.0.get(what).copied().unwrap_or(0);
            assert!(count >= least, "{what}: {count} of {least}");
        }
    }
}

// ---- networks

/// The network in a file of version 1, of version 2 with the margins 0 and 1, or one like it with other margins.
fn on_any_board(r: &mut Random, net: Net) -> Net {
    match r.below(4) {
        0 => tolerant(r, &net),
        1 => Net { board: Board::version_2(0, 1), ..net },
        _ => net,
    }
}

/// The network, half of the time with other outputs: up to 16 at any gates.
fn with_any_outputs(r: &mut Random, net: Net) -> Net {
    if r.below(2) == 0 {
        return net;
    }
    let outputs = (0..1 + r.below(16)).map(|_| net.inputs + r.below(net.gates.len() as u64) as usize).collect();
    Net { outputs, ..net }
}

/// A small network of some kind.
fn some_network(r: &mut Random) -> Net {
    let net = match r.below(8) {
        0 | 1 => chain(r),
        2 => inverters(r),
        3 => against(r),
        4 => {
            let readers = 1 + r.below(6) as usize;
            fan(r, readers)
        }
        _ => network(r, 12, 4),
    };
    let net = with_any_outputs(r, net);
    on_any_board(r, net)
}

/// A network with up to 128 gates, and up to 16 outputs at any of them.
fn some_large_network(r: &mut Random) -> Net {
    cuts_end();
    let mut net = match r.below(8) {
        0 => {
            let readers = 20 + r.below(108) as usize;
            fan(r, readers)
        }
        1 => folding_chain(2 + r.below(127) as usize),
        2 => {
            let gates = 2 + r.below(127) as usize;
            lattice(r, gates)
        }
        3 => largest(r),
        // gates of few feeds, of which a cut leaves many out
        4 | 5 => network(r, 128, 2),
        6 => network(r, 128, 4),
        _ => network(r, 128, 16),
    };
    let gates = net.gates.len() as u64;
    net.outputs = (0..1 + r.below(16)).map(|_| net.inputs + r.below(gates) as usize).collect();
    if net.gates.iter().any(|gate| gate.feeds.len() > 4) {
        net.board = if r.below(2) == 0 { Board::VERSION_1 } else { Board::version_2(0, 1) };
        return net;
    }
    on_any_board(r, net)
}

// ---- what the library answers

/// The file of a cut by the library, which accepts it.
fn alone(file: &[u8], output: usize) -> Vec<u8> {
    let (mut out, mut answer) = (vec![170u8; file.len()], [MARK; 1]);
    assert_eq!(cut(file, output as u64, &mut out, &mut answer), 0, "{file:?} {output}");
    assert!(answer[0] <= file.len() as u64, "{file:?} {output}: {answer:?}");
    out.truncate(answer[0] as usize);
    out
}

/// The code of one cut by the library and by the paper, with such places and room; what is lent is as it was, but for the file and its
/// length where the cut is accepted.
fn one_cut_agrees(file: &[u8], output: u64, places: usize, room: usize) -> u8 {
    let (mut out, mut answer) = (vec![170u8; room], vec![MARK; places]);
    let got = cut(file, output, &mut out, &mut answer);
    let want = paper::cut_file(file, output, places, room);
    assert_eq!(got, code(&want), "{file:?}, output {output}, {places} places, room for {room}");
    let mut rest = (&out[..], &answer[..]);
    if let Ok(alone) = &want {
        assert_eq!((&out[..alone.len()], answer[0]), (&alone[..], alone.len() as u64), "{file:?}, output {output}");
        rest = (&out[alone.len()..], &answer[1..]);
    }
    let untouched = rest.0.iter().all(|&b| b == 170) && rest.1.iter().all(|&a| a == MARK);
    assert!(untouched, "{file:?}, output {output}, {places} places, room for {room}");
    got
}

/// Every output number that a network may have, two that none has, and numbers whose lowest bits are those of an output.
fn output_numbers() -> Vec<u64> {
    let huge = [255, 256, 257, 1 << 16, 1 << 32, (1 << 32) + 1, 1 << 63, u64::MAX];
    (0..=17).chain(huge).collect()
}

/// The cuts of a file that is read, for every output number: with no place, one and two, and with no room, one byte too few, just enough,
/// one more, and much more.
fn every_cut_agrees(reached: &mut Reached, net: &Net) {
    let file = paper::write(net);
    for output in output_numbers() {
        let whole = paper::cut(net, output);
        let length = whole.as_ref().map_or(file.len(), |alone| paper::write(alone).len());
        for room in [0, length - 1, length, length + 1, 11_000] {
            for places in [0, 1, 2] {
                let got = one_cut_agrees(&file, output, places, room);
                let stray = output >= net.outputs.len() as u64;
                reached.count("accepted", got == 0);
                reached.count("accepted, just enough room", got == 0 && room == length);
                reached.count("8", got == 8);
                reached.count("8, with no room", got == 8 && room == 0);
                reached.count("8, the first number that the network lacks", got == 8 && output == net.outputs.len() as u64);
                reached.count("18, no place", got == 18 && places == 0);
                reached.count("18, no place, before 8", got == 18 && places == 0 && stray);
                reached.count("18, one byte too few", got == 18 && places > 0 && room == length - 1);
            }
        }
        if let Ok(alone) = whole {
            reached.cut(net, &alone, net.outputs[output as usize]);
        }
    }
}

/// What a piece of work gives, if it gives it within so many seconds of processor time.
fn in_time<T: Send + 'static>(limit: f64, work: impl FnOnce() -> T + Send + 'static) -> Option<T> {
    let (send, receive) = mpsc::channel();
    let (tell, told) = mpsc::channel();
    thread::spawn(move || {
        tell.send(processor::this_thread()).unwrap();
        send.send(work())
    });
    let worker = told.recv().unwrap();
    loop {
        match receive.recv_timeout(Duration::from_millis(20)) {
            Ok(given) => return Some(given),
            Err(RecvTimeoutError::Disconnected) => return None,
            Err(RecvTimeoutError::Timeout) if processor::seconds(&worker).is_some_and(|taken| taken > limit) => return None,
            Err(RecvTimeoutError::Timeout) => (),
        }
    }
}

/// A thousand cuts of the lattice, in both versions, end within ten seconds of processor time: a search that goes every way down from its last gate would not
/// end. It is asked once, before any large network is cut.
fn cuts_end() {
    static ANSWER: OnceLock<bool> = OnceLock::new();
    let asked = || {
        let net = lattice(&mut Random::new(133), 128);
        let files = [Board::VERSION_1, Board::version_2(0, 1)].map(|board| paper::write(&Net { board, ..net.clone() }));
        in_time(10.0, move || (0..1_000).all(|i| alone(&files[i % 2], 0) == files[i % 2])) == Some(true)
    };
    assert!(*ANSWER.get_or_init(asked), "a cut of the lattice takes too long, or is wrong");
}

// ---- against the independent implementation

#[test]
fn every_output() {
    let mut r = Random::new(121);
    let mut reached = Reached::default();
    for _ in 0..1_200 {
        every_cut_agrees(&mut reached, &some_network(&mut r));
    }
    reached.at_least(&[
        ("accepted", 30_000),
        ("accepted, just enough room", 10_000),
        ("8", 200_000),
        ("8, with no room", 40_000),
        ("8, the first number that the network lacks", 10_000),
        ("18, no place", 100_000),
        ("18, no place, before 8", 100_000),
        ("18, one byte too few", 10_000),
        ("one gate of several", 1_500),
        ("some gates", 2_500),
        ("all gates of several", 750),
        ("the output names the lowest of several gates", 900),
        ("the output names not the highest gate", 3_000),
        ("the output's signal falls", 2_000),
        ("a feed's signal falls", 600),
        ("an input that no gate of the cut reads", 3_500),
        ("an input that only gates left out read", 2_400),
        ("a gate without feeds below the named one", 500),
        ("a vote against", 3_000),
        ("version 2", 2_500),
        ("version 2, other margins than 0 and 1", 900),
    ]);
}

#[test]
fn large_networks() {
    let mut r = Random::new(122);
    let mut reached = Reached::default();
    for _ in 0..200 {
        every_cut_agrees(&mut reached, &some_large_network(&mut r));
    }
    reached.at_least(&[
        ("accepted", 8_000),
        ("one gate of several", 100),
        ("some gates", 1_000),
        ("the output's signal falls", 700),
        ("a feed's signal falls", 500),
        ("over 64 gates", 100),
        ("a signal above 127", 50),
        ("version 2", 500),
        ("version 2, other margins than 0 and 1", 100),
    ]);
}

/// The largest networks, of both versions and with margins: 16 outputs, and the longest files.
#[test]
fn the_longest_files() {
    cuts_end();
    let mut r = Random::new(123);
    let (net, tolerant) = (largest(&mut r), largest_tolerant(&mut r));
    let mut gates = vec![];
    for net in [net.clone(), Net { board: Board::version_2(0, 1), ..net }, tolerant] {
        let file = paper::write(&net);
        for output in [0, 7, 15, 16, 1 << 8] {
            for (places, room) in [(1, LONGEST_FILE), (2, file.len() - 15), (1, 0), (0, 0)] {
                one_cut_agrees(&file, output, places, room);
            }
        }
        let cuts: Vec<Vec<u8>> = (0..16).map(|j| alone(&file, j)).collect();
        cuts.iter().for_each(|alone| assert_eq!((check(alone), alone[3]), (0, file[3])));
        gates.push(cuts.iter().map(|alone| alone[if file[3] == 2 { 8 } else { 6 }]).collect::<Vec<u8>>());
    }
    println!("gates of the cuts of the largest networks: {gates:?}");
}

/// Every way in which up to five gates on one input can be wired, with an output at each gate.
#[test]
fn every_wiring() {
    let (mut wirings, mut cuts) = (0, 0);
    for gates in 1..=5 {
        // gate g reads the signals whose bits are set, of 1 + g
        for wiring in 0..1u32 << (gates * (gates + 1) / 2) {
            let gate = |g: usize| {
                let reads = wiring >> (g * (g + 1) / 2);
                let feeds: Vec<(usize, i64)> = (0..=g).filter(|s| reads >> s & 1 == 1).map(|s| (s, 1 + s as i64)).collect();
                Gate { feeds, threshold: g as i64 }
            };
            let net = Net { board: Board::VERSION_1, inputs: 1, gates: (0..gates).map(gate).collect(), outputs: (1..=gates).collect() };
            let file = paper::write(&net);
            for j in 0..gates {
                let got = alone(&file, j);
                assert_eq!(Ok(&got), paper::cut(&net, j as u64).map(|alone| paper::write(&alone)).as_ref(), "{net:?} {j}");
                has_the_gates_reached(&net, j, &got);
                cuts += 1;
            }
            wirings += 1;
        }
    }
    println!("{wirings} wirings, {cuts} cuts");
    assert_eq!((wirings, cuts), (33_866, 168_146));
}

// ---- which gates are in the cut

/// For each gate by its number whether gate v is it, or reads it, or reads one that reads it, and so on: by the closure of the relation, not
/// by a search.
fn reached_from(net: &Net, v: usize) -> Vec<bool> {
    let count = net.gates.len();
    let mut reads = vec![vec![false; count]; count];
    for (g, gate) in net.gates.iter().enumerate() {
        reads[g][g] = true;
        gate.feeds.iter().filter(|f| f.0 >= net.inputs).for_each(|f| reads[g][f.0 - net.inputs] = true);
    }
    for middle in 0..count {
        let below = reads[middle].clone();
        for row in reads.iter_mut().filter(|row| row[middle]) {
            row.iter_mut().zip(&below).for_each(|(one, other)| *one |= other);
        }
    }
    reads.swap_remove(v - net.inputs)
}

/// The file of a cut has the gates that are reached from the output's gate, and no others: in their order, with their weights and thresholds,
/// and with signals that count only inputs and gates of the cut. Inputs, version and margins are those of the network. The highest gate is
/// the output, and every other is read.
fn has_the_gates_reached(net: &Net, output: usize, file: &[u8]) {
    let alone = paper::read(file).unwrap();
    let reached = reached_from(net, net.outputs[output]);
    let kept: Vec<usize> = (0..net.gates.len()).filter(|&g| reached[g]).collect();
    let counted = |s: usize| if s < net.inputs { s } else { net.inputs + (net.inputs..s).filter(|t| reached[t - net.inputs]).count() };
    assert_eq!((alone.board, alone.inputs), (net.board, net.inputs), "{net:?} {output}");
    assert_eq!((alone.gates.len(), alone.outputs.len()), (kept.len(), 1), "{net:?} {output}");
    for (gate, &g) in alone.gates.iter().zip(&kept) {
        let old = &net.gates[g];
        assert_eq!((gate.threshold, gate.feeds.len()), (old.threshold, old.feeds.len()), "{net:?} {output}");
        assert!(gate.feeds.iter().zip(&old.feeds).all(|(new, old)| *new == (counted(old.0), old.1)), "{net:?} {output}");
    }
    let last = net.inputs + kept.len() - 1;
    assert_eq!((alone.outputs[0], alone.outputs[0]), (counted(net.outputs[output]), last), "{net:?} {output}");
    assert!((net.inputs..last).all(|s| !alone.readers(s).is_empty()), "{net:?} {output}");
}

#[test]
fn gates_are_those_reached() {
    let mut r = Random::new(124);
    let (mut cuts, mut kept, mut left_out) = (0, 0, 0);
    for round in 0..3_000 {
        let net = if round % 10 == 0 { some_large_network(&mut r) } else { some_network(&mut r) };
        let file = paper::write(&net);
        for j in 0..net.outputs.len() {
            let got = alone(&file, j);
            has_the_gates_reached(&net, j, &got);
            let gates = paper::read(&got).unwrap().gates.len();
            (cuts, kept, left_out) = (cuts + 1, kept + gates, left_out + net.gates.len() - gates);
        }
    }
    println!("{cuts} cuts, {kept} gates kept, {left_out} left out");
    assert!(cuts >= 10_000 && kept >= 50_000 && left_out >= 50_000);
}

// ---- its bit on frames

/// All frames of a network with few inputs, or some: none lit, all, and any.
fn some_frames(r: &mut Random, inputs: usize) -> Vec<u64> {
    if inputs <= 8 {
        return (0..1 << inputs).collect();
    }
    [0, (1 << inputs) - 1].into_iter().chain((0..254).map(|_| r.next() >> (64 - inputs))).collect()
}

/// An output's bit on each of several frames, by the library.
fn bits(file: &[u8], output: usize, list: &[u64]) -> Vec<bool> {
    let mut bits = vec![];
    for pass in list.chunks(64) {
        let mut words = [MARK; 64];
        assert_eq!(frames(file, pass, &mut words), 0, "{file:?}");
        bits.extend(words[..pass.len()].iter().map(|word| word >> output & 1 == 1));
    }
    bits
}

/// A cut gives its output's bit on every frame, and no other output's.
#[test]
fn the_outputs_bit() {
    let mut r = Random::new(125);
    let mut reached = Reached::default();
    for round in 0..4_000 {
        let net = if round % 20 == 0 { some_large_network(&mut r) } else { some_network(&mut r) };
        let file = paper::write(&net);
        let list = some_frames(&mut r, net.inputs);
        for j in 0..net.outputs.len() {
            let alone = alone(&file, j);
            let (before, after) = (bits(&file, j, &list), bits(&alone, 0, &list));
            assert_eq!(before, after, "{net:?} {j}");
            let mut answer = [MARK; 2];
            assert_eq!(frame(&alone, list[0], &mut answer), 0);
            assert_eq!(answer, [after[0] as u64; 2], "{net:?} {j}");
            reached.count("on all frames", list.len() == 1 << net.inputs);
            reached.count("on many frames", list.len() != 1 << net.inputs);
            reached.count("a bit that is 0 and 1", before.iter().any(|&bit| bit) && before.iter().any(|&bit| !bit));
            reached.count("the bit of another output differs", (0..net.outputs.len()).any(|i| bits(&file, i, &list[..1]) != after[..1]));
        }
    }
    reached.at_least(&[
        ("on all frames", 15_000),
        ("on many frames", 1_700),
        ("a bit that is 0 and 1", 10_000),
        ("the bit of another output differs", 12_000),
    ]);
}

// ---- cuts of cuts, and of files in the other version

/// A cut of a cut is the cut, byte for byte; it has no second output; a write gives it back; and its journal is empty.
#[test]
fn a_cut_of_a_cut() {
    let mut r = Random::new(126);
    let mut cuts = 0;
    for round in 0..4_000 {
        let net = if round % 20 == 0 { some_large_network(&mut r) } else { some_network(&mut r) };
        let file = paper::write(&net);
        for j in 0..net.outputs.len() {
            let once = alone(&file, j);
            assert_eq!(alone(&once, 0), once, "{net:?} {j}");
            for other in [1, j as u64 + 1, 16, 1 << 8, u64::MAX] {
                let (mut out, mut answer) = (vec![170u8; 11_000], [MARK; 2]);
                assert_eq!(cut(&once, other, &mut out, &mut answer), 8);
                assert!(answer == [MARK; 2] && out.iter().all(|&b| b == 170));
            }
            let (mut out, mut answer) = (vec![170u8; once.len()], [MARK; 5]);
            assert_eq!((write(&once, &mut out, &mut answer), &out), (0, &once), "{net:?} {j}");
            assert_eq!((run(&once, &[5, 0, 0, 0, 0], &mut answer, &mut out), answer[1], &out), (0, 22, &once), "{net:?} {j}");
            cuts += 1;
        }
    }
    println!("{cuts} cuts");
    assert!(cuts >= 15_000);
}

/// The file in the other version, by the library.
fn converted(file: &[u8]) -> Vec<u8> {
    let (mut out, mut answer) = (vec![170u8; file.len() + 2], [MARK; 1]);
    assert_eq!(convert(file, &mut out, &mut answer), 0);
    out.truncate(answer[0] as usize);
    out
}

/// A cut of a converted file is the converted cut; and where the margins are others, the first seven bytes of the file stay.
#[test]
fn versions_and_margins() {
    let mut r = Random::new(127);
    let (mut both, mut margins) = (0, 0);
    for _ in 0..3_000 {
        let net = some_network(&mut r);
        let plain = Net { board: Board::VERSION_1, ..net.clone() };
        let (file, first) = (paper::write(&net), paper::write(&plain));
        let second = converted(&first);
        assert_eq!((first[3], second[3]), (1, 2));
        for j in 0..net.outputs.len() {
            let cut_first = alone(&first, j);
            assert_eq!((alone(&second, j), &cut_first[..6]), (converted(&cut_first), &first[..6]), "{net:?} {j}");
            both += 1;
            if net.board.version == 2 {
                let got = alone(&file, j);
                assert_eq!((&got[..8], &got[9..]), (&file[..8], &alone(&second, j)[9..]), "{net:?} {j}");
                margins += ((net.board.on, net.board.off) != (0, 1)) as u32;
            }
        }
    }
    println!("{both} cuts of both versions, {margins} with other margins");
    assert!(both >= 8_000 && margins >= 1_500);
}

// ---- before and after lists of calls

/// The pair by the exact method, or with margins by the form of it that takes them.
fn quick_pair(net: &Net, u: u64, v: u64) -> (u64, u64) {
    let pair = match net.board {
        Board { on: 0, off: 1, .. } => exact::pair(net, u, v),
        _ => exact::pair_with_margins(net, u, v),
    };
    pair.unwrap_or((1, 1))
}

/// A call of some kind: merges of a gate into a reader with their pair, drops, collapses, sweeps, previews and undos.
fn some_call(r: &mut Random, net: &Net) -> [u64; 5] {
    let s = net.inputs + r.below(net.gates.len() as u64) as usize;
    let readers = net.readers(s);
    match r.below(9) {
        0..=2 if !readers.is_empty() => {
            let v = readers[r.below(readers.len() as u64) as usize];
            let (k, l) = quick_pair(net, s as u64, v as u64);
            [0, s as u64, v as u64, k, l]
        }
        3 => [1, s as u64, 0, 0, 0],
        4 => [3, [0, 1, 2, 128][r.below(4) as usize], 0, 0, 0],
        5 => [4, s as u64, 0, 0, 0],
        6 => [5, 0, 0, 0, 0],
        _ => [2, s as u64, 0, 0, 0],
    }
}

/// The codes of a list of calls by the library, and the file after it.
fn after_calls(file: &[u8], calls: &[[u64; 5]]) -> (Vec<u64>, Vec<u8>) {
    let (mut answers, mut out) = (vec![MARK; 1 + 4 * calls.len()], vec![170u8; LONGEST_FILE]);
    assert_eq!(run(file, &calls.concat(), &mut answers, &mut out), 0, "{file:?} {calls:?}");
    out.truncate(answers[0] as usize);
    (answers[1..].chunks(4).map(|answer| answer[0]).collect(), out)
}

/// A list of some calls on a file, of which each fits the network that the calls before it left: the file after it.
fn after_some_calls(r: &mut Random, reached: &mut Reached, file: &[u8], when: &str) -> Vec<u8> {
    let (mut calls, mut now) = (vec![], file.to_vec());
    for _ in 0..1 + r.below(5) {
        let call = some_call(r, &paper::read(&now).unwrap());
        calls.push(call);
        let (codes, after) = after_calls(file, &calls);
        let accepted = codes.last() == Some(&0);
        reached.count(&format!("{when}: accepted merge or collapse"), accepted && (call[0] == 0 || call[0] == 2));
        reached.count(&format!("{when}: accepted drop"), accepted && call[0] == 1);
        reached.count(&format!("{when}: sweep that folds"), call[0] == 3 && after != now);
        reached.count(&format!("{when}: accepted undo"), accepted && call[0] == 5);
        now = after;
    }
    reached.count(&format!("{when}: another network"), now != file);
    now
}

/// With folding and cutting in either order the bit is the same.
#[test]
fn folds_before_and_after() {
    let mut r = Random::new(128);
    let mut reached = Reached::default();
    for _ in 0..4_000 {
        let net = some_network(&mut r);
        let file = paper::write(&net);
        let folded = after_some_calls(&mut r, &mut reached, &file, "before the cut");
        let list = some_frames(&mut r, net.inputs);
        for j in (0..net.outputs.len()).take(4) {
            let want = bits(&file, j, &list);
            let (cut_of_folded, cut_first) = (alone(&folded, j), alone(&file, j));
            let folded_cut = after_some_calls(&mut r, &mut reached, &cut_first, "after the cut");
            let cut_again = alone(&folded_cut, 0);
            let folded_again = after_some_calls(&mut r, &mut reached, &cut_of_folded, "after both");
            for file in [&cut_of_folded, &cut_first, &folded_cut, &cut_again, &folded_again] {
                assert_eq!((check(file), bits(file, 0, &list) == want), (0, true), "{net:?} {j}: {file:?}");
                assert_eq!(file[..5], folded[..5]);
            }
            reached.count("the fold changes the cut", cut_of_folded != cut_first);
            reached.count("the fold is in gates left out", folded != file && cut_of_folded == cut_first);
            reached.count("a cut drops what a fold left unread", cut_again.len() < folded_cut.len());
        }
    }
    reached.at_least(&[
        ("before the cut: accepted merge or collapse", 2_200),
        ("before the cut: accepted drop", 90),
        ("before the cut: sweep that folds", 500),
        ("before the cut: accepted undo", 300),
        ("before the cut: another network", 1_700),
        ("after the cut: accepted merge or collapse", 4_000),
        ("after the cut: sweep that folds", 800),
        ("after the cut: accepted undo", 600),
        ("after the cut: another network", 3_500),
        ("after both: another network", 2_800),
        ("the fold changes the cut", 2_000),
        ("the fold is in gates left out", 2_000),
        ("a cut drops what a fold left unread", 1_000),
    ]);
}

// ---- what is refused

/// A file for each refusal of a read, by hand.
fn refused_files() -> Vec<(u8, Vec<u8>)> {
    let with = |at: usize, byte: u8| {
        let mut file = F.to_vec();
        file[at] = byte;
        file
    };
    let margins = [b"PMN\x02\x00\x01\x01", &F[5..]].concat();
    // the sums of F's second gate are 0, 1, 2 and 3: 3 is too near to 3 with an on margin of 1
    vec![
        (1, vec![]),
        (1, F[..7].to_vec()),
        (1, with(2, b'M')),
        (2, with(3, 3)),
        (3, with(5, 41)),
        (3, with(6, 0)),
        (3, with(7, 17)),
        (4, F[..38].to_vec()),
        (5, with(13, 3)),
        (5, with(18, 0)),
        (6, with(12, 1)),
        (6, with(19, 0)),
        (7, with(8, 17)),
        (8, with(38, 2)),
        (8, with(38, 5)),
        (9, [F, &[4]].concat()),
        (24, margins),
    ]
}

/// The read's refusals come before 18 and 8, and nothing that was lent is touched.
#[test]
fn every_read_refusal() {
    for (want, file) in refused_files() {
        for output in [0, 1, 17, u64::MAX] {
            for (places, room) in [(0, 0), (0, 100), (1, 0), (2, 100)] {
                assert_eq!(one_cut_agrees(&file, output, places, room), want, "{file:?}");
            }
        }
    }
    let mut r = Random::new(129);
    let mut codes = [0; 25];
    for round in 0..20_000 {
        let net = some_network(&mut r);
        let net = if round % 3 == 0 { near_miss(&mut r, &net).unwrap_or(net) } else { net };
        let file = damaged(&mut r, &paper::write(&net));
        let read = code(&paper::read(&file));
        let (output, room) = (r.below(4) * r.below(6), r.below(2) * r.below(200));
        for places in [0, 1, 2] {
            let got = one_cut_agrees(&file, output, places, room as usize);
            assert!(read == 0 || got == read, "{file:?}");
        }
        codes[read as usize] += 1;
    }
    println!("damaged files by their code: {codes:?}");
    assert!(codes[..10].iter().all(|&count| count >= 150) && codes[24] >= 1_000);
}

/// The order of the refusals on F, which has one output: 18 where there is no place, 8, 18 where there is no room.
#[test]
fn order_of_refusals() {
    for output in output_numbers().into_iter().skip(1) {
        for room in [0, F.len() - 1, F.len(), 11_000] {
            assert_eq!(one_cut_agrees(F, output, 0, room), 18);
            assert_eq!((one_cut_agrees(F, output, 1, room), one_cut_agrees(F, output, 2, room)), (8, 8));
        }
    }
    assert_eq!([0, 1, 2].map(|places| one_cut_agrees(F, 0, places, F.len() - 1)), [18; 3]);
    assert_eq!([0, 1, 2].map(|places| one_cut_agrees(F, 0, places, F.len())), [18, 0, 0]);
}

// ---- by hand

fn gate(feeds: &[(usize, i64)], threshold: i64) -> Gate {
    Gate { feeds: feeds.to_vec(), threshold }
}

/// Small networks and the bytes of their cuts: one gate, all gates, the lowest gate, a gate between, and two outputs at one gate.
#[test]
fn small_networks() {
    assert_eq!(alone(F, 0), F);
    // one gate, and three inputs that nothing reads
    let one = b"PMN\x01\x00\x04\x01\x01\x01\x07\0\0\0\x02\xF9\xFF\xFF\xFF\x04";
    assert_eq!(alone(one, 0), one);
    // 3 = [x0 4; 3], 4 = [x1 2, 3 −1; 1], 5 = [x2 1, 3 1; 2], 6 = [3 5, 5 −2; 4]; margins 0 and 1 in version 2
    let gates: [&[u8]; 4] = [
        b"\x01\x03\0\0\0\x00\x04\0\0\0",
        b"\x02\x01\0\0\0\x01\x02\0\0\0\x03\xFF\xFF\xFF\xFF",
        b"\x02\x02\0\0\0\x02\x01\0\0\0\x03\x01\0\0\0",
        b"\x02\x04\0\0\0\x03\x05\0\0\0\x05\xFE\xFF\xFF\xFF",
    ];
    for head in [&b"PMN\x01\x00"[..], b"PMN\x02\x00\x00\x01"] {
        let file = [head, b"\x03\x04\x05", &gates.concat(), b"\x06\x04\x03\x05\x04"].concat();
        assert_eq!(check(&file), 0);
        let highest = [head, b"\x03\x03\x01", gates[0], gates[2], b"\x02\x04\0\0\0\x03\x05\0\0\0\x04\xFE\xFF\xFF\xFF\x05"].concat();
        assert_eq!(alone(&file, 0), highest);
        let unread = [head, b"\x03\x02\x01", gates[0], gates[1], b"\x04"].concat();
        assert_eq!((alone(&file, 1), alone(&file, 4)), (unread.clone(), unread));
        assert_eq!(alone(&file, 2), [head, b"\x03\x01\x01", gates[0], b"\x03"].concat());
        assert_eq!(alone(&file, 3), [head, b"\x03\x02\x01", gates[0], gates[2], b"\x04"].concat());
    }
    // margins 3 and 200, which [x0 400; 200] keeps, and a gate without feeds
    let board = Board::version_2(3, 200);
    let gates = vec![gate(&[(0, 400)], 200), gate(&[], -9), gate(&[(2, -400)], -200), gate(&[(3, 500), (4, 500)], 700)];
    let net = Net { board, inputs: 2, gates, outputs: vec![5, 4, 3, 2] };
    let file = paper::write(&net);
    assert_eq!(check(&file), 0);
    assert_eq!(alone(&file, 2), b"PMN\x02\x00\x03\xC8\x02\x01\x01\x00\xF7\xFF\xFF\xFF\x02");
    assert_eq!(alone(&file, 3), b"PMN\x02\x00\x03\xC8\x02\x01\x01\x01\xC8\0\0\0\x00\x90\x01\0\0\x02");
    assert_eq!(alone(&file, 1)[..10], *b"PMN\x02\x00\x03\xC8\x02\x02\x01");
    assert_eq!(alone(&file, 0).len(), file.len() - 3);
}

/// Two outputs that name one gate have equal cuts; equal gates that are two are not one.
#[test]
fn outputs_at_one_gate() {
    let mut r = Random::new(130);
    let (mut equal, mut other) = (0, 0);
    for _ in 0..2_000 {
        let net = some_network(&mut r);
        let file = paper::write(&net);
        let cuts: Vec<Vec<u8>> = (0..net.outputs.len()).map(|j| alone(&file, j)).collect();
        for j in 1..cuts.len() {
            for i in (0..j).filter(|&i| net.outputs[i] == net.outputs[j]) {
                assert_eq!(cuts[i], cuts[j], "{net:?} {i} {j}");
                equal += 1;
            }
            other += (cuts[j] != cuts[0]) as u32;
        }
    }
    let twice = Net { board: Board::VERSION_1, inputs: 1, gates: vec![gate(&[(0, 1)], 1); 2], outputs: vec![2, 1, 2] };
    let file = paper::write(&twice);
    let one = paper::write(&Net { gates: vec![gate(&[(0, 1)], 1)], outputs: vec![1], ..twice });
    (0..3).for_each(|j| assert_eq!(alone(&file, j), one));
    println!("{equal} pairs of outputs at one gate, {other} with another cut than the first");
    assert!(equal >= 5_000 && other >= 2_000);
}

// ---- the deepest, and the most paths

/// The networks that need all of their 128 gates: chains, of which each gate reads the one before it, and the lattice.
fn all_needed() -> Vec<Net> {
    let mut r = Random::new(131);
    let strict = Net { board: Board::version_2(0, 1), ..standing_chain(128, 16) };
    let nets = [folding_chain(128), heavier(&folding_chain(128)), strict, full_folding(), full_standing(&mut r), lattice(&mut r, 128)];
    nets.into_iter().collect()
}

/// A cut with an output at each of 16 gates from the lowest to the highest: so many gates are in it, and its bytes are those of the gates of
/// the file up to that gate. In a chain and in the lattice a gate needs every gate below it.
#[test]
fn chains_and_the_lattice() {
    cuts_end();
    let mut r = Random::new(132);
    for mut net in all_needed() {
        assert_eq!(alone(&paper::write(&net), 0), paper::write(&net));
        net.outputs = [0, 1, 2, 15, 16, 17, 62, 63, 64, 65, 86, 87, 88, 125, 126, 127].map(|g| net.inputs + g).to_vec();
        let file = paper::write(&net);
        let list = some_frames(&mut r, net.inputs);
        for (j, &s) in net.outputs.iter().enumerate() {
            let got = alone(&file, j);
            let gates = net.gates[..=s - net.inputs].to_vec();
            assert_eq!(got, paper::write(&Net { gates, outputs: vec![s], ..net.clone() }), "{s}");
            assert_eq!(bits(&got, 0, &list), bits(&file, j, &list), "{s}");
            one_cut_agrees(&file, j as u64, 1, got.len());
            one_cut_agrees(&file, j as u64, 1, got.len() - 1);
        }
    }
}

/// The lattice has more than 10 to the power 30 ways from its last gate down to its first, and its cuts end all the same.
#[test]
fn the_lattice_in_time() {
    let net = lattice(&mut Random::new(133), 128);
    let mut ways = vec![0f64; 128];
    ways[127] = 1.0;
    for g in (0..128).rev() {
        net.gates[g].feeds.iter().filter(|f| f.0 >= 16).for_each(|f| ways[f.0 - 16] += ways[g]);
    }
    println!("{:e} ways", ways[0]);
    assert!(ways[0] > 1e30);
    cuts_end();
}
