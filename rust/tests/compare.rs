//! The library and the independent implementation on many random, folding, near-miss and damaged inputs, with fixed seeds. Of most kinds a
//! quarter are files of version 2 with margins; tests/margins.rs has those alone.
use std::collections::BTreeMap;
use yovrenik_tests::exact;
use yovrenik_tests::generate::{
    against, chain, damaged, heavy, inverters, lit_from, mirrored, most_passes, network, on_some_board, ratio_31_32, wide, wide_pair,
    widest, Random,
};
use yovrenik_tests::reference::{self as paper, Board, Net};
use yovrenik_tests::*;

const MARK: u64 = 0xA5A5_A5A5_A5A5_A5A5;

fn code<T>(answer: &Result<T, u8>) -> u8 {
    match answer {
        Ok(_) => 0,
        Err(code) => *code,
    }
}

/// Everything that the library says of one file, against the paper.
fn file_agrees(r: &mut Random, reached: &mut Reached, file: &[u8]) {
    let want = paper::read(file);
    assert_eq!(check(file), code(&want), "read of {file:?}");
    let mut answer = [MARK; 4];
    let mut out = vec![170u8; 11_000];
    assert_eq!(write(file, &mut out, &mut answer), code(&want));
    match &want {
        Ok(net) => {
            let bytes = paper::write(net);
            assert_eq!(bytes, file);
            assert_eq!(&out[..bytes.len()], &bytes[..]);
            assert!(out[bytes.len()..].iter().all(|&b| b == 170));
            assert_eq!(answer, [bytes.len() as u64, MARK, MARK, MARK]);
            let mut short = vec![170u8; bytes.len() - 1];
            answer = [MARK; 4];
            assert_eq!((write(file, &mut short, &mut answer), answer), (18, [MARK; 4]));
            assert!(short.iter().all(|&b| b == 170));
        }
        Err(_) => {
            assert_eq!(answer, [MARK; 4]);
            assert!(out.iter().all(|&b| b == 170));
        }
    }
    let frames = match &want {
        Ok(net) => vec![0, (1 << net.inputs) - 1, 1 << net.inputs, r.next() >> (64 - net.inputs), r.next()],
        Err(_) => vec![0, r.next()],
    };
    for x in frames {
        answer = [MARK; 4];
        let got = frame(file, x, &mut answer);
        match want.as_ref().map_err(|&k| k).and_then(|net| paper::frame(net, x)) {
            Ok((bits, ones)) => assert_eq!((got, answer), (0, [bits, ones, MARK, MARK])),
            Err(k) => assert_eq!((got, answer), (k, [MARK; 4])),
        }
    }
    answer = [MARK; 4];
    let got = report(file, &mut answer);
    match &want {
        Ok(net) => {
            let [gates, cost, levels] = paper::report(net);
            assert_eq!((got, answer), (0, [gates, cost, levels, MARK]));
        }
        Err(k) => assert_eq!((got, answer), (*k, [MARK; 4])),
    }
    let signals = match &want {
        Ok(net) => {
            let (inputs, gates) = (net.inputs as u64, net.gates.len() as u64);
            let gate = inputs + r.below(gates);
            let other = inputs + r.below(gates);
            // inputs, gates and beyond; the last three are a gate's if cut to 8, 16 or 32 bits
            let beyond = [inputs + gates, u64::MAX, gate + (1 << 8), gate + (1 << 16), gate + (1 << 32)];
            [&[0, inputs - 1, inputs, gate, other, inputs + gates - 1], &beyond[..]].concat()
        }
        Err(_) => vec![0, r.below(60), u64::MAX],
    };
    for signal in signals {
        preview_agrees(reached, file, &want, signal);
    }
    for signal in [0, 1, 41, 168, u64::MAX, r.below(60)] {
        answer = [MARK; 4];
        out.fill(170);
        let got = part(file, signal, &mut out, &mut answer);
        match paper::part(file, signal) {
            Ok(bytes) => {
                assert_eq!((got, answer), (0, [bytes.len() as u64, MARK, MARK, MARK]));
                assert_eq!(&out[..bytes.len()], &bytes[..]);
                assert!(out[bytes.len()..].iter().all(|&b| b == 170));
            }
            Err(k) => {
                assert_eq!((got, answer), (k, [MARK; 4]));
                assert!(out.iter().all(|&b| b == 170));
            }
        }
    }
}

/// The pair by the exact method, or with margins by the form of it that takes them.
fn quick_pair(net: &Net, u: u64, v: u64) -> Result<(u64, u64), u8> {
    match net.board {
        Board { on: 0, off: 1, .. } => exact::pair(net, u, v),
        _ => exact::pair_with_margins(net, u, v),
    }
}

/// What the library says of a preview of one signal, with 0 to 4 places, against the paper. The pairs are found by the exact method: some
/// files have gates for which trying every candidate takes too long.
fn preview_agrees(reached: &mut Reached, file: &[u8], net: &Result<Net, u8>, signal: u64) {
    let want = net.as_ref().map_err(|&k| k).and_then(|net| {
        let want = paper::preview_by(net, signal, quick_pair);
        reached.preview(net, signal, &want);
        want
    });
    for places in 0..=4 {
        let mut answer = [MARK; 4];
        let got = preview(file, signal, &mut answer[..places]);
        match want {
            _ if net.is_ok() && places < 3 => assert_eq!((got, answer), (18, [MARK; 4]), "{net:?} {signal}"),
            Ok([gates, cost, levels]) => assert_eq!((got, answer), (0, [gates, cost, levels, MARK]), "{net:?} {signal}"),
            Err(k) => assert_eq!((got, answer), (k, [MARK; 4]), "{net:?} {signal}"),
        }
    }
}

/// The levels if a gate without feeds were a stage.
fn levels_with_constants(net: &Net) -> u64 {
    let mut levels = vec![0; net.inputs];
    for gate in &net.gates {
        levels.push(1 + gate.feeds.iter().map(|f| levels[f.0]).max().unwrap_or(0));
    }
    levels.into_iter().max().unwrap()
}

#[test]
fn files() {
    let mut r = Random::new(1);
    let mut reached = Reached::default();
    let mut waiting = 0;
    for _ in 0..6_000 {
        let net = network(&mut r, 12, 16);
        let net = on_some_board(&mut r, net);
        let file = paper::write(&net);
        waiting += (paper::levels(&net) != levels_with_constants(&net)) as u32;
        file_agrees(&mut r, &mut reached, &file);
        for _ in 0..3 {
            let broken = damaged(&mut r, &file);
            file_agrees(&mut r, &mut reached, &broken);
        }
    }
    for length in 0..40 {
        for _ in 0..40 {
            let noise: Vec<u8> = (0..length).map(|_| r.next() as u8).collect();
            file_agrees(&mut r, &mut reached, &noise);
        }
    }
    println!("{waiting} networks would have more levels if a constant were a stage");
    assert!(waiting >= 500);
    reached.at_least(&[
        ("preview accepted", 8_000),
        ("preview accepted, a gate without readers", 2_500),
        ("preview accepted, a gate with readers", 6_000),
        ("preview accepted, two readers or more", 3_500),
        ("preview accepted, a vote against", 3_000),
        ("preview accepted, more cost", 2_500),
        ("preview accepted, less cost", 5_000),
        ("preview accepted, fewer levels", 3_000),
        ("preview accepted, as many levels", 5_000),
        ("preview 7", 90),
        ("preview 11", 30_000),
        ("preview 16", 2_000),
        ("preview 17", 9_000),
        ("preview 7 or 16, not by the first reader", 900),
    ]);
}

#[test]
fn the_largest_file() {
    let mut r = Random::new(2);
    // sums are multiples of 9, and the thresholds lie 3 below one
    let mut feeds = |g: usize| (0..16).map(|i| (g + 2 * i, 9 * (1 + r.between(0, 5)))).collect();
    let gates: Vec<paper::Gate> = (0..128).map(|g| paper::Gate { feeds: feeds(g), threshold: 60 }).collect();
    for board in [Board::VERSION_1, Board::version_2(0, 1), Board::version_2(3, 6)] {
        let length = if board.version == 1 { LONGEST_FILE - 2 } else { LONGEST_FILE };
        let net = Net { board, inputs: 40, gates: gates.clone(), outputs: vec![167; 16] };
        let file = paper::write(&net);
        assert_eq!((file.len(), check(&file)), (length, 0));
        let mut reached = Reached::default();
        file_agrees(&mut r, &mut reached, &file);
        if board.version == 1 {
            // all gates but the highest nine below the output have readers, with 31 distinct feeds each
            (0..168).for_each(|signal| preview_agrees(&mut reached, &file, &Ok(net.clone()), signal));
            reached.at_least(&[("preview accepted, a gate without readers", 9), ("preview 7", 118), ("preview 11", 40), ("preview 17", 1)]);
        }
        for cut in [0, 7, 8, 9, 10, 11, 10_000, length - 1] {
            file_agrees(&mut r, &mut reached, &file[..cut]);
        }
        let mut longer = file.clone();
        longer.push(0);
        file_agrees(&mut r, &mut reached, &longer);
    }
}

/// How often a run came to what: merges, pairs, collapses and sweeps of gates that vote against a reader, and previews of any signal.
#[derive(Default)]
struct Reached(BTreeMap<&'static str, u64>);

/// Whether u and v are gates and u votes against v.
fn votes_against(net: &Net, u: u64, v: u64) -> bool {
    u <= 255 && net.is_gate(u as usize) && net.voted_against(u as usize).contains(&(v as usize))
}

impl Reached {
    fn count(&mut self, what: &'static str, happened: bool) {
        *self.0.entry(what).or_default() += happened as u64;
    }

    fn merge(&mut self, net: &Net, call: &[u64], answer: &Result<Net, u8>) {
        let [u, v, k, l] = [call[1], call[2], call[3], call[4]];
        if !votes_against(net, u, v) {
            return;
        }
        let (gate_u, gate_v) = (net.gate(u as usize), net.gate(v as usize));
        match answer {
            Ok(next) => {
                let merged = next.gate(v as usize);
                let mut shared = gate_u.feeds.iter().map(|f| f.0).filter(|&s| gate_v.weight(s).is_some());
                self.count("merge accepted", true);
                self.count("merge accepted, k above 1", k > 1);
                self.count("merge accepted, l above 1", l > 1);
                self.count("merge accepted, a feed of both", shared.clone().count() > 0);
                self.count("merge accepted, a feed dropped", shared.any(|s| merged.weight(s).is_none()));
            }
            Err(6) => {
                let threshold = k as i64 * (1 - gate_u.threshold) + l as i64 * gate_v.threshold;
                self.count("merge 6, by its threshold", threshold.abs() > 1_000_000);
                self.count("merge 6, by a weight", threshold.abs() <= 1_000_000);
            }
            Err(7) => self.count("merge 7", true),
            Err(14) => self.count("merge 14", true),
            Err(15) => self.count("merge 15", true),
            Err(24) => self.count("merge 24", true),
            Err(code) => panic!("a merge is refused with {code}"),
        }
    }

    fn pair(&mut self, net: &Net, u: u64, v: u64, answer: Result<(u64, u64), u8>) {
        if !votes_against(net, u, v) {
            return;
        }
        match answer {
            Ok((k, l)) => {
                self.count("pair found", true);
                self.count("pair found, k above 1", k > 1);
                self.count("pair found, l above 1", l > 1);
            }
            Err(7) => self.count("pair 7", true),
            Err(16) => self.count("pair 16", true),
            Err(code) => panic!("a pair is refused with {code}"),
        }
    }

    fn collapse(&mut self, net: &Net, u: u64, code: u8) {
        let against = if u <= 255 { net.voted_against(u as usize) } else { vec![] };
        if against.is_empty() {
            return;
        }
        let readers = net.readers(u as usize);
        match code {
            0 => {
                self.count("collapse accepted", true);
                self.count("collapse accepted, two readers or more", readers.len() > 1);
                self.count("collapse accepted, for one and against one", against.len() < readers.len());
            }
            17 => {}
            _ => {
                let first = readers.into_iter().find(|&v| paper::pair(net, u, v as u64).is_err()).unwrap();
                self.count("collapse 7", against.contains(&first) && code == 7);
                self.count("collapse 16", against.contains(&first) && code == 16);
            }
        }
    }

    fn sweep(&mut self, collapses: &[(Net, u64)]) {
        collapses.iter().for_each(|(net, u)| self.collapse(net, *u, 0));
        let against = collapses.iter().filter(|(net, u)| !net.voted_against(*u as usize).is_empty()).count();
        self.count("sweep, a collapse of it", against > 0);
        self.count("sweep, three collapses of it or more", against > 2);
    }

    fn preview(&mut self, net: &Net, s: u64, answer: &Result<[u64; 3], u8>) {
        match *answer {
            Ok([_, cost, levels]) => {
                let readers = net.readers(s as usize);
                self.count("preview accepted", true);
                self.count("preview accepted, a gate without readers", readers.is_empty());
                self.count("preview accepted, a gate with readers", !readers.is_empty());
                self.count("preview accepted, two readers or more", readers.len() > 1);
                self.count("preview accepted, a vote against", !net.voted_against(s as usize).is_empty());
                self.count("preview accepted, more cost", cost > paper::cost(net));
                self.count("preview accepted, less cost", cost < paper::cost(net));
                self.count("preview accepted, fewer levels", levels < paper::levels(net));
                self.count("preview accepted, as many levels", levels == paper::levels(net));
            }
            Err(code) => {
                self.count("preview 7", code == 7);
                self.count("preview 11", code == 11);
                self.count("preview 16", code == 16);
                self.count("preview 17", code == 17);
                assert!([7, 11, 16, 17].contains(&code), "a preview is refused with {code}");
                // a reader below the one that is refused has a pair, and yet nothing is merged
                let first = || net.readers(s as usize)[0] as u64;
                self.count("preview 7 or 16, not by the first reader", matches!(code, 7 | 16) && quick_pair(net, s, first()).is_ok());
            }
        }
    }

    /// Where in a list with such answers its previews stand.
    fn places_of_previews(&mut self, calls: &[[u64; 5]], answers: &[u64]) {
        let code = |i: usize| answers[1 + 4 * i];
        for (i, call) in previews(calls) {
            let collapsed = calls.get(i + 1).is_some_and(|next| next[..2] == [2, call[1]]);
            self.count("preview first in its list", i == 0);
            self.count("preview last in its list", i + 1 == calls.len());
            self.count("preview right after a preview", i > 0 && calls[i - 1][0] == 4);
            self.count("preview right after an accepted change", i > 0 && calls[i - 1][0] != 4 && code(i - 1) == 0);
            self.count("preview right after a refused call", i > 0 && code(i - 1) != 0);
            self.count("preview right before the collapse, accepted", collapsed && code(i) == 0);
            self.count("preview right before the collapse, refused", collapsed && code(i) != 0);
        }
    }

    /// Prints what the run came to, and asks for so much of it.
    fn at_least(&self, wanted: &[(&str, u64)]) {
        println!("reached: {:#?}", self.0);
        for &(what, least) in wanted {
            let count = self.0.get(what).copied().unwrap_or(0);
            assert!(count >= least, "{what}: {count} of {least}");
        }
    }
}

/// One call by the paper: its code, its three numbers, and the network that it leaves.
fn apply(reached: &mut Reached, net: &Net, call: &[u64]) -> (u8, [u64; 3], Net) {
    let answer = match call[0] {
        0 => {
            let answer = paper::merge(net, call[1], call[2], call[3], call[4]);
            reached.merge(net, call, &answer);
            answer
        }
        1 => paper::drop_gate(net, call[1]),
        2 => {
            let answer = paper::collapse(net, call[1]);
            reached.collapse(net, call[1], code(&answer));
            answer
        }
        3 => match paper::sweep(net, call[1]) {
            Ok((next, collapses)) => {
                reached.sweep(&collapses);
                return (0, [collapses.len() as u64, 0, 0], next);
            }
            Err(code) => Err(code),
        },
        _ => {
            let answer = paper::preview(net, call[1]);
            reached.preview(net, call[1], &answer);
            return (code(&answer), answer.unwrap_or_default(), net.clone());
        }
    };
    match answer {
        Ok(next) => (0, [0; 3], next),
        Err(code) => (code, [0; 3], net.clone()),
    }
}

/// The previews of a list, with their places.
fn previews(calls: &[[u64; 5]]) -> impl Iterator<Item = (usize, &[u64; 5])> {
    calls.iter().enumerate().filter(|(_, call)| call[0] == 4)
}

/// A signal, mostly that of a gate.
fn random_signal(r: &mut Random, net: &Net) -> u64 {
    let signals = (net.inputs + net.gates.len()) as u64;
    let gate = net.inputs as u64 + r.below(net.gates.len() as u64);
    match r.below(24) {
        0 | 1 => r.below(signals + 2),
        2 => r.next(),
        // a gate's if cut to 8, 16 or 32 bits
        3 => gate + (1 << [8, 16, 32][r.below(3) as usize]),
        _ => gate,
    }
}

fn random_preview(r: &mut Random, net: &Net) -> [u64; 5] {
    [4, random_signal(r, net), r.next(), r.next(), r.next()]
}

fn random_call(r: &mut Random, net: &Net) -> [u64; 5] {
    let signal = |r: &mut Random| random_signal(r, net);
    let dial = |r: &mut Random| match r.below(10) {
        0 => r.below(35),
        1 => r.next(),
        _ => 1 + r.below(4),
    };
    match r.below(10) {
        0..=2 => {
            let v = signal(r);
            let fed = net.gates.get((v as usize).wrapping_sub(net.inputs)).and_then(|g| g.feeds.last()).map(|f| f.0 as u64);
            let u = if r.below(4) == 0 { signal(r) } else { fed.unwrap_or(0) };
            // the pair, where there is one, in half of the cases
            let mut found = [0; 2];
            if r.below(2) == 0 && pair(&paper::write(net), u, v, &mut found) == 0 {
                return [0, u, v, found[0], found[1]];
            }
            [0, u, v, dial(r), dial(r)]
        }
        3 => [1, signal(r), r.next(), r.next(), r.next()],
        4..=6 => [2, signal(r), r.next(), 0, 0],
        7 => [3, if r.below(6) == 0 { r.below(200) } else { r.below(4) }, 0, 0, r.next()],
        _ => random_preview(r, net),
    }
}

/// A network of some kind, in a quarter of the cases with margins.
fn some_network(r: &mut Random, most_feeds: u64) -> Net {
    let net = match r.below(8) {
        // without margins: trying every candidate takes too long
        0 if r.below(8) == 0 => return wide(r),
        0 => chain(r),
        1 => inverters(r),
        2 => against(r),
        3 => heavy(r),
        _ => network(r, 9, most_feeds),
    };
    on_some_board(r, net)
}

#[test]
fn lists_of_calls() {
    let mut r = Random::new(3);
    let mut reached = Reached::default();
    for round in 0..20_000 {
        let net = some_network(&mut r, if round % 10 == 0 { 9 } else { 4 });
        let file = paper::write(&net);
        let mut list: Vec<[u64; 5]> = vec![];
        let mut now = net.clone();
        let mut want = vec![0];
        // now and then a preview before every call
        let every_second = r.below(8) == 0;
        for place in 0..r.below(8) {
            let call = match list.last() {
                // often a preview is taken at its word
                Some(&[4, s, ..]) if r.below(3) == 0 => [2, s, r.next(), r.next(), r.next()],
                _ if every_second && place % 2 == 0 => random_preview(&mut r, &now),
                _ => random_call(&mut r, &now),
            };
            let (code, numbers, next) = apply(&mut reached, &now, &call);
            want.push(code as u64);
            want.extend(numbers);
            list.push(call);
            now = next;
        }
        reached.places_of_previews(&list, &want);
        let calls = list.concat();
        let after = paper::write(&now);
        want[0] = after.len() as u64;
        let mut answers = vec![MARK; want.len() + 2];
        let mut out = vec![170u8; if round % 2 == 0 { 11_000 } else { after.len() + 3 }];
        assert_eq!(run(&file, &calls, &mut answers, &mut out), 0, "{net:?} {calls:?}");
        assert_eq!(answers[..want.len()], want[..], "{net:?} {calls:?}");
        assert_eq!(answers[want.len()..], [MARK, MARK]);
        assert_eq!(&out[..after.len()], &after[..], "{net:?} {calls:?}");
        assert!(out[after.len()..].iter().all(|&b| b == 170));
        refusals_touch_nothing(&file, &calls, want.len(), after.len());
        previews_come_true(&file, &list, &want);
        same_frames(&mut r, &net, &file, &after);
        lines(&mut r, &net, &now);
        pairs(&mut r, &mut reached, &net, &file);
    }
    reached.at_least(&[
        ("merge accepted", 1_500),
        ("merge accepted, k above 1", 500),
        ("merge accepted, l above 1", 500),
        ("merge accepted, a feed of both", 500),
        ("merge accepted, a feed dropped", 100),
        ("merge 6, by its threshold", 150),
        ("merge 6, by a weight", 80),
        ("merge 7", 4),
        ("merge 14", 200),
        ("merge 15", 350),
        ("merge 24", 80),
        ("pair found", 3_000),
        ("pair found, k above 1", 500),
        ("pair found, l above 1", 500),
        ("pair 7", 10),
        ("pair 16", 450),
        ("collapse accepted", 5_000),
        ("collapse accepted, two readers or more", 1_000),
        ("collapse accepted, for one and against one", 450),
        ("collapse 7", 10),
        ("collapse 16", 450),
        ("sweep, a collapse of it", 1_400),
        ("sweep, three collapses of it or more", 400),
        ("preview accepted", 4_000),
        ("preview accepted, a gate without readers", 1_200),
        ("preview accepted, a gate with readers", 3_000),
        ("preview accepted, two readers or more", 600),
        ("preview accepted, a vote against", 2_000),
        ("preview accepted, more cost", 600),
        ("preview accepted, less cost", 3_000),
        ("preview accepted, fewer levels", 2_500),
        ("preview accepted, as many levels", 1_700),
        ("preview 7", 20),
        ("preview 11", 1_500),
        ("preview 16", 500),
        ("preview 17", 4_500),
        ("preview 7 or 16, not by the first reader", 45),
        ("preview first in its list", 3_500),
        ("preview last in its list", 2_700),
        ("preview right after a preview", 1_200),
        ("preview right after an accepted change", 2_300),
        ("preview right after a refused call", 4_800),
        ("preview right before the collapse, accepted", 1_200),
        ("preview right before the collapse, refused", 2_000),
    ]);
}

/// By the library alone: each preview of a list with such answers leaves the file as it was, shows the code of a collapse in its place and
/// the report of the file after that, and is what a preview of that file by itself gives.
fn previews_come_true(file: &[u8], calls: &[[u64; 5]], answers: &[u64]) {
    for (i, call) in previews(calls) {
        let (_, before) = after_calls(file, &calls[..i]);
        let (_, left) = after_calls(file, &calls[..=i]);
        assert_eq!(before, left, "{file:?} {calls:?}");
        let mut instead = calls[..=i].to_vec();
        instead[i] = [2, call[1], 0, 0, 0];
        let (code, collapsed) = after_calls(file, &instead);
        let (mut shown, mut size) = ([0; 3], [0; 3]);
        assert_eq!(preview(&before, call[1], &mut shown) as u64, code, "{file:?} {calls:?}");
        if code == 0 {
            assert_eq!(report(&collapsed, &mut size), 0);
        } else {
            assert_eq!(before, collapsed, "{file:?} {calls:?}");
        }
        assert_eq!((answers[1 + 4 * i], &answers[2 + 4 * i..5 + 4 * i]), (code, &size[..]), "{file:?} {calls:?}");
        assert_eq!(shown, size, "{file:?} {calls:?}");
    }
}

/// The library reads the same from the two networks on some frames.
fn same_frames(r: &mut Random, net: &Net, file: &[u8], after: &[u8]) {
    for x in [0, (1 << net.inputs) - 1, r.next() >> (64 - net.inputs), r.next() >> (64 - net.inputs)] {
        let (mut one, mut other) = ([MARK; 2], [MARK; 2]);
        assert_eq!((frame(file, x, &mut one), frame(after, x, &mut other)), (0, 0));
        assert_eq!(one, other, "{net:?} on {x}");
    }
}

fn refusals_touch_nothing(file: &[u8], calls: &[u64], places: usize, length: usize) {
    let untouched = |code: u8, calls: &[u64], places: usize, length: usize| {
        let mut answers = vec![MARK; places];
        let mut out = vec![170u8; length];
        assert_eq!(run(file, calls, &mut answers, &mut out), code);
        assert!(answers.iter().all(|&a| a == MARK) && out.iter().all(|&b| b == 170));
    };
    untouched(18, calls, places - 1, length);
    untouched(18, calls, places, length - 1);
    let mut wrong = calls.to_vec();
    wrong.push(0);
    untouched(14, &wrong, places + 4, length);
    wrong.extend([0, 0, 0, 0]);
    for kind in [6, 4 + (1 << 32), 5 + (1 << 32), u64::MAX] {
        wrong[calls.len()] = kind;
        untouched(14, &wrong, places + 4, length);
        untouched(14, &wrong, 0, 0);
    }
}

fn lines(r: &mut Random, first: &Net, second: &Net) {
    let other = if r.below(8) == 0 { network(r, 4, 3) } else { second.clone() };
    let (a, b) = (paper::write(first), paper::write(&other));
    let want = paper::question(first, &other);
    let count = want.as_ref().map_or(3, |lines| lines.len() as u64);
    for n in (0..=count).chain([u64::MAX]) {
        let answer = want.as_ref().map_err(|&k| k).and_then(|lines| lines.get(n as usize).ok_or(21));
        let mut out = [170u8; 256];
        let mut place = [MARK; 2];
        let got = line(&a, &b, n, &mut out, &mut place);
        match answer {
            Ok(text) => {
                assert_eq!((got, place), (0, [text.len() as u64, MARK]));
                assert_eq!(&out[..text.len()], text.as_bytes());
                assert!(out[text.len()..].iter().all(|&b| b == 170));
                assert!(text.len() <= 254);
                let mut short = vec![170u8; text.len() - 1];
                place = [MARK; 2];
                assert_eq!((line(&a, &b, n, &mut short, &mut place), place), (18, [MARK; 2]));
            }
            Err(k) => {
                assert_eq!((got, place), (k, [MARK; 2]));
                assert!(out.iter().all(|&b| b == 170));
            }
        }
    }
}

fn pairs(r: &mut Random, reached: &mut Reached, net: &Net, file: &[u8]) {
    for _ in 0..4 {
        let call = random_call(r, net);
        let (u, v) = (call[1], call[2]);
        let mut answer = [MARK; 3];
        let got = pair(file, u, v, &mut answer);
        let want = paper::pair(net, u, v);
        reached.pair(net, u, v, want);
        match want {
            Ok((k, l)) => assert_eq!((got, answer), (0, [k, l, MARK])),
            Err(code) => assert_eq!((got, answer), (code, [MARK; 3])),
        }
    }
}

/// The library's pair of two gates.
fn library_pair(net: &Net, u: u64, v: u64) -> Result<(u64, u64), u8> {
    let mut answer = [MARK; 2];
    match pair(&paper::write(net), u, v, &mut answer) {
        0 => Ok((answer[0], answer[1])),
        code => Err(code),
    }
}

/// The library's preview of a gate.
fn library_preview(file: &[u8], s: u64) -> Result<[u64; 3], u8> {
    let mut answer = [MARK; 3];
    match preview(file, s, &mut answer) {
        0 => Ok(answer),
        code => Err(code),
    }
}

/// The exact method finds the pairs that trying every candidate finds, and so does its form for any margins.
#[test]
fn the_exact_method() {
    let mut r = Random::new(9);
    let mut with_margins = 0;
    for _ in 0..4_000 {
        let mut net = some_network(&mut r, 5);
        let call = random_call(&mut r, &net);
        let want = paper::pair(&net, call[1], call[2]);
        assert_eq!(exact::pair_with_margins(&net, call[1], call[2]), want, "{net:?} {call:?}");
        with_margins += (net.board.on + net.board.off > 1) as u32;
        net.board = Board::VERSION_1;
        let want = paper::pair(&net, call[1], call[2]);
        assert_eq!(exact::pair(&net, call[1], call[2]), want, "{net:?} {call:?}");
        assert_eq!(exact::pair_by_halves(&net, call[1], call[2]), want, "{net:?} {call:?}");
    }
    println!("{with_margins} networks with margins other than 0 and 1");
    assert!(with_margins >= 500);
}

/// Pairs with 16 distinct feeds, for which trying every candidate takes too long, and previews by them, against the exact method; and
/// merges with multipliers at and beside those of the pair.
#[test]
fn wide_pairs() {
    let mut r = Random::new(11);
    let (mut found, mut accepted) = (0, 0);
    for round in 0..10_000 {
        let net = wide_pair(&mut r);
        let want = exact::pair(&net, 16, 17);
        assert_eq!(library_pair(&net, 16, 17), want, "{net:?}");
        if round % 4 == 0 {
            assert_eq!(library_preview(&paper::write(&net), 16), paper::preview_by(&net, 16, exact::pair), "{net:?}");
        }
        let Ok((k, l)) = want else { continue };
        found += 1;
        if round % 16 == 0 {
            let (k, l) = (k + r.below(3) - r.below(2), l + r.below(3) - r.below(2));
            let want = paper::merge(&net, 16, 17, k, l);
            let (got, after) = after_calls(&paper::write(&net), &[[0, 16, 17, k, l]]);
            assert_eq!(got, code(&want) as u64, "{net:?} {k} {l}");
            if let Ok(merged) = want {
                assert_eq!(after, paper::write(&merged), "{net:?} {k} {l}");
                accepted += 1;
            }
        }
    }
    println!("wide pairs: {found} found, {accepted} merges accepted");
    assert!(found >= 1_000 && accepted >= 60);
    assert_eq!(library_pair(&ratio_31_32(), 16, 17), Ok((31, 32)));
    for net in [ratio_31_32()].iter().chain(&most_passes()) {
        assert_eq!(library_pair(net, 16, 17), exact::pair(net, 16, 17));
    }
}

/// The library's file after a list, and the code of the last call, 0 where there is none.
fn after_calls(file: &[u8], calls: &[[u64; 5]]) -> (u64, Vec<u8>) {
    let mut answers = vec![MARK; 1 + 4 * calls.len()];
    let mut out = vec![170u8; 11_000];
    assert_eq!(run(file, &calls.concat(), &mut answers, &mut out), 0);
    out.truncate(answers[0] as usize);
    (answers[1..].chunks(4).last().map_or(0, |last| last[0]), out)
}

/// A gate and its complement with the opposite votes: the library answers the same for both, and a merge or a collapse leaves the same.
/// With margins too, where the off margin is one more than the on margin: the complement keeps an on and an off margin exactly where the
/// gate keeps the off margin less 1 and the on margin plus 1 in their places, so that such margins are kept by both or by neither.
#[test]
fn mirrored_networks() {
    let mut r = Random::new(5);
    let (mut merges, mut collapses, mut with_margins) = (0, 0, 0);
    for round in 0..20_000 {
        let mut net = some_network(&mut r, if round % 4 == 0 { 16 } else { 5 });
        if net.board.version == 2 {
            let (on, off) = widest(&net);
            let half = on.min(off - 1);
            net.board = Board::version_2(half, half + 1);
        }
        let u = net.inputs + r.below(net.gates.len() as u64) as usize;
        let other = match mirrored(&net, u) {
            Some(other) if !net.outputs.contains(&u) => other,
            _ => continue,
        };
        let (file, mirror) = (paper::write(&net), paper::write(&other));
        let collapse = [2, u as u64, 0, 0, 0];
        let (one, same) = (after_calls(&file, &[collapse]), after_calls(&mirror, &[collapse]));
        assert_eq!(one.0, same.0, "{net:?} {u}");
        assert_eq!(library_preview(&file, u as u64), library_preview(&mirror, u as u64), "{net:?} {u}");
        if one.0 == 0 {
            assert_eq!(one.1, same.1, "{net:?} {u}");
            collapses += !net.readers(u).is_empty() as u64;
        }
        for v in net.readers(u) {
            let (mut one, mut same) = ([MARK; 2], [MARK; 2]);
            let codes = (pair(&file, u as u64, v as u64, &mut one), pair(&mirror, u as u64, v as u64, &mut same));
            assert_eq!((codes.0, one), (codes.1, same), "{net:?} {u} {v}");
            let (k, l) = if codes.0 == 0 && r.below(2) == 0 { (one[0], one[1]) } else { (1 + r.below(4), 1 + r.below(4)) };
            let merge = [0, u as u64, v as u64, k, l];
            let (one, same) = (after_calls(&file, &[merge]), after_calls(&mirror, &[merge]));
            assert_eq!(one.0, same.0, "{net:?} {merge:?}");
            if one.0 == 0 {
                let merged = |file: &[u8]| paper::part(file, v as u64).unwrap();
                assert_eq!(merged(&one.1), merged(&same.1), "{net:?} {merge:?}");
                merges += 1;
                with_margins += (net.board.on > 0) as u64;
            }
        }
    }
    println!("mirrored: {merges} merges, {with_margins} of them with margins, and {collapses} collapses");
    assert!(merges >= 6_000 && with_margins >= 300 && collapses >= 6_000);
}

/// The library's witness of one merge, and the distinct feeds of its gates, against the paper: the code, and of a witness how many are lit.
fn witness_agrees(net: &Net, file: &[u8], call: &[u64; 5]) -> (u8, u32) {
    let [_, u, v, k, l] = *call;
    let mut answer = [MARK; 3];
    let got = witness(file, u, v, k, l, &mut answer);
    assert_eq!(got, code(&paper::merge(net, u, v, k, l)), "{net:?} {call:?}");
    let lit = match paper::witnesses(net, u, v, k, l) {
        Ok(settings) if settings.is_empty() => {
            assert_eq!((got, answer), (0, [MARK; 3]), "{net:?} {call:?}");
            0
        }
        Ok(settings) => {
            assert_eq!((got, answer[1], answer[2]), (15, MARK, MARK), "{net:?} {call:?}");
            assert!(settings.contains(&answer[0]), "{net:?} {call:?}: {} is none of {settings:?}", answer[0]);
            answer[0].count_ones()
        }
        Err(code) => {
            assert_eq!((got, answer), (code, [MARK; 3]), "{net:?} {call:?}");
            0
        }
    };
    assert_eq!(witness(file, u, v, k, l, &mut []), 18);
    let mut places = [MARK; 18];
    let listed = distinct(file, u, v, &mut places);
    let mut want = [MARK; 18];
    if let Ok(signals) = paper::distinct(net, u, v) {
        want[0] = signals.len() as u64;
        signals.iter().enumerate().for_each(|(i, &s)| want[1 + i] = s as u64);
    }
    assert_eq!((listed, places), (code(&paper::distinct(net, u, v)), want), "{net:?} {call:?}");
    let mut short = [MARK; 16];
    assert_eq!((distinct(file, u, v, &mut short), short), (18, [MARK; 16]));
    (got, lit)
}

/// How often a run came to each code of a merge, and to witnesses with none, one and more lit.
#[derive(Default)]
struct Shown {
    codes: BTreeMap<u8, u64>,
    lit: [u64; 3],
}

impl Shown {
    fn count(&mut self, (code, lit): (u8, u32)) {
        *self.codes.entry(code).or_default() += 1;
        self.lit[lit.min(2) as usize] += (code == 15) as u64;
    }

    /// Prints what the run came to, and asks for so much of it.
    fn at_least(&self, what: &str, codes: &[(u8, u64)], lit: [u64; 3]) {
        println!("{what}: {:?}, witnesses with none, one and more lit {:?}", self.codes, self.lit);
        for &(code, least) in codes {
            assert!(self.codes.get(&code).copied().unwrap_or(0) >= least, "{what}: {code}");
        }
        assert!(self.lit.iter().zip(lit).all(|(&count, least)| count >= least), "{what}");
    }
}

/// Witnesses of random merges, and of merges with 16 distinct feeds, each held to every setting with the fewest lit.
#[test]
fn witnesses() {
    let mut r = Random::new(13);
    let mut shown = Shown::default();
    for round in 0..30_000 {
        let net = some_network(&mut r, if round % 8 == 0 { 9 } else { 5 });
        let file = paper::write(&net);
        let mut call = random_call(&mut r, &net);
        if call[0] == 0 {
            shown.count(witness_agrees(&net, &file, &call));
        }
        let u = net.inputs + r.below(net.gates.len() as u64) as usize;
        if let Some(&v) = net.readers(u).last() {
            call = [0, u as u64, v as u64, 1 + r.below(5), 1 + r.below(5)];
            shown.count(witness_agrees(&net, &file, &call));
        }
        let broken = damaged(&mut r, &file);
        if let Err(code) = paper::read(&broken) {
            let (mut answer, mut places) = ([MARK; 2], [MARK; 17]);
            assert_eq!((witness(&broken, call[1], call[2], call[3], call[4], &mut answer), answer), (code, [MARK; 2]));
            assert_eq!((distinct(&broken, call[1], call[2], &mut places), places), (code, [MARK; 17]));
        }
    }
    let codes = [(0, 8_000), (6, 1_500), (7, 60), (11, 3_000), (12, 1_000), (14, 300), (15, 4_500), (24, 500)];
    shown.at_least("random merges", &codes, [1_800, 1_500, 1_000]);
    let mut wide = Shown::default();
    for _ in 0..250 {
        let net = wide_pair(&mut r);
        let (k, l) = match exact::pair(&net, 16, 17) {
            Ok((k, l)) if r.below(2) == 0 => (k, if l > 1 { l - 1 } else { 32 }),
            _ => (1 + r.below(32), 1 + r.below(32)),
        };
        wide.count(witness_agrees(&net, &paper::write(&net), &[0, 16, 17, k, l]));
    }
    for least in 1..=17 {
        let net = lit_from(least);
        let got = witness_agrees(&net, &paper::write(&net), &[0, 16, 17, 1, 1]);
        assert_eq!(got, if least == 17 { (0, 0) } else { (15, least) });
    }
    wide.at_least("merges with 16 distinct feeds", &[(0, 10), (6, 40), (15, 140)], [30, 20, 70]);
}
