//! Games that the library scores, against the independent scorer, with fixed seeds: through networks that copy ten inputs and through random
//! ones, legal games and illegal ones of up to 30 balls, on whole and damaged files, and before and after lists of calls. Each test counts
//! what it came to, and asks for so much of it.
use std::collections::BTreeMap;
use yovrenik_tests::generate::{chain, damaged, fan, inverters, near_miss, network, pins, tolerant, with_outputs, Random};
use yovrenik_tests::reference::{self as paper, Answer, Board, Gate, Net, Sheet};
use yovrenik_tests::{run, score};

const MARK: u64 = 0xA5A5_A5A5_A5A5_A5A5;
const PLACES: usize = 33;
const FULL: u64 = 1023;

/// How often a run came to what.
#[derive(Default)]
struct Reached(BTreeMap<String, u64>);

impl Reached {
    fn count(&mut self, what: &str, happened: bool) {
        *self.0.entry(what.to_string()).or_default() += happened as u64;
    }

    /// A game's answer.
    fn game(&mut self, answer: &Answer<Sheet>) {
        let sheet = match answer {
            Ok(sheet) => sheet,
            Err(code) => return self.count(&format!("code {code}"), true),
        };
        self.count("code 0", true);
        self.count("no ball", sheet.felled.is_empty());
        self.count("no score yet", !sheet.felled.is_empty() && sheet.scores.is_empty());
        self.count("unfinished, some scores", (1..10).contains(&sheet.scores.len()));
        self.count("21 balls", sheet.felled.len() == 21);
        self.count("above 200", sheet.scores.last().is_some_and(|&n| n > 200));
        if sheet.scores.len() == 10 {
            let last = sheet.scores[9] - sheet.scores[8];
            let balls = &sheet.felled[sheet.felled.len() - if last < 10 { 2 } else { 3 }..];
            let kind = match *balls {
                [_, _] => "two balls",
                [10, 10, 10] => "three strikes",
                [10, 10, _] => "two strikes and a ball",
                [10, a, b] if a + b == 10 => "a strike and a spare",
                [10, _, _] => "a strike and two balls",
                [_, _, 10] => "a spare and a strike",
                _ => "a spare and a ball",
            };
            self.count(&format!("tenth frame of {kind}"), true);
        }
    }

    /// Prints what the run came to, and asks for so much of it.
    fn at_least(&self, wanted: &[(&str, u64)]) {
        println!("reached: {:#?}", self.0);
        for &(what, least) in wanted {
            let count = self.0.get(what).copied().unwrap_or(0);
            assert!(count >= least, "{what}: {count} of {least}");
        }
    }
}

const TENTH_FRAMES: [&str; 7] = [
    "tenth frame of two balls",
    "tenth frame of three strikes",
    "tenth frame of two strikes and a ball",
    "tenth frame of a strike and a spare",
    "tenth frame of a strike and two balls",
    "tenth frame of a spare and a strike",
    "tenth frame of a spare and a ball",
];

// ---- the library against the independent scorer

/// The 33 places of a sheet.
fn numbers(sheet: &Sheet) -> [u64; PLACES] {
    let mut places = [0; PLACES];
    places[0] = sheet.felled.len() as u64;
    places[1] = sheet.scores.len() as u64;
    places[2..2 + sheet.felled.len()].copy_from_slice(&sheet.felled);
    places[23..23 + sheet.scores.len()].copy_from_slice(&sheet.scores);
    places
}

/// A game on a file, with so many places: the code, the sheet, and every place after it.
fn game_agrees(reached: &mut Reached, file: &[u8], shots: &[u64], places: usize) {
    let mut answer = vec![MARK; places];
    let got = score(file, shots, &mut answer);
    let room = |net: Net| if places < PLACES { Err(18) } else { Ok(net) };
    let want = paper::read(file).and_then(room).and_then(|net| paper::score(&net, shots));
    match &want {
        Ok(sheet) => {
            assert_eq!((got, &answer[..PLACES]), (0, &numbers(sheet)[..]), "{file:?} {shots:?}");
            assert!(answer[PLACES..].iter().all(|&a| a == MARK));
        }
        Err(code) => {
            assert_eq!(got, *code, "{file:?} {shots:?}");
            assert!(answer.iter().all(|&a| a == MARK));
        }
    }
    reached.game(&want);
}

/// Places for a sheet: mostly as many as it needs or more, now and then fewer.
fn some_places(r: &mut Random) -> usize {
    match r.below(12) {
        0 => r.below(PLACES as u64) as usize,
        1 => PLACES - 1,
        _ => PLACES + r.below(4) as usize,
    }
}

// ---- games by the pins that stand after each ball

/// A bowler: how often of ten no pin is left, and how often of a hundred a ball is none of the rules.
struct Bowler {
    skill: u64,
    faults: u64,
}

fn some_bowler(r: &mut Random) -> Bowler {
    Bowler { skill: [0, 1, 3, 6, 9, 10][r.below(6) as usize], faults: [0, 0, 2, 10][r.below(4) as usize] }
}

/// The pins that stand after a ball at a rack: none, all, or any of them; or at a fault any of all ten.
fn after_ball(r: &mut Random, bowler: &Bowler, rack: u64) -> u64 {
    if r.below(100) < bowler.faults {
        return r.next() & FULL;
    }
    if r.below(10) < bowler.skill {
        return 0;
    }
    match r.below(4) {
        0 => rack,
        1 => rack & r.next() & r.next(),
        _ => rack & r.next(),
    }
}

/// The rack before each ball of a game, by the frames alone: which ball of which frame it is does not depend on the scores.
struct Lane {
    frame: usize,
    balls: Vec<u32>,
    rack: u64,
}

impl Lane {
    fn new() -> Lane {
        Lane { frame: 1, balls: vec![], rack: FULL }
    }

    fn is_over(&self) -> bool {
        self.frame > 10
    }

    fn ball(&mut self, standing: u64) {
        self.balls.push(self.rack.count_ones().saturating_sub(standing.count_ones()));
        self.rack = if standing == 0 { FULL } else { standing };
        let down: u32 = self.balls.iter().sum();
        let most = if self.frame == 10 && down >= 10 { 3 } else { 2 };
        if self.balls.len() == most || self.frame < 10 && down == 10 {
            *self = Lane { frame: self.frame + 1, ..Lane::new() };
        }
    }
}

/// A game of a bowler: the whole game, a part of it, or more than it; at most 30 balls.
fn some_game(r: &mut Random, bowler: &Bowler) -> Vec<u64> {
    let count = if r.below(2) == 0 { 30 } else { r.below(31) as usize };
    let beyond = r.below(6) == 0;
    let mut lane = Lane::new();
    let mut game = vec![];
    while game.len() < count && (beyond || !lane.is_over()) {
        let standing = after_ball(r, bowler, lane.rack);
        lane.ball(standing);
        game.push(standing);
    }
    game
}

/// The frames that show a game's pins to a network that copies ten inputs: bits of further inputs as they come, and now and then one too
/// many.
fn shown(r: &mut Random, inputs: usize, game: &[u64]) -> Vec<u64> {
    let mut shots: Vec<u64> = game.iter().map(|standing| standing | r.next() >> (64 - inputs) & !FULL).collect();
    if !shots.is_empty() && r.below(8) == 0 {
        let at = r.below(shots.len() as u64) as usize;
        shots[at] |= 1 << (inputs as u64 + r.below(64 - inputs as u64));
    }
    shots
}

/// Ten pins that copy ten inputs, in version 1 or 2.
fn some_pins(r: &mut Random) -> Net {
    let layers = 1 + r.below(3) as usize;
    let net = pins(r, layers);
    match r.below(4) {
        0 => tolerant(r, &net),
        1 => Net { board: Board::version_2(0, 1), ..net },
        _ => net,
    }
}

#[test]
fn games_of_ten_pins() {
    let mut r = Random::new(11);
    let mut reached = Reached::default();
    for _ in 0..3_000 {
        let net = some_pins(&mut r);
        let file = paper::write(&net);
        for _ in 0..12 {
            let bowler = some_bowler(&mut r);
            let game = some_game(&mut r, &bowler);
            let shots = shown(&mut r, net.inputs, &game);
            let places = some_places(&mut r);
            game_agrees(&mut reached, &file, &shots, places);
        }
    }
    let mut wanted = vec![("code 0", 10_000), ("code 10", 500), ("code 18", 1_000), ("code 28", 500), ("code 29", 500)];
    wanted.extend([("no ball", 100), ("no score yet", 500), ("unfinished, some scores", 1_000), ("21 balls", 200), ("above 200", 500)]);
    wanted.extend(TENTH_FRAMES.map(|kind| (kind, 100)));
    reached.at_least(&wanted);
}

// ---- random networks

/// A random network with ten outputs or more, or now and then with nine.
fn some_network(r: &mut Random) -> Net {
    let net = match r.below(5) {
        0 => chain(r),
        1 => inverters(r),
        2 => {
            let readers = 1 + r.below(9) as usize;
            fan(r, readers)
        }
        _ => network(r, 24, 6),
    };
    let count = [9, 10, 10, 11, 12, 16][r.below(6) as usize];
    let mut net = with_outputs(r, net, count);
    net.outputs.truncate(count);
    if r.below(4) == 0 {
        tolerant(r, &net)
    } else {
        net
    }
}

/// A game on any network: after each ball one of several frames whose pins are those of the rack, where one is; 30 balls at most.
fn found_game(r: &mut Random, net: &Net) -> Vec<u64> {
    let count = r.below(31) as usize;
    let faults = [0, 0, 3, 10][r.below(4) as usize];
    let mut lane = Lane::new();
    let mut shots = vec![];
    let beyond = r.below(4) == 0;
    while shots.len() < count && (beyond || !lane.is_over()) {
        let shows = |x: u64| paper::frame(net, x).unwrap().0 & FULL;
        let tried: Vec<u64> = (0..24).map(|_| r.next() >> (64 - net.inputs)).collect();
        let fair = tried.iter().copied().find(|&x| shows(x) & !lane.rack == 0);
        let x = if r.below(100) < faults { tried[0] } else { fair.unwrap_or(tried[0]) };
        lane.ball(shows(x));
        shots.push(if r.below(200) < faults { x | 1 << (net.inputs as u64 + r.below(64 - net.inputs as u64)) } else { x });
    }
    shots
}

#[test]
fn games_of_random_networks() {
    let mut r = Random::new(12);
    let mut reached = Reached::default();
    for _ in 0..4_000 {
        let net = some_network(&mut r);
        let file = paper::write(&net);
        for _ in 0..4 {
            let shots = found_game(&mut r, &net);
            let places = some_places(&mut r);
            game_agrees(&mut reached, &file, &shots, places);
        }
    }
    let mut wanted = vec![("code 0", 3_000), ("code 10", 200), ("code 18", 500), ("code 27", 1_000), ("code 28", 200), ("code 29", 500)];
    wanted.extend([("no ball", 100), ("no score yet", 200), ("unfinished, some scores", 500)]);
    reached.at_least(&wanted);
}

/// The file's own refusal speaks first, whatever the places and the game are.
#[test]
fn games_of_damaged_files() {
    let mut r = Random::new(13);
    let mut reached = Reached::default();
    for _ in 0..6_000 {
        let net = if r.below(2) == 0 { some_pins(&mut r) } else { some_network(&mut r) };
        let file = match near_miss(&mut r, &net) {
            Some(net) if r.below(6) == 0 => paper::write(&net),
            _ => damaged(&mut r, &paper::write(&net)),
        };
        let bowler = some_bowler(&mut r);
        let game = some_game(&mut r, &bowler);
        let shots = shown(&mut r, net.inputs, &game);
        let places = some_places(&mut r);
        game_agrees(&mut reached, &file, &shots, places);
    }
    let refused: Vec<(String, u64)> = (1..10).chain([24]).map(|code| (format!("code {code}"), 20)).collect();
    reached.at_least(&refused.iter().map(|(what, least)| (&what[..], *least)).collect::<Vec<_>>());
}

// ---- known games

/// Ten gates that copy ten inputs, with so many outputs: from the eleventh on they name the first gates again.
fn copies(outputs: usize) -> Vec<u8> {
    let gates = (0..10).map(|s| Gate { feeds: vec![(s, 1)], threshold: 1 }).collect();
    paper::write(&Net { board: Board::VERSION_1, inputs: 10, gates, outputs: (0..outputs).map(|j| 10 + j % 10).collect() })
}

/// The frames by how many pins stand after each ball.
fn standing(counts: &[u32]) -> Vec<u64> {
    counts.iter().map(|&n| (1 << n) - 1).collect()
}

fn known(outputs: usize, counts: &[u32], felled: &[u64], scores: &[u64]) {
    let mut answer = [MARK; PLACES + 1];
    assert_eq!(score(&copies(outputs), &standing(counts), &mut answer), 0);
    let sheet = Sheet { felled: felled.to_vec(), scores: scores.to_vec() };
    assert_eq!((&answer[..PLACES], answer[PLACES]), (&numbers(&sheet)[..], MARK));
}

fn refused(file: &[u8], shots: &[u64], places: usize, code: u8) {
    let mut answer = vec![MARK; places];
    assert_eq!(score(file, shots, &mut answer), code);
    assert!(answer.iter().all(|&a| a == MARK));
}

#[test]
fn known_games() {
    known(10, &[], &[], &[]);
    known(10, &[0; 12], &[10; 12], &[30, 60, 90, 120, 150, 180, 210, 240, 270, 300]);
    let spares = [&[[5, 0]; 10].concat()[..], &[5]].concat();
    known(10, &spares, &[5; 21], &[15, 30, 45, 60, 75, 90, 105, 120, 135, 150]);
    known(10, &[1; 20], &[[9, 0]; 10].concat(), &[9, 18, 27, 36, 45, 54, 63, 72, 81, 90]);
    let dutch = [&[[0, 4, 0]; 5].concat()[..], &[0]].concat();
    let felled = [&[[10, 6, 4]; 5].concat()[..], &[10]].concat();
    known(10, &dutch, &felled, &[20, 40, 60, 80, 100, 120, 140, 160, 180, 200]);
    // an open frame, a strike, a spare, and one ball of the fourth frame; the twelfth output is passed over
    known(12, &[3, 1, 0, 2, 0, 6], &[7, 2, 10, 8, 2, 4], &[9, 29, 43]);
    // a strike whose bonus is one ball short
    known(10, &[0, 7], &[10, 3], &[]);
    // ten with the second ball of a frame is a spare
    known(10, &[10, 0, 7], &[0, 10, 3], &[13]);
}

/// The game of docs/GUIDE.md on each rack of samples/, before and after a sweep.
#[test]
fn game_of_the_guide() {
    for name in ["full_rack", "shadow_rack", "tolerant_rack"] {
        let path = format!("{}/../samples/{name}.pmn", env!("CARGO_MANIFEST_DIR"));
        let file = std::fs::read(path).unwrap();
        let (mut answers, mut folded) = ([0; 5], vec![0; 11_000]);
        assert_eq!(run(&file, &[3, 128, 0, 0, 0], &mut answers, &mut folded), 0);
        folded.truncate(answers[0] as usize);
        assert!(answers[2] >= 10);
        let sheet = Sheet { felled: vec![7, 2, 10, 8, 2, 4], scores: vec![9, 29, 43] };
        for file in [file, folded] {
            let mut answer = [MARK; PLACES];
            assert_eq!(score(&file, &[0x333, 0x3, 0x0, 0x33, 0x0, 0x333333], &mut answer), 0);
            assert_eq!(answer, numbers(&sheet));
        }
    }
}

/// A tenth frame after nine frames of gutter balls: the pins standing after its balls, and its score, where it has one.
#[test]
fn tenth_frames() {
    let tenth = |counts: &[u32], felled: &[u64], score: Option<u64>| {
        let scores = [&[0; 9][..], score.as_slice()].concat();
        known(10, &[&[10; 18], counts].concat(), &[&[0; 18], felled].concat(), &scores);
    };
    tenth(&[4], &[6], None);
    tenth(&[4, 1], &[6, 3], Some(9));
    tenth(&[4, 0], &[6, 4], None);
    tenth(&[4, 0, 3], &[6, 4, 7], Some(17));
    tenth(&[4, 0, 0], &[6, 4, 10], Some(20));
    tenth(&[0], &[10], None);
    tenth(&[0, 2], &[10, 8], None);
    tenth(&[0, 2, 1], &[10, 8, 1], Some(19));
    tenth(&[0, 2, 0], &[10, 8, 2], Some(20));
    tenth(&[0, 0], &[10, 10], None);
    tenth(&[0, 0, 1], &[10, 10, 9], Some(29));
    tenth(&[0, 0, 0], &[10, 10, 10], Some(30));
    let at_tenth = |counts: &[u32]| standing(&[&[10; 18], counts].concat());
    refused(&copies(10), &at_tenth(&[4, 1, 0]), PLACES, 28);
    refused(&copies(10), &at_tenth(&[4, 0, 3, 0]), PLACES, 28);
    refused(&copies(10), &at_tenth(&[0, 0, 0, 0]), PLACES, 28);
    refused(&copies(10), &at_tenth(&[0, 2, 3]), PLACES, 29);
    refused(&copies(10), &at_tenth(&[0, 2, 10]), PLACES, 29);
}

/// The refusals in their order.
#[test]
fn refusals_in_order() {
    let (pins, nine, long) = (copies(10), copies(9), 1 << 10);
    refused(&nine[1..], &[long], 0, 1);
    refused(&nine, &[long], PLACES - 1, 18);
    refused(&pins, &[], PLACES - 1, 18);
    refused(&nine, &[], PLACES, 27);
    refused(&nine, &[long], PLACES, 27);
    // the pins of another rack, with a bit too many: 10 before 29; after the end: 10 before 28
    refused(&pins, &[1, long | 2], PLACES, 10);
    refused(&pins, &[&[0; 12][..], &[long]].concat(), PLACES, 10);
    refused(&pins, &[&[0; 12][..], &[FULL]].concat(), PLACES, 28);
    // an earlier ball's 29 before a later ball's 10, and an earlier 10 before a later 29
    refused(&pins, &[1, 2, long], PLACES, 29);
    refused(&pins, &[long, 1, 2], PLACES, 10);
    // a pin that stands again, as many as before or fewer
    refused(&pins, &[1, 3], PLACES, 29);
    refused(&pins, &[7, 8], PLACES, 29);
    // after a spare every pin may stand
    let mut answer = [MARK; PLACES];
    assert_eq!((score(&pins, &[7, 0, FULL, FULL], &mut answer), answer[2..6].to_vec()), (0, vec![7, 3, 0, 0]));
}

// ---- before and after a list of calls

/// A call of any kind at any signal.
fn some_call(r: &mut Random, net: &Net) -> [u64; 5] {
    let gate = |r: &mut Random| net.inputs as u64 + r.below(net.gates.len() as u64);
    match r.below(8) {
        0 | 1 => [0, gate(r), gate(r), 1 + r.below(4), 1 + r.below(4)],
        2 => [1, gate(r), 0, 0, 0],
        3 | 4 => [2, gate(r), 0, 0, 0],
        5 => [3, r.below(4), 0, 0, 0],
        6 => [4, gate(r), 0, 0, 0],
        _ => [5, 0, 0, 0, 0],
    }
}

/// Scores before and after a list of calls are equal, refusals too.
#[test]
fn scores_after_calls() {
    let mut r = Random::new(14);
    let mut reached = Reached::default();
    for n in 0..3_000 {
        let net = if n % 2 == 0 { some_pins(&mut r) } else { some_network(&mut r) };
        let file = paper::write(&net);
        let calls: Vec<[u64; 5]> = (0..r.below(12)).map(|_| some_call(&mut r, &net)).collect();
        let (mut answers, mut after) = (vec![0; 1 + 4 * calls.len()], vec![0; 11_000]);
        assert_eq!(run(&file, &calls.concat(), &mut answers, &mut after), 0);
        after.truncate(answers[0] as usize);
        reached.count("a changed network", file != after);
        reached.count("a gate less", after.len() > 8 && paper::read(&after).unwrap().gates.len() < net.gates.len());
        for _ in 0..4 {
            let shots = if n % 2 == 0 {
                let bowler = some_bowler(&mut r);
                let game = some_game(&mut r, &bowler);
                shown(&mut r, net.inputs, &game)
            } else {
                found_game(&mut r, &net)
            };
            let (mut before, mut now) = ([MARK; PLACES], [MARK; PLACES]);
            assert_eq!(score(&file, &shots, &mut before), score(&after, &shots, &mut now), "{file:?} {calls:?} {shots:?}");
            assert_eq!(before, now, "{file:?} {calls:?} {shots:?}");
            game_agrees(&mut reached, &after, &shots, PLACES);
        }
    }
    reached.at_least(&[("a changed network", 1_000), ("a gate less", 800), ("code 0", 3_000), ("unfinished, some scores", 500)]);
    reached.at_least(&[("code 10", 100), ("code 27", 200), ("code 28", 100), ("code 29", 300)]);
}
