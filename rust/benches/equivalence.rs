//! The proved comparison and the solver clasp on the same pairs of masks, in one run: masks and their folds, two folds of one mask, single
//! merges, every threshold and every weight of a fold moved by one, and adders, multipliers and sorters made in two ways. Without clasp on the
//! PATH its columns are empty.
//!
//!     cargo bench --offline --target-dir ../target/rust --bench equivalence -- [TIMES [STEPS]] [WORD ..]
//!
//! TIMES is how many times as many pairs are taken as usual, STEPS the budget of a comparison. With words only the rows are made whose name
//! has one of them. A pair that is wrong, undecided or slow is named below the table, and its two files are left in target/rust/tmp.
use std::env;
use std::fs;
use std::path::{Path, PathBuf};
use std::time::{Duration, Instant};
use yovrenik_tests as library;
use yovrenik_tests::generate::{full_folding, largest, mixed_chain, shared_grid, Random};
use yovrenik_tests::pairs::{folded, merges, moved_thresholds, moved_weights, parting_frame, swept};
use yovrenik_tests::reference::{self, Net};
use yovrenik_tests::solver;
use yovrenik_tests::structures::{adder, chain_from, chain_to, multiplier, rack, sorters, tangle, Adding, Carries, Sorting};

/// The budget of a comparison where none is given.
const STEPS: u64 = 1_000_000;

/// How long clasp has for a question, in seconds.
const LIMIT: u32 = 5;

/// A pair that takes longer is named.
const SLOW: Duration = Duration::from_millis(50);

/// Up to so many inputs a verdict is held against all frames.
const FEW: usize = 16;

/// Two networks to compare.
type Pair = (Net, Net);

/// The verdict and the frame of a comparison.
#[derive(Clone, Copy, PartialEq, Eq, Debug)]
enum Verdict {
    Alike,
    Apart(u64),
    Undecided,
}

/// The least of three times of a piece of work, or its only one where it takes long, and what it gives.
fn timed<T>(mut work: impl FnMut() -> (T, Duration)) -> (T, Duration) {
    let (result, first) = work();
    let more = if first < Duration::from_millis(20) { 2 } else { 0 };
    (result, (0..more).map(|_| work().1).fold(first, Duration::min))
}

/// The library's verdict, and its time.
fn compared(first: &[u8], second: &[u8], steps: u64) -> (Verdict, Duration) {
    timed(|| {
        let mut answer = [0; 3];
        let began = Instant::now();
        assert_eq!(library::compare(first, second, steps, &mut answer), 0);
        let taken = began.elapsed();
        let verdict = match answer[0] {
            0 => Verdict::Alike,
            1 => Verdict::Apart(answer[1]),
            _ => Verdict::Undecided,
        };
        (verdict, taken)
    })
}

/// Whether a verdict is wrong: by the frame that it gives, by clasp, or by all frames where these are few.
fn is_wrong((first, second): &Pair, verdict: Verdict, solvable: Option<bool>) -> bool {
    match verdict {
        Verdict::Alike => solvable == Some(true) || first.inputs <= FEW && parting_frame(first, second).is_some(),
        Verdict::Apart(x) => solvable == Some(false) || reference::frame(first, x).unwrap() == reference::frame(second, x).unwrap(),
        Verdict::Undecided => false,
    }
}

fn milliseconds(time: Duration) -> String {
    format!("{:.2}", 1000.0 * time.as_secs_f64())
}

/// A pair measured: the verdict, whether it is wrong, the time, and where clasp decides it too the time of its process and the time that it
/// says it took.
#[derive(Clone, Copy)]
struct Measured {
    verdict: Verdict,
    wrong: bool,
    taken: Duration,
    clasp: Option<[Duration; 2]>,
}

/// A row of the table.
fn print_row(name: &str, pairs: &[Measured]) {
    let count = |test: fn(&Measured) -> bool| pairs.iter().filter(|pair| test(pair)).count();
    let verdicts = [
        count(|pair| pair.verdict == Verdict::Alike),
        count(|pair| matches!(pair.verdict, Verdict::Apart(_))),
        count(|pair| pair.verdict == Verdict::Undecided),
        count(|pair| pair.wrong),
    ];
    let taken: Duration = pairs.iter().map(|pair| pair.taken).sum();
    let slowest = pairs.iter().map(|pair| pair.taken).max().unwrap_or_default();
    let [alike, apart, undecided, wrong] = verdicts;
    let ours = format!("{alike} | {apart} | {undecided} | {wrong} | {} | {}", milliseconds(taken), milliseconds(slowest));
    println!("| {name} | {} | {ours} | {} |", pairs.len(), clasp_cells(pairs));
}

/// How many pairs clasp decides too, and its times for them, each with how many times the library's it is.
fn clasp_cells(pairs: &[Measured]) -> String {
    let both: Vec<(Duration, [Duration; 2])> = pairs.iter().filter_map(|pair| Some((pair.taken, pair.clasp?))).collect();
    if both.is_empty() {
        return ["–"; 5].join(" | ");
    }
    let ours: Duration = both.iter().map(|pair| pair.0).sum();
    let cells = [0, 1].map(|i| {
        let theirs: Duration = both.iter().map(|pair| pair.1[i]).sum();
        format!("{} | {:.1}", milliseconds(theirs), theirs.as_secs_f64() / ours.as_secs_f64())
    });
    format!("{} | {}", both.len(), cells.join(" | "))
}

/// What is asked for on the command line, and where questions and pairs are written.
struct Asked {
    times: usize,
    steps: u64,
    words: Vec<String>,
    clasp: bool,
    folder: PathBuf,
}

impl Asked {
    fn read() -> Asked {
        let words = env::args().skip(1).filter(|word| !word.starts_with('-'));
        let (numbers, words): (Vec<String>, Vec<String>) = words.partition(|word| word.parse::<u64>().is_ok());
        let number = |place: usize| numbers.get(place).map(|word| word.parse::<u64>().unwrap());
        let (times, steps) = (number(0).unwrap_or(1) as usize, number(1).unwrap_or(STEPS));
        Asked { times, steps, words, clasp: solver::is_there(), folder: PathBuf::from(env!("CARGO_TARGET_TMPDIR")) }
    }

    fn wants(&self, name: &str) -> bool {
        self.words.is_empty() || self.words.iter().any(|word| name.contains(word.as_str()))
    }

    /// Whether clasp finds a solution, and its two times.
    fn ask_clasp(&self, files: &[Vec<u8>; 2]) -> (Option<bool>, [Duration; 2]) {
        let path = self.folder.join("question.opb");
        let (said, taken) = timed(|| {
            let said = solver::ask(&path, &files[0], &files[1], LIMIT);
            let taken = said.taken;
            (said, taken)
        });
        (said.solvable, [taken, said.itself])
    }
}

/// What the pairs of a row have in common.
#[derive(Clone, Copy)]
enum Kind {
    Folds,
    NearMisses,
    TwoWays,
}

/// The rows of a table, what they have in sum for each kind, and the pairs that are named below it.
struct Table {
    asked: Asked,
    sums: [Vec<Measured>; 3],
    named: Vec<String>,
}

impl Table {
    fn new(asked: Asked) -> Table {
        let ours = "pairs | number | alike | apart | undecided | wrong | ms | slowest";
        let clasp = "both decide | clasp, ms | ratio | by its own count, ms | ratio";
        println!("| {ours} | {clasp} |\n|{}", "---|".repeat(13));
        Table { asked, sums: [vec![], vec![], vec![]], named: vec![] }
    }

    fn measured(&mut self, name: &str, pair: &Pair) -> Measured {
        let files = [&pair.0, &pair.1].map(reference::write);
        let (verdict, taken) = compared(&files[0], &files[1], self.asked.steps);
        let (solvable, times) = if self.asked.clasp { self.asked.ask_clasp(&files) } else { (None, [Duration::ZERO; 2]) };
        let wrong = is_wrong(pair, verdict, solvable);
        if wrong || verdict == Verdict::Undecided || taken > SLOW {
            let how = if wrong { "WRONG, " } else { "" };
            self.named.push(format!("{name}: {how}{verdict:?} in {} ms, clasp says {solvable:?}", milliseconds(taken)));
            for (end, file) in ["first", "second"].iter().zip(&files) {
                fs::write(self.asked.folder.join(format!("{name}.{end}.pmn")), file).unwrap();
            }
        }
        let both = solvable.is_some() && verdict != Verdict::Undecided;
        Measured { verdict, wrong, taken, clasp: both.then_some(times) }
    }

    /// A row over some pairs.
    fn row(&mut self, kind: Kind, name: &str, pairs: impl FnOnce(usize) -> Vec<Pair>) {
        if !self.asked.wants(name) {
            return;
        }
        let pairs = pairs(self.asked.times);
        let row: Vec<Measured> = pairs.iter().zip(0..).map(|(pair, n)| self.measured(&format!("{name} {n}"), pair)).collect();
        print_row(name, &row);
        self.sums[kind as usize].extend(row);
    }

    /// The rows over masks: their folds, two folds of each, single merges, and near misses of their folds, so many at most for each mask.
    fn rows(&mut self, name: &str, most: usize, masks: impl Fn(&mut Random, usize) -> Vec<Net>) {
        let each = |times: usize, others: &dyn Fn(&mut Random, &Net) -> Vec<Pair>| {
            let mut r = Random::new(17);
            let masks = masks(&mut r, times);
            masks.iter().flat_map(|net| some(&mut r, most, |r| others(r, net))).collect::<Vec<Pair>>()
        };
        let with = |net: &Net, others: Vec<Net>| others.into_iter().map(|other| (net.clone(), other)).collect::<Vec<Pair>>();
        let [folds, two, single] = [" and their folds", ", two folds of each", ", single merges"].map(|what| format!("{name}{what}"));
        self.row(Kind::Folds, &folds, |times| each(times, &|_, net| with(net, vec![swept(net)])));
        self.row(Kind::Folds, &two, |times| each(times, &|r, net| vec![(folded(r, net), folded(r, net))]));
        self.row(Kind::Folds, &single, |times| each(times, &|r, net| with(net, merges(r, net, most))));
        let [thresholds, weights] = ["thresholds", "weights"].map(|what| format!("{name}, {what} of their folds moved"));
        self.row(Kind::NearMisses, &thresholds, |times| each(times, &|_, net| with(net, moved_thresholds(&swept(net)))));
        self.row(Kind::NearMisses, &weights, |times| each(times, &|_, net| with(net, moved_weights(&swept(net)))));
    }

    /// The sums, and the pairs to look at.
    fn end(&self) {
        let names = ["all of one mask: folds and merges", "all near misses", "all that are made in two ways"];
        names.iter().zip(&self.sums).for_each(|(name, pairs)| print_row(name, pairs));
        print_row("all", &self.sums.concat());
        println!();
        self.named.iter().for_each(|pair| println!("{pair}"));
    }
}

/// At most so many of some pairs, any of them.
fn some(r: &mut Random, most: usize, pairs: impl FnOnce(&mut Random) -> Vec<Pair>) -> Vec<Pair> {
    let mut pairs = pairs(r);
    while pairs.len() > most {
        pairs.swap_remove(r.below(pairs.len() as u64) as usize);
    }
    pairs
}

/// Adders of 2 x 20 bits and fewer, with the highest 16 bits of their sums, or 4 of them, which leaves more to fold.
fn adders(times: usize) -> Vec<Net> {
    let carries = [Carries::Ripple, Carries::Groups(2), Carries::Groups(4), Carries::LookAhead(3), Carries::LookAhead(5)];
    let sizes = (0..times).flat_map(|less| [(20 - less % 8, 16 - less / 8 % 4), (20 - less % 8, 4)]);
    sizes.flat_map(|(bits, outputs)| carries.map(|carries| adder(bits, outputs.min(bits), carries))).collect()
}

/// Ripple adders and the same with look-ahead.
fn two_adders(times: usize) -> Vec<Pair> {
    let others = (2..=7).flat_map(|width| [Carries::Groups(width), Carries::LookAhead(width)]);
    let pair = |bits: usize, outputs: usize, other: Carries| (adder(bits, outputs, Carries::Ripple), adder(bits, outputs, other));
    let sizes = (0..times).flat_map(|less| [(20 - less % 8, 12), (20 - less % 8, 3)]);
    sizes.flat_map(|(bits, outputs)| others.clone().map(move |other| pair(bits, outputs, other))).collect()
}

/// The sizes of multipliers: the last three have more than 20 inputs.
const SIZES: [(usize, usize); 8] = [(4, 4), (5, 5), (6, 5), (6, 6), (8, 4), (19, 2), (20, 2), (18, 3)];

fn multipliers_by(adding: Adding) -> Vec<Net> {
    SIZES.map(|(first, second)| multiplier(first, second, adding)).to_vec()
}

/// Sorters side by side or alone: how many, of how many wires, and the places that are outputs.
const SORTERS: [(usize, usize, usize, usize); 12] = [
    (10, 4, 1, 2),
    (8, 5, 2, 3),
    (6, 6, 2, 4),
    (5, 7, 3, 4),
    (5, 8, 0, 3),
    (4, 8, 3, 5),
    (3, 8, 1, 6),
    (1, 12, 0, 12),
    (1, 16, 0, 16),
    (2, 12, 0, 3),
    (1, 20, 0, 3),
    (2, 16, 0, 1),
];

fn sorters_by(sorting: Sorting) -> Vec<Net> {
    SORTERS.map(|(count, wires, from, end)| sorters(count, wires, from..end, sorting)).to_vec()
}

/// Whether a file describes the network.
fn described(net: &Net) -> bool {
    library::check(&reference::write(net)) == 0
}

/// The networks of all ways that files describe.
fn all_ways(ways: &[Vec<Net>]) -> Vec<Net> {
    ways.concat().into_iter().filter(described).collect()
}

/// Any two ways of each network, where files describe both.
fn two_ways(ways: &[Vec<Net>]) -> Vec<Pair> {
    let any_two = (0..ways.len()).flat_map(|one| (one + 1..ways.len()).map(move |other| (&ways[one], &ways[other])));
    let pairs = any_two.flat_map(|(one, other)| one.iter().cloned().zip(other.iter().cloned()));
    pairs.filter(|(one, other)| described(one) && described(other)).collect()
}

/// Chains of 40 patches, each with the last gate's or the first gate's threshold moved by one: they part on one frame.
fn hidden(times: usize) -> Vec<Pair> {
    let mut r = Random::new(19);
    let pairs = (0..20 * times).map(|_| {
        let frame = (r.next() >> 24) & !1;
        let (to, from) = (chain_to(frame, 40), chain_from(frame, 40));
        let (mut last, mut first) = (folded(&mut r, &to), from.clone());
        last.gates.last_mut().unwrap().threshold += 1;
        first.gates[0].threshold += 1;
        [(to, last), (folded(&mut r, &from), first)]
    });
    pairs.flatten().collect()
}

fn chains(r: &mut Random, times: usize) -> Vec<Net> {
    (0..4 * times).map(|n| if n % 2 == 0 { chain_to(r.next() >> 24, 40) } else { chain_from(r.next() >> 24, 40) }).collect()
}

/// One row for each sample: its time against its fold.
fn samples(steps: u64) {
    println!("\n| sample and its fold | gates | verdict | ms |\n|---|---|---|---|");
    let folder = Path::new(env!("CARGO_MANIFEST_DIR")).join("../samples");
    let mut paths: Vec<PathBuf> = fs::read_dir(folder).unwrap().map(|entry| entry.unwrap().path()).collect();
    paths.retain(|path| path.extension().is_some_and(|end| end == "pmn"));
    paths.sort();
    for path in paths {
        let net = reference::read(&fs::read(&path).unwrap()).unwrap();
        let fold = swept(&net);
        let (verdict, taken) = compared(&reference::write(&net), &reference::write(&fold), steps);
        let name = path.file_name().unwrap().to_string_lossy().into_owned();
        println!("| {name} | {} and {} | {verdict:?} | {} |", net.gates.len(), fold.gates.len(), milliseconds(taken));
    }
}

fn main() {
    let multipliers = [Adding::Rows, Adding::RowsOfTheFirst, Adding::Columns].map(multipliers_by);
    let sorters = [Sorting::Counting, Sorting::Bubbling, Sorting::Neighbours, Sorting::Merging].map(sorters_by);
    let mut table = Table::new(Asked::read());
    table.rows("racks", 10, |r, times| (0..12 * times).map(|n| rack(r, 2 + n % 12)).collect());
    table.rows("adders", 8, |_, times| adders(times));
    table.rows("multipliers", 4, |_, _| all_ways(&multipliers));
    table.rows("sorters", 4, |_, _| all_ways(&sorters[1..]));
    table.rows("chains", 12, chains);
    table.rows("folding networks", 10, |_, _| vec![full_folding(), mixed_chain(64), shared_grid()]);
    table.rows("narrow random networks", 12, |r, times| (0..5 * times).map(|n| tangle(r, 40, 128, 1..4 + n % 3, 3)).collect());
    table.rows("random networks", 10, |r, times| (0..4 * times).map(|n| tangle(r, 40, 128, 2..9, [1, 9][n % 2])).collect());
    table.rows("wide random networks", 4, |r, times| (0..3 * times).map(|n| tangle(r, 40, 128, 16..17, [1, 9, 1000][n % 3])).collect());
    table.rows("largest networks", 2, |r, times| (0..times).map(|_| largest(r)).collect());
    table.row(Kind::NearMisses, "chains that part on one frame", hidden);
    table.row(Kind::TwoWays, "ripple adders and adders with look-ahead", two_adders);
    table.row(Kind::TwoWays, "multipliers made in two ways", |_| two_ways(&multipliers));
    table.row(Kind::TwoWays, "sorters made in two ways", |_| two_ways(&sorters));
    table.end();
    samples(table.asked.steps);
}
