//! Times of the proved library on the same inputs as the independent implementation, which tries everything, and as the exact method, which
//! finds a pair by one pass over its settings: in one process, and their ratios. All rows, or those of the kinds named on the command line:
//! file, preview, cut, score, frames, witness, pair, sweep, margins, alley, merge, undo.
use std::env;
use std::fs::{self, File};
use std::hint::black_box;
use std::process::Command;
use std::time::{Duration, Instant};
use yovrenik_tests as library;
use yovrenik_tests::direct;
use yovrenik_tests::exact;
use yovrenik_tests::generate::{
    fan, folding_chain, full_folding, full_standing, heavier, largest, largest_tolerant, last_setting_only, late_grid, lattice, lit_from,
    many_readers, mirrored, mixed_chain, most_passes, narrow, network, pins, ratio_31_32, shared_grid, standing_chain, Random,
};
use yovrenik_tests::reference::{self, Board, Net, Record};

/// The least mean time of one call over many short runs, so that other work of the machine counts little; a call that takes long is made
/// once.
fn time(mut call: impl FnMut()) -> Duration {
    let began = Instant::now();
    call();
    let once = began.elapsed();
    if once > Duration::from_millis(200) {
        return once;
    }
    let calls = (Duration::from_millis(2).as_nanos() / once.as_nanos().max(20)).max(1) as u32;
    let runs = (Duration::from_millis(500).as_nanos() / (once * calls).as_nanos().max(1)).clamp(3, 200);
    let run = |call: &mut dyn FnMut()| {
        let began = Instant::now();
        (0..calls).for_each(|_| call());
        began.elapsed() / calls
    };
    (0..runs).map(|_| run(&mut call)).min().unwrap()
}

/// The least times of several calls taken in turns, so that what the machine does meanwhile counts little in their differences.
fn times<const N: usize>(mut calls: [&mut dyn FnMut(); N]) -> [Duration; N] {
    let mut least = [Duration::MAX; N];
    for _ in 0..4 {
        for (call, least) in calls.iter_mut().zip(&mut least) {
            *least = time(&mut **call).min(*least);
        }
    }
    least
}

fn text(t: Duration) -> String {
    let us = t.as_nanos() as f64 / 1000.0;
    match us {
        us if us < 1000.0 => format!("{us:.2} µs"),
        us if us < 1_000_000.0 => format!("{:.2} ms", us / 1000.0),
        us => format!("{:.2} s", us / 1_000_000.0),
    }
}

/// How many times the first the second is.
fn ratio(first: Duration, second: Duration) -> String {
    let ratio = second.as_nanos() as f64 / first.as_nanos().max(1) as f64;
    if ratio < 10.0 {
        format!("{ratio:.2}")
    } else {
        format!("{ratio:.0}")
    }
}

/// One row: the library's time, the independent implementation's, and how many times the library's the latter is.
fn row(name: &str, ours: Duration, theirs: Duration) {
    println!("| {name} | {} | {} | {} |", text(ours), text(theirs), ratio(ours, theirs));
}

/// One row: the library's time, then with its ratio each that of the exact method written plainly, of the same by halves, and of trying
/// everything where that does not take hours.
fn search_row(name: &str, ours: Duration, plainly: Duration, by_halves: Duration, all: Option<Duration>) {
    let cell = |theirs: Duration| format!("{} | {}", text(theirs), ratio(ours, theirs));
    let all = all.map_or("– | –".to_string(), cell);
    println!("| {name} | {} | {} | {} | {all} |", text(ours), cell(plainly), cell(by_halves));
}

fn file_rows() {
    let net = largest(&mut Random::new(7));
    let file = reference::write(&net);
    let mut out = vec![0u8; file.len()];
    let mut answer = [0u64; 3];
    let read = time(|| {
        black_box(library::check(black_box(&file)));
    });
    let write = time(|| {
        black_box(library::write(black_box(&file), &mut out, &mut answer));
    });
    let frame = time(|| {
        black_box(library::frame(black_box(&file), 0x5A_5A5A_5A5A, &mut answer));
    });
    let read_too = time(|| {
        black_box(reference::read(black_box(&file)).unwrap());
    });
    let write_too = time(|| {
        black_box(reference::write(black_box(&net)));
    });
    let frame_too = time(|| {
        black_box(reference::frame(black_box(&net), 0x5A_5A5A_5A5A).unwrap());
    });
    row("read of the largest file", read, read_too);
    row("write of it (the call less the read)", write.saturating_sub(read), write_too);
    row("frame on a full network (the call less the read)", frame.saturating_sub(read), frame_too);
    row("read and frame on a full network", frame, read_too + frame_too);
}

/// The rows of a preview and of the collapse that it shows with one report after it, and how many times the latter the former is.
fn preview_row(name: &str, net: &Net, s: u64) {
    let collapsed = reference::collapse(net, s).unwrap();
    let want = reference::report(&collapsed);
    let (file, after) = (reference::write(net), reference::write(&collapsed));
    let run = |calls: &[u64], answers: &mut [u64], out: &mut [u8]| assert_eq!(library::run(black_box(&file), calls, answers, out), 0);
    let (mut shown, mut reported) = ([0u64; 3], [0u64; 3]);
    let (mut answers, mut out) = ([0u64; 5], vec![0u8; library::LONGEST_FILE]);
    let (mut answers_too, mut out_too) = (answers, out.clone());
    let [read, preview, read_and_write, collapse, read_after, report] = times([
        &mut || assert_eq!(library::check(black_box(&file)), 0),
        &mut || assert_eq!(library::preview(black_box(&file), s, &mut shown), 0),
        &mut || run(&[], &mut answers_too, &mut out_too),
        &mut || run(&[2, s, 0, 0, 0], &mut answers, &mut out),
        &mut || assert_eq!(library::check(black_box(&after)), 0),
        &mut || assert_eq!(library::report(black_box(&after), &mut reported), 0),
    ]);
    assert_eq!((shown, reported, answers), (want, want, [after.len() as u64, 0, 0, 0, 0]));
    assert_eq!(out[..after.len()], after);
    let preview = preview.saturating_sub(read);
    let both = collapse.saturating_sub(read_and_write) + report.saturating_sub(read_after);
    let [preview_too, collapse_too, report_too] = times([
        &mut || assert_eq!(reference::preview(black_box(net), s), Ok(want)),
        &mut || assert!(black_box(reference::collapse(black_box(net), s)).is_ok()),
        &mut || assert_eq!(reference::report(black_box(&collapsed)), want),
    ]);
    row(&format!("preview of {name} (the call less the read)"), preview, preview_too);
    row("the collapse of it and one report (the calls less reads and write)", both, collapse_too + report_too);
    println!("| a preview to the collapse and one report | {} | | |", ratio(both, preview));
}

fn preview_rows() {
    let full = full_folding();
    preview_row("a gate of a full network", &full, full.inputs as u64);
    let chain = folding_chain(128);
    preview_row("a gate of a chain of 128 gates", &chain, chain.inputs as u64);
    let net = largest(&mut Random::new(7));
    let unread = (net.inputs..net.outputs[0]).find(|&s| net.readers(s).is_empty()).unwrap();
    preview_row("a gate of the largest network that nothing reads", &net, unread as u64);
}

/// The rows of a cut of the one output of a network, with so many gates: the call less the read, and with it. Each has the write of the cut's
/// file.
fn cut_row(name: &str, net: &Net, gates: usize) {
    let (file, alone) = (reference::write(net), reference::cut(net, 0).unwrap());
    let want = reference::write(&alone);
    let (mut out, mut answer) = (vec![0u8; file.len()], [0u64; 1]);
    let [read, cut, read_too, cut_too] = times([
        &mut || assert_eq!(library::check(black_box(&file)), 0),
        &mut || assert_eq!(library::cut(black_box(&file), 0, &mut out, &mut answer), 0),
        &mut || drop(black_box(reference::read(black_box(&file)))),
        &mut || drop(black_box(reference::write(&reference::cut(black_box(net), 0).unwrap()))),
    ]);
    assert_eq!((alone.gates.len(), answer[0]), (gates, want.len() as u64));
    assert_eq!(out[..want.len()], want);
    row(&format!("cut, {name} (the call less the read)"), cut.saturating_sub(read), cut_too);
    row("read and cut of it", cut, read_too + cut_too);
}

fn cut_rows() {
    let lattice = lattice(&mut Random::new(10), 128);
    let lowest = Net { outputs: vec![lattice.inputs], ..lattice.clone() };
    cut_row("one gate needed of 128", &lowest, 1);
    cut_row("a chain of 128 gates, all needed", &folding_chain(128), 128);
    cut_row("a lattice of 128 gates with 16 feeds each, all needed", &lattice, 128);
}

/// Lists of frames on a full network, in one process: in one pass and one by one, each less the reads of the file; one by one by the
/// independent implementation; and in one call and in single calls, with their reads.
fn frames_rows() {
    let mut r = Random::new(8);
    let net = largest(&mut r);
    let file = reference::write(&net);
    let list: Vec<u64> = (0..64).map(|_| r.next() >> (64 - net.inputs)).collect();
    let (mut answers, mut answer) = ([0u64; 64], [0u64; 2]);
    for count in [1, 8, 16, 32, 33, 64] {
        let frames = &list[..count];
        let [read, together, single, theirs] = times([
            &mut || assert_eq!(library::check(black_box(&file)), 0),
            &mut || assert_eq!(library::frames(black_box(&file), frames, &mut answers), 0),
            &mut || frames.iter().for_each(|&x| assert_eq!(library::frame(black_box(&file), x, &mut answer), 0)),
            &mut || frames.iter().for_each(|&x| assert!(black_box(reference::frame(black_box(&net), x)).is_ok())),
        ]);
        let pass = together.saturating_sub(read);
        let readings = single.saturating_sub(read * count as u32);
        let cells = [(pass, readings), (pass, theirs), (together, single)].map(|(one, all)| format!("{} | {}", text(all), ratio(one, all)));
        println!("| {count} | {} | {} | {} | {} | {} |", text(pass), cells[0], cells[1], text(together), cells[2]);
    }
}

/// The row of a game, the call less the read.
fn score_row(name: &str, net: &Net, shots: &[u64]) {
    let file = reference::write(net);
    let want = reference::score(net, shots).unwrap();
    let mut answer = [0u64; 33];
    let [read, ours, theirs] = times([
        &mut || assert_eq!(library::check(black_box(&file)), 0),
        &mut || assert_eq!(library::score(black_box(&file), black_box(shots), &mut answer), 0),
        &mut || drop(black_box(reference::score(black_box(net), black_box(shots)))),
    ]);
    assert_eq!((answer[0], answer[22 + answer[1] as usize]), (shots.len() as u64, *want.scores.last().unwrap()));
    row(&format!("{name} (the call less the read)"), ours.saturating_sub(read), theirs);
}

fn score_rows() {
    let mut r = Random::new(9);
    let full = largest(&mut r);
    let leaves_some = |x: &u64| ![0, 1023].contains(&(reference::frame(&full, *x).unwrap().0 & 1023));
    let x = (0..).map(|_| r.next() >> (64 - full.inputs)).find(leaves_some).unwrap();
    score_row("game of 20 balls on a full network", &full, &[x; 20]);
    let spares = [&[[31, 0]; 10].concat()[..], &[31]].concat();
    score_row("game of 21 balls on ten gates", &pins(&mut r, 1), &spares);
    score_row("twelve strikes on 100 gates", &pins(&mut r, 10), &[0; 12]);
}

/// The row of a pair of the two gates of a network, and the library's time.
fn pair_row(name: &str, net: &Net, all: bool) -> Duration {
    let file = reference::write(net);
    let (u, v) = (net.inputs as u64, net.inputs as u64 + 1);
    let want = exact::pair(net, u, v);
    let mut answer = [0u64; 2];
    let ours = time(|| assert_eq!(library::pair(black_box(&file), u, v, &mut answer), want.err().unwrap_or(0)));
    assert_eq!((answer[0], answer[1]), want.unwrap_or((0, 0)));
    let plainly = time(|| assert_eq!(exact::pair(black_box(net), u, v), want));
    let by_halves = time(|| assert_eq!(exact::pair_by_halves(black_box(net), u, v), want));
    let all = all.then(|| time(|| assert_eq!(reference::pair(black_box(net), u, v), want)));
    search_row(name, ours, plainly, by_halves, all);
    ours
}

fn pair_rows() {
    let name = |n: usize| format!("pair, {n} distinct feeds, no pair, each disagrees on the last setting only");
    for n in [8, 10, 12, 14] {
        pair_row(&name(n), &last_setting_only(n), true);
    }
    // u's complement with the opposite vote: the searches see the same numbers
    let net = last_setting_only(16);
    let ours = pair_row(&name(16), &net, true);
    let against = pair_row("the same, mirrored: u votes against", &mirrored(&net, 16).unwrap(), false);
    println!("| a vote against to a vote for | {} | | | | | | |", ratio(ours, against));
    pair_row("pair, 16 distinct feeds, only 31 and 32 serve", &ratio_31_32(), false);
    let names = ["by settings", "by blocks", "by blocks, the most found since", "in two passes", "in two passes, 1 and 10 found"];
    for (name, net) in names.iter().zip(&most_passes()) {
        pair_row(&format!("pair, 16 distinct feeds, most passes known of a search {name}"), net, false);
    }
}

/// The library's sweep: how many gates it collapses, and its time with the read and the write.
fn swept(net: &Net) -> (u64, Duration) {
    let file = reference::write(net);
    let mut answers = [0u64; 5];
    let mut out = vec![0u8; library::LONGEST_FILE];
    let t = time(|| assert_eq!(library::run(black_box(&file), &[3, 128, 0, 0, 0], &mut answers, &mut out), 0));
    (answers[2], t)
}

/// The row of a sweep, and the library's time.
fn sweep_row(name: &str, net: &Net, folds: u64, all: bool) -> Duration {
    let (count, ours) = swept(net);
    let collapses = |find: reference::Find| reference::sweep_by(black_box(net), 128, find).unwrap().1.len() as u64;
    assert_eq!((count, collapses(exact::pair)), (folds, folds));
    let swept_by = |find: reference::Find| {
        time(|| {
            black_box(collapses(find));
        })
    };
    search_row(name, ours, swept_by(exact::pair), swept_by(exact::pair_by_halves), all.then(|| swept_by(reference::pair)));
    ours
}

/// The row of the witness of a merge with 1 and 1 of two gates with 16 distinct feeds: the times of the merge, with the read and the write,
/// and of its witness, with the read, and how many times a merge that agrees, which tries every setting, the witness takes.
fn witness_row(name: &str, net: &Net, want: u8) {
    let (file, agreeing) = (reference::write(net), reference::write(&lit_from(17)));
    let call = [0, 16, 17, 1, 1];
    let run = |file: &[u8], answers: &mut [u64], out: &mut [u8]| assert_eq!(library::run(black_box(file), &call, answers, out), 0);
    let (mut answers, mut out, mut answer) = ([0u64; 5], vec![0u8; library::LONGEST_FILE], [0u64; 1]);
    let (mut answers_too, mut out_too) = (answers, out.clone());
    let [merge, witness, whole] = times([
        &mut || run(&file, &mut answers, &mut out),
        &mut || assert_eq!(library::witness(black_box(&file), 16, 17, 1, 1, &mut answer), want),
        &mut || run(&agreeing, &mut answers_too, &mut out_too),
    ]);
    assert_eq!((answers[1], answers_too[1]), (want as u64, 0));
    println!("| {name} | {} | {} | {} |", text(merge), text(witness), ratio(whole, witness));
}

fn witness_rows() {
    witness_row("the merge agrees", &lit_from(17), 0);
    for least in [16, 14, 13, 12, 11, 10, 8, 6, 4, 2, 1] {
        witness_row(&format!("the two differ where {least} or more are lit"), &lit_from(least), 15);
    }
}

fn sweep_rows() {
    sweep_row("sweep of a full network, nothing folds", &full_standing(&mut Random::new(5)), 0, true);
    sweep_row("sweep of a full network that folds into one gate", &full_folding(), 127, true);
    for gates in [16, 32, 64, 128] {
        sweep_row(&format!("sweep, {gates} gates that fold into one"), &folding_chain(gates), gates as u64 - 1, true);
    }
    for gates in [16, 32, 64, 128] {
        sweep_row(&format!("sweep, {gates} gates, 8 distinct feeds, nothing folds"), &standing_chain(gates, 8), 0, true);
    }
    for gates in [16, 32, 64, 128] {
        sweep_row(&format!("sweep, {gates} gates, 16 distinct feeds, nothing folds"), &standing_chain(gates, 16), 0, false);
    }
    let mut before = None;
    for gates in [16, 32, 64, 128] {
        let name = format!("sweep, {gates} gates, the upper half folds, the lower half does not");
        let ours = sweep_row(&name, &mixed_chain(gates), gates as u64 / 2 - 1, false);
        if let Some(before) = before {
            println!("| twice the gates to the row before | {} | | | | | | |", ratio(before, ours));
        }
        before = Some(ours);
    }
    sweep_row("sweep, 16 outputs with 6 gates each that stand, and 8 that all share and that fold", &shared_grid(), 8, false);
    sweep_row("sweep, 8 gates that fold into each of 48 readers but the last", &many_readers(48), 47, false);
    sweep_row("sweep, 96 gates whose pairs differ on the last settings only", &late_grid(), 0, false);
}

/// A network with margins, and the same gates in version 1.
fn both_versions(net: &Net) -> [Net; 2] {
    [Net { board: Board::VERSION_1, ..net.clone() }, net.clone()]
}

/// One row: the library's times on a file of version 1 and on one of version 2 with the same gates and margins that they keep, and how many
/// times the former the latter is; then with its ratio each the independent implementation's times on the two.
fn margins_row(name: &str, ours: [Duration; 2], theirs: [Duration; 2]) {
    let cells = [0, 1].map(|i| format!("{} | {}", text(theirs[i]), ratio(ours[i], theirs[i])));
    println!("| {name} | {} | {} | {} | {} | {} |", text(ours[0]), text(ours[1]), ratio(ours[0], ours[1]), cells[0], cells[1]);
}

/// How long the test takes that a record is sound: a list of sweeps, each refused with 14 right after that test, less the empty list.
fn soundness(net: &Net) -> Duration {
    let file = reference::write(net);
    let calls = [3, 129, 0, 0, 0].repeat(16);
    let (mut answers, mut out) = ([0u64; 65], vec![0u8; library::LONGEST_FILE]);
    let (mut length, mut other) = ([0u64; 1], vec![0u8; library::LONGEST_FILE]);
    let [tested, empty] = times([
        &mut || assert_eq!(library::run(black_box(&file), &calls, &mut answers, &mut out), 0),
        &mut || assert_eq!(library::run(black_box(&file), &[], &mut length, &mut other), 0),
    ]);
    assert!(answers[1..].chunks(4).all(|answer| answer == [14, 0, 0, 0]));
    tested.saturating_sub(empty) / 16
}

/// Full files: the read, the test of the record, a frame and a report with their reads.
fn full_margins_rows() {
    let nets = both_versions(&largest_tolerant(&mut Random::new(7)));
    let taken = nets.each_ref().map(|net| {
        let file = reference::write(net);
        let x = 0x5A_5A5A_5A5A;
        let (mut answer, mut size) = ([0u64; 2], [0u64; 3]);
        times([
            &mut || assert_eq!(library::check(black_box(&file)), 0),
            &mut || assert_eq!(library::frame(black_box(&file), x, &mut answer), 0),
            &mut || assert_eq!(library::report(black_box(&file), &mut size), 0),
            &mut || assert!(black_box(reference::read(black_box(&file))).is_ok()),
            &mut || assert!(black_box(reference::frame(black_box(net), x)).is_ok()),
            &mut || assert_eq!(black_box(reference::report(black_box(net)))[0], 128),
        ])
    });
    let with_read = |i: usize| taken.map(|times| times[3] + times[i]);
    margins_row("read of the largest file", taken.map(|times| times[0]), taken.map(|times| times[3]));
    let [first, second] = nets.each_ref().map(soundness);
    println!("| soundness of its record | {} | {} | {} | – | – | – | – |", text(first), text(second), ratio(first, second));
    margins_row("read of it and frame", taken.map(|times| times[1]), with_read(4));
    margins_row("read of it and report", taken.map(|times| times[2]), with_read(5));
}

/// Pairs of the two gates of a network, less the read, against the exact method: its form for any margins in version 2.
fn pair_margins_row(name: &str, net: &Net, want: [reference::Answer<(u64, u64)>; 2]) {
    let (u, v) = (net.inputs as u64, net.inputs as u64 + 1);
    let nets = both_versions(net);
    let finds: [reference::Find; 2] = [exact::pair, exact::pair_with_margins];
    let taken = [0, 1].map(|i| {
        let (file, want) = (reference::write(&nets[i]), want[i]);
        let mut answer = [0u64; 2];
        let [read, pair, theirs] = times([
            &mut || assert_eq!(library::check(black_box(&file)), 0),
            &mut || assert_eq!(library::pair(black_box(&file), u, v, &mut answer), want.err().unwrap_or(0)),
            &mut || assert_eq!(finds[i](black_box(&nets[i]), u, v), want),
        ]);
        assert_eq!((answer[0], answer[1]), want.unwrap_or((0, 0)));
        (pair.saturating_sub(read), theirs)
    });
    margins_row(name, taken.map(|t| t.0), taken.map(|t| t.1));
}

/// Sweeps with the read and the write, and by the independent implementation with the pairs found by the exact method.
fn sweep_margins_row(name: &str, net: &Net, folds: u64) {
    let nets = both_versions(net);
    let finds: [reference::Find; 2] = [exact::pair, exact::pair_with_margins];
    let taken = [0, 1].map(|i| {
        let (count, ours) = swept(&nets[i]);
        assert_eq!(count, folds);
        let theirs = time(|| assert_eq!(reference::sweep_by(black_box(&nets[i]), 128, finds[i]).unwrap().1.len() as u64, folds));
        (ours, theirs)
    });
    margins_row(name, taken.map(|t| t.0), taken.map(|t| t.1));
}

fn margins_rows() {
    full_margins_rows();
    let name = |what: &str| format!("pair, 16 distinct feeds, {what} (the call less the read)");
    pair_margins_row(&name("1 and 1 in both"), &narrow(1), [Ok((1, 1)); 2]);
    pair_margins_row(&name("1 and 1, with margins 32 and 32"), &narrow(32), [Ok((1, 1)), Ok((32, 32))]);
    pair_margins_row(&name("1 and 1, with margins none"), &narrow(33), [Ok((1, 1)), Err(16)]);
    let only = Net { board: Board::version_2(255, 39), ..ratio_31_32() };
    pair_margins_row(&name("31 and 32 in both"), &only, [Ok((31, 32)); 2]);
    let none = Net { board: Board::version_2(32, 1), ..last_setting_only(16) };
    pair_margins_row(&name("none in both, each disagrees on the last setting only"), &none, [Err(16); 2]);
    for gates in [32, 64, 128] {
        sweep_margins_row(&format!("sweep, {gates} gates that fold into one"), &heavier(&folding_chain(gates)), gates as u64 - 1);
    }
    sweep_margins_row("sweep of a full network that folds into one gate", &heavier(&full_folding()), 127);
}

/// A run of lanes with these files, again and again.
fn alley(files: &[Vec<u8>], lanes: usize) -> Vec<u8> {
    let lane = |file: &Vec<u8>| [&(file.len() as u16).to_le_bytes(), &file[..]].concat();
    files.iter().cycle().take(lanes).flat_map(lane).collect()
}

/// One row: the program `alley` from a file to a pipe, the independent implementation and the one pass on bytes at hand, each with how many
/// million bytes it takes in a second.
fn alley_row(name: &str, bytes: &[u8]) {
    let path = env::temp_dir().join(format!("alley-{}", std::process::id()));
    fs::write(&path, bytes).unwrap();
    let program = || {
        let program = concat!(env!("CARGO_MANIFEST_DIR"), "/../target/bin/alley");
        Command::new(program).stdin(File::open(&path).unwrap()).output().expect("`tests/library/make alley` makes the program").stdout
    };
    assert_eq!(program(), direct::alley(bytes));
    assert_eq!(program(), reference::alley(bytes).into_bytes());
    let [ours, theirs, one_pass] = times([
        &mut || drop(black_box(program())),
        &mut || drop(black_box(reference::alley(black_box(bytes)))),
        &mut || drop(black_box(direct::alley(black_box(bytes)))),
    ]);
    fs::remove_file(&path).unwrap();
    let cell = |t: Duration| format!("{} ({:.0} MB/s)", text(t), bytes.len() as f64 / 1e6 / t.as_secs_f64());
    let [a, b, c] = [ours, theirs, one_pass].map(cell);
    println!("| {name}, {:.1} MB | {a} | {b} | {} | {c} | {} |", bytes.len() as f64 / 1e6, ratio(ours, theirs), ratio(ours, one_pass));
}

fn alley_rows() {
    let mut r = Random::new(41);
    let small: Vec<Vec<u8>> = (0..100).map(|_| reference::write(&network(&mut r, 20, 6))).collect();
    let large = reference::write(&largest(&mut r));
    alley_row("65,535 small lanes", &alley(&small, 65_535));
    alley_row("2,000 of the largest lanes", &alley(&[large], 2_000));
    alley_row("65,535 lanes without a file", &alley(&[vec![]], 65_535));
}

/// The row of a list of calls that are accepted, by one run less that of the empty list, and by the independent implementation, which finds
/// pairs by the exact method.
fn list_row(name: &str, net: &Net, calls: &[[u64; 5]]) {
    let (file, numbers, read) = (reference::write(net), calls.concat(), Record::just_read(net.clone()));
    let one = |record: Record, call: &[u64; 5]| reference::call_by(&record, call, exact::pair).unwrap().1;
    let all = || calls.iter().fold(black_box(&read).clone(), one);
    let (mut answers, mut out) = (vec![0u64; 1 + 4 * calls.len()], vec![0u8; library::LONGEST_FILE]);
    let (mut length, mut other) = ([0u64; 1], vec![0u8; library::LONGEST_FILE]);
    let [ours, empty, theirs] = times([
        &mut || assert_eq!(library::run(black_box(&file), &numbers, &mut answers, &mut out), 0),
        &mut || assert_eq!(library::run(black_box(&file), &[], &mut length, &mut other), 0),
        &mut || drop(black_box(all())),
    ]);
    let after = reference::write(&all().net);
    assert!(answers[1..].iter().all(|&a| a == 0) && out[..answers[0] as usize] == after);
    row(&format!("{name} (the list less the read and the write)"), ours.saturating_sub(empty), theirs);
}

/// Calls that fold the first gate of a network, and how many undos the journal then has for them: all, or 64 of 128 steps.
fn folds() -> [(&'static str, Net, [u64; 5], usize); 6] {
    let (full, chain) = (full_folding(), folding_chain(128));
    let [some, many] = [63, 127].map(|readers| fan(&mut Random::new(9), readers));
    let collapse = |net: &Net| [2, net.inputs as u64, 0, 0, 0];
    [
        ("merge on a full network, 16 distinct feeds", full.clone(), [0, 16, 17, 1, 1], 1),
        ("merge in a chain of 128 gates", chain.clone(), [0, 16, 17, 1, 1], 1),
        ("collapse of a gate of a full network", full.clone(), collapse(&full), 2),
        ("collapse of a gate of a chain of 128 gates", chain.clone(), collapse(&chain), 2),
        ("collapse of a gate with 63 readers", some.clone(), collapse(&some), 64),
        ("collapse of a gate with 127 readers", many.clone(), collapse(&many), 64),
    ]
}

fn merge_rows() {
    folds().iter().for_each(|(name, net, call, _)| list_row(name, net, &[*call]));
}

fn undo_rows() {
    for (name, net, call, undos) in folds() {
        let back = vec![[5, 0, 0, 0, 0]; undos];
        list_row(&format!("{name}, then {undos} undo{}", if undos == 1 { "" } else { "s" }), &net, &[&[call], &back[..]].concat());
    }
}

/// A table of the kinds of rows that are named on the command line, or of all where none is.
fn table(head: &str, kinds: &[(&str, fn())]) {
    let words: Vec<String> = env::args().skip(1).filter(|word| !word.starts_with('-')).collect();
    let asked = |kind: &str| words.is_empty() || words.iter().any(|word| word == kind);
    if kinds.iter().any(|(kind, _)| asked(kind)) {
        println!("{head}\n|{}", "---|".repeat(head.matches('|').count() - 1));
        kinds.iter().filter(|(kind, _)| asked(kind)).for_each(|(_, rows)| rows());
        println!();
    }
}

fn main() {
    table(
        "| on | library | independent | ratio |",
        &[("file", file_rows), ("preview", preview_rows), ("cut", cut_rows), ("score", score_rows)],
    );
    table(
        "| frames | one pass | single readings | ratio | independent | ratio | one call | single calls | ratio |",
        &[("frames", frames_rows)],
    );
    table("| witness, 16 distinct feeds | merge | witness | to a merge that agrees |", &[("witness", witness_rows)]);
    let head = "| on | library | exact method | ratio | the same by halves | ratio | plain search | ratio |";
    table(head, &[("pair", pair_rows), ("sweep", sweep_rows)]);
    let head = "| margins | version 1 | version 2 | to version 1 | independent, version 1 | ratio | independent, version 2 | ratio |";
    table(head, &[("margins", margins_rows)]);
    table("| alley | program | independent | ratio | one pass | ratio |", &[("alley", alley_rows)]);
    table("| lists | library | independent | ratio |", &[("merge", merge_rows), ("undo", undo_rows)]);
}
