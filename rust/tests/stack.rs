//! How much stack the calls take, on a thread whose stack was painted before: no more than include/pmn.h says.
use std::hint::black_box;
use std::thread;
use yovrenik_tests as library;
use yovrenik_tests::generate::{self, Random};
use yovrenik_tests::pairs;
use yovrenik_tests::reference::{self, Net};
use yovrenik_tests::structures::{self, Carries};

const STACK: usize = 4 << 20;
const PAINTED: usize = 1 << 20;
const OWN: usize = 1 << 12;
const PAINT: u8 = 0xA5;

/// No function may take more than this, in bytes.
const MOST: usize = 128 * 1024;

/// The stack that include/pmn.h says a function takes, in bytes: `Stack: n KB.` in the comment before its declaration.
fn stated(function: &str) -> usize {
    let header = include_str!("../../include/pmn.h");
    let declared = header.find(&format!("uint8_t {function}(")).expect("include/pmn.h does not declare it");
    let comment = &header[header[..declared].rfind("/*").unwrap()..declared];
    let number = comment.split("Stack: ").nth(1).and_then(|rest| rest.split(' ').next()).expect("include/pmn.h states no stack");
    number.parse::<usize>().unwrap() * 1024
}

/// The places that are painted, from the lowest on: those below a place near the top of the stack, the frames of this file aside.
fn places(top: usize) -> impl Iterator<Item = *mut u8> {
    (top - PAINTED..top - OWN).map(|place| place as *mut u8)
}

/// Paints the stack. Nothing else stands there: it is below the frame of every function that runs.
#[inline(never)]
fn paint(top: usize) {
    places(top).for_each(|place| unsafe { place.write_volatile(PAINT) });
}

/// How far down the paint is gone.
#[inline(never)]
fn gone(top: usize) -> usize {
    PAINTED - places(top).take_while(|place| unsafe { place.read_volatile() } == PAINT).count()
}

/// The stack that a piece of work takes.
fn taken(work: impl FnOnce() + Send + 'static) -> usize {
    let thread = thread::Builder::new().stack_size(STACK).spawn(move || {
        let here = 0u8;
        let top = black_box(&here) as *const u8 as usize;
        paint(top);
        work();
        gone(top)
    });
    thread.unwrap().join().unwrap()
}

fn files() -> Vec<Vec<u8>> {
    let mut r = Random::new(5);
    let nets: Vec<Net> = vec![
        generate::largest(&mut r),
        generate::largest_tolerant(&mut r),
        generate::full_folding(),
        generate::folding_chain(128),
        generate::mixed_chain(32),
        generate::fan(&mut r, 127),
        generate::last_setting_only(16),
        generate::ratio_31_32(),
        generate::lattice(&mut r, 128),
    ];
    nets.iter().map(|net| reference::write(net)).collect()
}

/// Every kind of call at every gate, and undos after each.
fn every_call(inputs: u64, gates: u64) -> Vec<u64> {
    let mut calls = Vec::new();
    for s in inputs..inputs + gates {
        calls.extend([0, s, s + 1, 1, 1, 5, 0, 0, 0, 0, 4, s, 0, 0, 0, 2, s, 0, 0, 0, 5, 0, 0, 0, 0, 1, s, 0, 0, 0, 5, 0, 0, 0, 0]);
    }
    calls.extend([3, 128, 0, 0, 0]);
    for _ in 0..66 {
        calls.extend([5, 0, 0, 0, 0]);
    }
    calls
}

/// What include/pmn.h says is enough, and not much more than is taken.
fn within(function: &str, used: usize) {
    let most = stated(function);
    println!("{function}: {used} bytes of {most}");
    assert!(most <= MOST, "include/pmn.h says {most} bytes of stack for {function}");
    assert!(used <= most, "{function} took {used} bytes of stack, and include/pmn.h says {most}");
    assert!(most <= used + 4096, "{function} took {used} bytes of stack, and include/pmn.h says as much as {most}");
}

/// The stack that a function takes, at the most, on each of the files.
fn most_taken(work: impl Fn(&[u8], u64, u64) + Copy + Send + 'static) -> usize {
    let each = files().into_iter().map(|file| {
        let head = if file[3] == 1 { 5 } else { 7 };
        let (first, gates) = (file[head] as u64, file[head + 1] as u64);
        taken(move || work(&file, first, first + gates))
    });
    each.max().unwrap()
}

#[test]
fn runs() {
    let used = [true, false].map(|roomy| {
        most_taken(move |file, first, last| {
            let calls = every_call(first, last - first);
            let mut answers = vec![0; 1 + 4 * (calls.len() / 5)];
            let mut out = vec![0; if roomy { library::LONGEST_FILE } else { file.len() }];
            let code = library::run(file, &calls, &mut answers, &mut out);
            assert!(code == 0 || code == 18 && !roomy);
        })
    });
    within("pmn_run", used[0].max(used[1]));
}

/// Among the files are the cuts that go down the most gates: a chain whose lowest gate has 16 inputs, and the lattice, where most gates are
/// met 16 times.
#[test]
fn cuts() {
    let used = most_taken(|file, _, _| {
        let (mut out, mut answer) = (vec![0; library::LONGEST_FILE], [0; 1]);
        assert_eq!(library::cut(file, 0, &mut out, &mut answer), 0);
        for output in 1..16 {
            library::cut(file, output, &mut out, &mut answer);
        }
    });
    within("pmn_cut", used);
}

/// A game of 21 balls, one of twelve strikes, and one that is refused, on networks of ten pins and more.
#[test]
fn games() {
    let mut r = Random::new(11);
    let mut used = 0;
    for layers in [1, 12] {
        let file = reference::write(&generate::pins(&mut r, layers));
        used = used.max(taken(move || {
            let mut answer = [0; 33];
            let standing = (1 << 10) - 1;
            let spares: Vec<u64> = (0..10).flat_map(|_| [standing, 0]).chain([0]).collect();
            assert_eq!(library::score(&file, &spares, &mut answer), 0);
            assert_eq!(library::score(&file, &[0; 12], &mut answer), 0);
            assert_eq!(library::score(&file, &[0; 13], &mut answer), 28);
        }));
    }
    within("pmn_score", used);
}

/// Networks to compare, each with its fold and with near misses of that: full ones of 40 inputs and of 20, where every frame is read, and
/// masks of 40 patches; and an adder of 40 inputs in two ways.
fn compared() -> Vec<[Net; 2]> {
    let mut r = Random::new(12);
    let nets = [
        generate::largest(&mut r),
        generate::largest_tolerant(&mut r),
        generate::full_folding(),
        generate::shared_grid(),
        structures::tangle(&mut r, 20, 128, 16..17, 9),
        structures::tangle(&mut r, 40, 128, 2..6, 9),
        structures::rack(&mut r, 7),
    ];
    let with_others = |net: &Net| {
        let fold = pairs::swept(net);
        let near = pairs::moved_thresholds(&fold).into_iter().take(4).collect::<Vec<Net>>();
        near.into_iter().chain([fold]).map(|other| [net.clone(), other]).collect::<Vec<_>>()
    };
    let adders = [Carries::Ripple, Carries::LookAhead(4)].map(|carries| structures::adder(20, 16, carries));
    nets.iter().flat_map(with_others).chain([adders]).collect()
}

#[test]
fn comparisons() {
    let each = compared().into_iter().flat_map(|nets| [0, 10_000].map(|budget| (nets.each_ref().map(reference::write), budget)));
    let used = each.map(|([first, second], budget)| taken(move || assert_eq!(library::compare(&first, &second, budget, &mut [0; 3]), 0)));
    within("pmn_compare", used.max().unwrap());
}

#[test]
fn readings() {
    within("pmn_check", most_taken(|file, _, _| assert_eq!(library::check(file), 0)));
    within("pmn_frame", most_taken(|file, _, _| assert_eq!(library::frame(file, 0, &mut [0; 2]), 0)));
    within("pmn_frames", most_taken(|file, _, _| assert_eq!(library::frames(file, &[0; 64], &mut [0; 64]), 0)));
    within("pmn_report", most_taken(|file, _, _| assert_eq!(library::report(file, &mut [0; 3]), 0)));
}

#[test]
fn writings() {
    let used = most_taken(|file, _, _| {
        let mut out = vec![0; library::LONGEST_FILE];
        assert_eq!(library::write(file, &mut out, &mut [0; 1]), 0);
    });
    within("pmn_write", used);
    let used = most_taken(|file, _, _| {
        let mut out = vec![0; library::LONGEST_FILE];
        assert!([0, 25].contains(&library::convert(file, &mut out, &mut [0; 1])));
    });
    within("pmn_convert", used);
    let used = most_taken(|file, first, last| {
        let mut out = vec![0; library::LONGEST_FILE];
        (first..last).for_each(|s| assert_eq!(library::part(file, s, &mut out, &mut [0; 1]), 0));
    });
    within("pmn_part", used);
    let used = most_taken(|file, first, last| {
        let mut out = vec![0; 254];
        (0..4 * (last - first)).for_each(|n| assert_eq!(library::line(file, file, n, &mut out, &mut [0; 1]), 0));
    });
    within("pmn_line", used);
}

#[test]
fn what_folding_would_do() {
    let used = most_taken(|file, first, last| {
        for s in first..last {
            library::pair(file, s, s + 1, &mut [0; 2]);
            library::pair(file, first, s, &mut [0; 2]);
        }
    });
    within("pmn_pair", used);
    let used = most_taken(|file, first, last| {
        for s in first..last {
            library::witness(file, s, s + 1, 1, 1, &mut [0; 1]);
        }
    });
    within("pmn_witness", used);
    let used = most_taken(|file, first, last| {
        for s in first..last {
            library::distinct(file, s, s + 1, &mut [0; 17]);
        }
    });
    within("pmn_distinct", used);
    let used = most_taken(|file, first, last| {
        for s in first..last {
            library::preview(file, s, &mut [0; 3]);
        }
    });
    within("pmn_preview", used);
}

#[test]
fn entries() {
    let used = taken(|| (0..256).for_each(|table| assert_eq!(library::three_feeds(table, &mut [0; 5]), 0)));
    within("pmn_three_feeds", used);
}
