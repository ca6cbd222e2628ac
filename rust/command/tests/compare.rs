//! compare: pairs that are alike, that part on one frame only, and that no one can tell; solvers, lists and options.
mod common;
use common::{mask, random_mask, sample, vote, Random, Room};
use pmn::Mask;

/// All of the patches lit, and never.
fn one_frame_apart(inputs: u8) -> (Vec<u8>, Vec<u8>) {
    let votes = inputs.min(16);
    let all = vote(0..votes, i32::from(votes));
    let never = vote(0..votes, i32::from(votes) + 1);
    (mask(inputs, &[all], &[inputs]), mask(inputs, &[never], &[inputs]))
}

/// Any of three gates that read all forty patches, of which the first asks for its sixteen patches, and never.
fn apart_behind_a_gate() -> (Vec<u8>, Vec<u8>) {
    let rack = |threshold| mask(40, &[vote(0..16, threshold), vote(16..32, 16), vote(32..40, 8), vote([40, 41, 42], 1)], &[43]);
    (rack(16), rack(17))
}

/// A room with two masks, first and second.
fn room(first: &[u8], second: &[u8]) -> Room {
    let room = Room::new();
    room.put("first", first);
    room.put("second", second);
    room
}

#[test]
fn masks_that_part_on_one_frame_only() {
    for inputs in [1, 2, 7, 13, 16] {
        let (first, second) = one_frame_apart(inputs);
        let room = room(&first, &second);
        let ran = room.pmn("compare first second");
        let frame = (1u64 << inputs) - 1;
        let patches: String = (0..inputs).map(|patch| format!(" p{patch}")).collect();
        let said = format!("apart on frame {frame:#x} ({frame})\nlit patches:{patches}\nfirst reads 0x1\nsecond reads 0x0\n");
        assert_eq!((ran.status, ran.err.as_str()), (1, ""));
        assert!(ran.out.starts_with(&said), "{}", ran.out);
        assert!(ran.out.ends_with("On no frame with fewer lit patches do they part.\n"));
        let alike = room.pmn("compare first first").well();
        assert_eq!(alike, format!("alike on every frame: {} were read\n", 1u64 << inputs));
    }
}

#[test]
fn the_dark_frame_is_a_frame() {
    let always = mask(4, &[vote([0], 0)], &[4]);
    let lit = mask(4, &[vote([0, 1, 2, 3], 1)], &[4]);
    let room = room(&lit, &always);
    let ran = room.pmn("compare first second");
    assert_eq!(ran.out, "apart on frame 0x0 (0)\nlit patches: none\nfirst reads 0x0\nsecond reads 0x1\nNo patch is lit on it.\n");
}

#[test]
fn the_frame_has_the_fewest_lit_patches_of_all() {
    let mut random = Random(5);
    let (mut apart, mut alike) = (0, 0);
    for _ in 0..60 {
        let (first, second) = (random_mask(&mut random, 8, 4), random_mask(&mut random, 8, 4));
        let room = room(&first, &second);
        let ran = room.pmn("compare first second");
        let (first, second) = (Mask::read(&first).unwrap(), Mask::read(&second).unwrap());
        let differ = |frame: &u64| first.frame(*frame).unwrap() != second.frame(*frame).unwrap();
        match (0..256u64).filter(differ).min_by_key(|frame| (frame.count_ones(), *frame)) {
            Some(frame) => {
                assert!(ran.out.starts_with(&format!("apart on frame {frame:#x} ({frame})\n")), "{}", ran.out);
                assert_eq!(ran.status, 1);
                apart += 1;
            }
            None => {
                assert_eq!((ran.status, ran.out.as_str()), (0, "alike on every frame: 256 were read\n"));
                alike += 1;
            }
        }
    }
    assert!(apart > 20 && alike > 0, "{apart} {alike}");
}

#[test]
fn unlike_counts_are_refused() {
    let (first, second) = (mask(2, &[vote([0], 1)], &[2]), mask(3, &[vote([0], 1)], &[3]));
    let err = room(&first, &second).pmn("compare first second").failed(1);
    assert_eq!(err, "first and second: refused 19 unlike networks\n");
    let two_outputs = mask(2, &[vote([0], 1)], &[2, 2]);
    let err = room(&first, &two_outputs).pmn("compare first second --solver none").failed(1);
    assert_eq!(err, "first and second: refused 19 unlike networks\n");
}

#[test]
fn many_inputs_without_a_solver() {
    let (first, second) = apart_behind_a_gate();
    let room = room(&first, &second);
    let ran = room.pmn("compare first second");
    assert_eq!((ran.status, ran.err.as_str()), (1, ""));
    assert!(ran.out.starts_with("apart on frame 0xffff (65535)\n"), "{}", ran.out);
    assert!(ran.out.ends_with("other frames may light fewer.\n"), "{}", ran.out);
    let alike = room.pmn("compare first first --frames 1001").well();
    assert_eq!(alike, "no difference seen on 500 random frames and 501 frames near an edge\nThis is no proof: not every frame was read.\n");
    assert!(room.pmn("compare first first --frames 0").well().starts_with("no difference seen on 0 random frames and 0 "));
    assert_eq!(room.pmn("compare first second --seed 9 --frames 50000").out, ran.out);
}

#[test]
fn one_setting_of_twenty_patches_behind_two_gates() {
    let weight = |signal: u8| (signal, if signal % 2 == 0 { 1 } else { -1 });
    let below = ((0..10).map(weight).collect(), 5);
    let above = |threshold| ((10..20).chain([40]).map(weight).collect(), threshold);
    let room = room(&mask(40, &[below.clone(), above(6)], &[41]), &mask(40, &[below, above(7)], &[41]));
    let ran = room.pmn("compare first second");
    assert!(ran.out.starts_with("apart on frame 0x55555 (349525)\nlit patches: p0 p2 p4 p6 p8 p10 p12 p14 p16 p18\n"), "{}", ran.out);
}

#[test]
fn each_output_on_the_patches_that_it_reads() {
    let rack = sample("full_rack.pmn");
    let folded = Mask::read(&rack).unwrap().run(&[pmn::Call::Sweep(128)]).0;
    let alike = room(&rack, folded.bytes()).pmn("compare first second").well();
    assert_eq!(alike, "alike on every frame: each output was read on every frame of the patches that it depends on, 160 in all\n");
    // output 0 reads the patches 0 and 39, output 1 all of the patches 3 to 10; they part in the second where one patch fewer is lit
    let two = |threshold| mask(40, &[vote([0, 39], 1), vote(3..11, threshold)], &[40, 41]);
    let ran = room(&two(8), &two(7)).pmn("compare first second");
    assert!(ran.out.starts_with("apart on frame 0x3f8 (1016)\n"), "{}", ran.out);
    assert!(ran.out.ends_with("first reads 0x0\nsecond reads 0x2\nOn no frame with fewer lit patches do they part.\n"), "{}", ran.out);
}

#[test]
fn one_limit_moved_by_one_in_a_folded_rack() {
    let rack = sample("full_rack.pmn");
    let folded = Mask::read(&rack).unwrap().run(&[pmn::Call::Sweep(128)]).0;
    for gate in 0..10 {
        let mut moved = folded.bytes().to_vec();
        // a gate of the folded rack has four feeds and takes 25 bytes; its threshold stands after the number of its feeds
        moved[8 + 25 * gate + 1] += 1;
        Mask::read(&moved).unwrap();
        let room = room(&rack, &moved);
        let ran = room.pmn("compare first second --frames 40000");
        assert_eq!(ran.status, 1);
        let frame = 0xdu64 << (4 * gate);
        assert!(ran.out.starts_with("apart on frame ") && ran.out.contains("lit patches: p"), "{}", ran.out);
        assert!(
            [frame, 0xe << (4 * gate), 3 << (4 * gate)].iter().any(|frame| ran.out.contains(&format!("frame {frame:#x} "))),
            "{}",
            ran.out
        );
    }
}

#[test]
fn a_solver_decides_where_there_is_one() {
    let (first, second) = apart_behind_a_gate();
    let room = room(&first, &second);
    room.put_program("clasp", "grep -q '^\\* #variable= 49 ' $1 && echo 's UNSATISFIABLE'");
    assert_eq!(room.pmn("compare first first").well(), "alike: clasp finds no frame on which the two part\n");
    assert!(room.pmn("compare first first --solver none --frames 10").well().starts_with("no difference seen"));
    let lit: String = (1..=17).map(|n| format!(" x{n}")).collect();
    room.put_program("clasp", &format!("echo 'v{lit}'; echo 'v -x18 x41 -x42 x49'; echo 's SATISFIABLE'; exit 10"));
    let ran = room.pmn("compare first second");
    assert_eq!((ran.status, ran.err.as_str()), (1, ""));
    assert!(ran.out.starts_with("apart on frame 0xffff (65535)\n"), "{}", ran.out);
}

#[test]
fn a_solver_that_can_not_tell_is_named_and_frames_are_read() {
    let (first, _) = apart_behind_a_gate();
    let room = room(&first, &first);
    for (program, options, why) in [
        ("echo 's UNKNOWN'", "", "clasp: it says UNKNOWN\n"),
        ("exit 3", "", "clasp: it gives no verdict\n"),
        ("echo 'v x1 -x2'; echo 's SATISFIABLE'", "", "clasp: its solution is no frame on which the two part\n"),
        ("exec sleep 20", "--solver-seconds 1", "clasp: no verdict within 1 seconds\n"),
    ] {
        room.put_program("clasp", program);
        let ran = room.pmn(&format!("compare first second --frames 100 {options}"));
        assert_eq!((ran.status, ran.err.as_str()), (0, why), "{program}");
        assert!(ran.out.starts_with("no difference seen on 50 random"), "{}", ran.out);
    }
}

#[test]
fn a_named_solver_is_asked_for_few_inputs_too() {
    let (first, second) = one_frame_apart(3);
    let room = room(&first, &second);
    assert_eq!(room.pmn("compare first second --solver clasp").failed(1), "clasp: there is no such solver on the PATH\n");
    room.put_program("my+solver", "echo 's SATISFIABLE'; echo 'v x1 x2 x3'");
    assert!(room.pmn("compare first second --solver my+solver").out.starts_with("apart on frame 0x7 (7)\n"));
    room.put_program("my+solver", "echo 's UNKNOWN'");
    let ran = room.pmn("compare first second --solver my+solver");
    assert_eq!((ran.status, ran.err.as_str()), (1, "my+solver: it says UNKNOWN\n"));
    assert!(ran.out.ends_with("On no frame with fewer lit patches do they part.\n"));
}

#[test]
fn a_solver_on_this_machine() {
    let path = std::env::var_os("PATH").unwrap_or_default();
    for name in ["clasp", "minisat+"].into_iter().filter(|name| std::env::split_paths(&path).any(|place| place.join(name).is_file())) {
        let (first, second) = apart_behind_a_gate();
        let room = room(&first, &second);
        let ask = |line: &str| common::run(room.command().env("PATH", &path).args(line.split(' ')).args(["--solver", name]), b"");
        assert_eq!(ask("compare first first").well(), format!("alike: {name} finds no frame on which the two part\n"));
        let apart = ask("compare first second").out;
        assert!(apart.starts_with("apart on frame ") && apart.contains("lit patches: p0 p1 p2 p3"), "{name}: {apart}");
    }
}

#[test]
fn every_frame_on_demand() {
    let gates = |signal: u8| mask(30, &[vote([0, signal], 1)], &[30]);
    let room = room(&gates(28), &gates(29));
    let ran = room.pmn("compare first second --exhaustive");
    assert!(ran.out.starts_with("apart on frame 0x10000000 (268435456)\nlit patches: p28\n"), "{}", ran.out);
    assert!(ran.out.ends_with("On no frame with fewer lit patches do they part.\n"));
    let (many, _) = one_frame_apart(33);
    room.put("many", many);
    let err = room.pmn("compare many many --exhaustive").failed(2);
    assert!(err.starts_with("pmn compare: --exhaustive is for 32 inputs at most, and many has 33\n"), "{err}");
}

#[test]
fn a_list_that_leads_there_is_enough() {
    let rack = sample("full_rack.pmn");
    let folded = Mask::read(&rack).unwrap().run(&[pmn::Call::Sweep(128)]).0;
    let room = room(&rack, folded.bytes());
    room.put("list", "sweep 128\n");
    let alike = room.pmn("compare first second --list list").well();
    assert_eq!(alike, "alike: the list leads from the first to the second, byte for byte, and no list of calls changes a reading\n");
    room.put("other", "collapse 40\n");
    let ran = room.pmn("compare first second --list other --frames 100");
    assert_eq!((ran.status, ran.err.as_str()), (0, "the list leaves another mask; the two were compared without it\n"));
    assert!(ran.out.starts_with("alike on every frame: each output"), "{}", ran.out);
    room.put("wrong", "fold\n");
    assert!(room.pmn("compare first second --list wrong").failed(2).starts_with("pmn compare: wrong, line 1: there is no call `fold`\n"));
    assert_eq!(room.pmn("compare first second --list none").failed(1), "none: No such file or directory\n");
}
