//! Commands that only look: check, show, report, frame, score, preview, pair and witness.
mod common;
use common::{mask, random_mask, sample, samples, vote, Random, Room};
use pmn::Mask;

fn room() -> Room {
    let room = Room::new();
    for name in samples() {
        room.put(&name, sample(&name));
    }
    room
}

#[test]
fn check_reads_all_and_names_the_refused() {
    let room = room();
    room.put("tail.pmn", [sample("f.pmn"), vec![0]].concat());
    room.put("empty.pmn", "");
    let ran = room.pmn("check f.pmn tail.pmn none.pmn empty.pmn full_rack.pmn");
    assert_eq!(ran.status, 1);
    assert_eq!(ran.out, "f.pmn: accepted\nfull_rack.pmn: accepted\n");
    assert_eq!(ran.err, "tail.pmn: refused 9 tail\nnone.pmn: No such file or directory\nempty.pmn: refused 1 foreign mark\n");
    assert_eq!(room.pmn("check f.pmn f.pmn").well(), "f.pmn: accepted\nf.pmn: accepted\n");
}

#[test]
fn show_prints_a_gate_a_line() {
    let room = room();
    let f = [
        "version 1, on margin 0, off margin 1",
        "3 patches, 2 gates, 1 output",
        "cost 18, 2 levels",
        "g3  level 1  [p0 4, p1 3; 5]",
        "g4  level 2  [p2 1, g3 2; 3]",
        "output 0  g4",
    ];
    assert_eq!(room.pmn("show f.pmn").well(), f.join("\n") + "\n");
    let strapped = room.pmn("show strapped_pin.pmn").well();
    assert!(strapped.contains("\ng5  level 0  [; 0]\n"), "{strapped}");
    let strict = room.pmn("show strict_pin.pmn").well();
    assert!(strict.starts_with("version 2, on margin 8, off margin 17\n"), "{strict}");
    let shadow = room.pmn("show corner_pin.pmn").well();
    assert!(shadow.contains("[g8 2, g9 2, g10 -1; 2]"), "{shadow}");
    assert!(room.pmn("show shadow_rack.pmn").well().contains("\noutput 9  g69\n"));
}

#[test]
fn report_adds_up() {
    let room = room();
    let table = room.pmn("report f.pmn full_rack.pmn").well();
    let rows: Vec<Vec<&str>> = table.lines().map(|line| line.split_whitespace().collect()).collect();
    assert_eq!(rows[0], ["file", "gates", "cost", "levels", "inputs", "outputs", "version", "bytes"]);
    assert_eq!(rows[1], ["f.pmn", "2", "18", "2", "3", "1", "1", "39"]);
    assert_eq!(rows[2], ["full_rack.pmn", "20", "90", "2", "40", "10", "1", "368"]);
    assert_eq!(rows[3], ["total", "22", "108", "2", "407"]);
    assert_eq!(rows.len(), 4);
    let ran = room.pmn("report f.pmn none.pmn");
    assert_eq!((ran.status, ran.err.as_str()), (1, "none.pmn: No such file or directory\n"));
    assert!(ran.out.contains("\ntotal  "), "{}", ran.out);
}

#[test]
fn frames_by_64_are_those_read_one_by_one() {
    let room = room();
    let mut random = Random(1);
    for count in [1, 63, 64, 65, 300] {
        let bytes = random_mask(&mut random, 20, 12);
        room.put("random.pmn", &bytes);
        let mask = Mask::read(&bytes).unwrap();
        let frames: Vec<u64> = (0..count).map(|_| random.below(1 << 20)).collect();
        let expected: String = frames
            .iter()
            .map(|frame| {
                let reading = mask.frame(*frame).unwrap();
                format!("{frame:#x} {:#x} {}\n", reading.bits, reading.ones)
            })
            .collect();
        let lines: String = frames.iter().map(|frame| format!("{frame}\n")).collect();
        assert_eq!(room.pmn_with("frame random.pmn -", lines.as_bytes()).well(), expected);
        let words: String = frames.iter().map(|frame| format!(" 0b{frame:b}")).collect();
        assert_eq!(room.pmn(&format!("frame random.pmn{words}")).well(), expected);
    }
}

#[test]
fn a_long_frame_is_named_and_nothing_of_its_pass_printed() {
    let room = room();
    assert_eq!(room.pmn("frame f.pmn 0 7 8 9").failed(1), "f.pmn, frame 0x8: refused 10 long frame\n");
    let ran = room.pmn_with("frame f.pmn -", ("7 ".repeat(64) + "7 8").as_bytes());
    assert_eq!((ran.status, ran.out.lines().count()), (1, 64));
    assert_eq!(room.pmn("frame full_rack.pmn 0xff_ffff_ffff").well(), "0xffffffffff 0x3ff 10\n");
}

#[test]
fn a_game_in_boxes() {
    let room = room();
    let sheet = room.pmn("score full_rack.pmn 0x333 0x3 0x0 0x33 0x0 0x333333").well();
    let lines: Vec<&str> = sheet.lines().collect();
    assert_eq!(lines.len(), 5);
    assert_eq!(lines[2], "| 7 2 |   X | 8 / | 4   |     |     |     |     |     |       |");
    assert_eq!(lines[3], "|   9 |  29 |  43 |     |     |     |     |     |     |       |");
    let strikes = room.pmn(&format!("score full_rack.pmn{}", " 0".repeat(12))).well();
    assert!(strikes.contains("|   X | X X X |") && strikes.contains("| 270 |   300 |"), "{strikes}");
    let none = room.pmn("score full_rack.pmn").well();
    assert!(none.contains("|     |     |     |     |     |     |     |     |     |       |"), "{none}");
    let misses = room.pmn_with("score full_rack.pmn -", "0x3333333333\n".repeat(20).as_bytes()).well();
    assert!(misses.contains("| - - | - -   |") && misses.contains("|   0 |     0 |"), "{misses}");
}

#[test]
fn a_game_that_is_refused_names_the_ball() {
    let room = room();
    assert_eq!(room.pmn("score f.pmn").failed(1), "f.pmn: refused 27 fewer than ten outputs\n");
    assert_eq!(room.pmn("score full_rack.pmn 0x3 0x33").failed(1), "full_rack.pmn, ball 2: refused 29 pin up again\n");
    let long = format!("score full_rack.pmn{}", " 0".repeat(13));
    assert_eq!(room.pmn(&long).failed(1), "full_rack.pmn, ball 13: refused 28 ball after the end\n");
    assert_eq!(room.pmn("score full_rack.pmn 0 0x10000000000").failed(1), "full_rack.pmn, ball 2: refused 10 long frame\n");
}

#[test]
fn previews_of_all_gates_and_of_one() {
    let room = room();
    let all = "now: gates 2 cost 18 levels 2\ng3: gates 1 cost 18 levels 1\ng4: refused 17 still read\n";
    assert_eq!(room.pmn("preview f.pmn").well(), all);
    assert_eq!(room.pmn("preview f.pmn 3").well(), "g3: gates 1 cost 18 levels 1\n");
    assert_eq!(room.pmn("preview f.pmn g3").well(), "g3: gates 1 cost 18 levels 1\n");
    assert_eq!(room.pmn("preview f.pmn 4").failed(1), "f.pmn: refused 17 still read\n");
    assert_eq!(room.pmn("preview f.pmn 2").failed(1), "f.pmn: refused 11 no such gate\n");
    assert!(room.pmn("preview no_fold.pmn").well().contains("g8: refused 16 no pair\n"));
}

#[test]
fn pairs() {
    let room = room();
    assert_eq!(room.pmn("pair f.pmn 3 4").well(), "k 1 l 3\n");
    assert_eq!(room.pmn("pair f.pmn 4 3").failed(1), "f.pmn: refused 12 not a feed\n");
    assert_eq!(room.pmn("pair no_fold.pmn 8 g9").failed(1), "no_fold.pmn: refused 16 no pair\n");
}

#[test]
fn witnesses_say_what_to_light() {
    let room = room();
    let ran = room.pmn("witness f.pmn 3 4 1 2");
    assert_eq!((ran.status, ran.err.as_str()), (1, "f.pmn: refused 15 disagrees\n"));
    assert_eq!(ran.out, "setting 3\nlight      p0 p1\nleave dark p2\nframe      0x3\n");
    assert!(room.pmn("witness f.pmn 3 4 1 3").well().starts_with("accepted"));
    assert_eq!(room.pmn("witness f.pmn 3 4 0 1").failed(1), "f.pmn: refused 14 off the dial\n");
    assert_eq!(room.pmn("witness f.pmn 3 5 1 1").failed(1), "f.pmn: refused 11 no such gate\n");
}

#[test]
fn a_witness_with_a_gate_among_the_feeds() {
    let room = room();
    // g4 reads p1 and g3, and g5 reads g4 and p2
    let gates = [vote([0], 1), (vec![(1, 4), (3, 3)], 5), (vec![(2, 1), (4, 2)], 3)];
    room.put("gates.pmn", mask(3, &gates, &[5]));
    let ran = room.pmn("witness gates.pmn 4 5 1 2");
    assert_eq!((ran.status, ran.err.as_str()), (1, "gates.pmn: refused 15 disagrees\n"));
    assert_eq!(ran.out, "setting 5\nlight      p1\nleave dark p2\ngates at 1 g3\ngates at 0 none\n");
}
