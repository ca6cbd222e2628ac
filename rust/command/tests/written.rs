//! Commands that write files: fold, run, cut, convert, part, alley, question, sheet and picture.
mod common;
use common::{proved_program, run, sample, samples, Room};
use pmn::{Call, Mask};
use std::process::Command;

fn room() -> Room {
    let room = Room::new();
    for name in samples() {
        room.put(&name, sample(&name));
    }
    room
}

/// What the library's sweep leaves of a sample.
fn swept(name: &str, limit: u64) -> Mask {
    Mask::read(&sample(name)).unwrap().run(&[Call::Sweep(limit)]).0
}

#[test]
fn a_fold_is_the_sweep_of_the_library() {
    let room = room();
    for name in samples() {
        let printed = room.pmn(&format!("fold {name} -o out-{name} --question q-{name} --list l-{name}")).well();
        let after = swept(&name, 128);
        assert_eq!(room.get(&format!("out-{name}")), after.bytes(), "{name}");
        assert_eq!(room.text(&format!("q-{name}")), Mask::read(&sample(&name)).unwrap().question(&after).unwrap(), "{name}");
        assert_eq!(room.text(&format!("l-{name}")), "sweep 128\n");
        if let Some(program) = proved_program("fold") {
            let by_program = run(&mut Command::new(program), &sample(&name)).out;
            assert_eq!(printed + &room.text(&format!("q-{name}")), by_program, "{name}");
        }
    }
}

#[test]
fn a_fold_with_a_reader_limit() {
    let room = room();
    assert_eq!(room.pmn("fold f.pmn -o none.pmn -b 0").well(), "gates 2 2\ncost 18 18\nlevels 2 2\nfolded 0\n");
    assert_eq!(room.get("none.pmn"), sample("f.pmn"));
    assert_eq!(room.pmn("fold f.pmn -o one.pmn -b 1 --list list").well(), "gates 2 1\ncost 18 18\nlevels 2 1\nfolded 1\n");
    assert_eq!(room.text("list"), "sweep 1\n");
    assert_eq!(room.pmn("fold f.pmn -o two.pmn -b 129").failed(1), "f.pmn: refused 14 off the dial\n");
    assert!(!room.has("two.pmn"));
}

#[test]
fn fold_then_check_then_compare() {
    let room = room();
    for name in ["f.pmn", "corner_pin.pmn", "far_fold.pmn", "strict_pin.pmn"] {
        room.pmn(&format!("fold {name} -o folded --list list --force")).well();
        assert_eq!(room.pmn("check folded").well(), "folded: accepted\n");
        assert!(room.pmn(&format!("compare {name} folded")).well().starts_with("alike on every frame"));
        assert!(room.pmn(&format!("compare {name} folded --list list")).well().starts_with("alike: the list leads"));
        room.pmn(&format!("run {name} list -o again --force")).well();
        assert_eq!(room.get("again"), room.get("folded"));
    }
}

#[test]
fn a_searched_fold_is_no_worse_and_its_list_leads_there() {
    let room = room();
    let printed = room.pmn("fold corner_pin.pmn -o found --search 0.2 --seed 7 --list list").well();
    assert!(printed.starts_with("gates 4 ") && printed.contains("\ntried "), "{printed}");
    let found = Mask::read(&room.get("found")).unwrap();
    assert!(found.report() <= swept("corner_pin.pmn", 128).report());
    assert!(room.pmn("compare corner_pin.pmn found --list list").well().starts_with("alike: the list leads"));
}

#[test]
fn the_verdict_of_a_solver() {
    let room = room();
    let solved = |line: &str| room.pmn(&format!("fold f.pmn -o out --force {line}"));
    assert!(solved("--solve").well().ends_with("folded 1\nno solver: neither clasp nor minisat+ is on the PATH\n"));
    assert_eq!(room.pmn("fold f.pmn -o other --solver clasp").failed(1), "clasp: there is no such solver on the PATH\n");
    room.put_program("minisat+", "echo 's UNSATISFIABLE'");
    assert!(solved("--solve").well().ends_with("folded 1\nminisat+: unsatisfiable, no frame parts the two\n"));
    room.put_program("clasp", "head -n 1 $1 | grep -q '^\\* #variable= 7 #constraint= 9$' && echo 's UNSATISFIABLE'; exit 20");
    assert!(solved("--solve").well().ends_with("clasp: unsatisfiable, no frame parts the two\n"));
    room.put_program("clasp", "echo 'c nothing'; exit 1");
    assert!(solved("--solve").well().ends_with("clasp: it gives no verdict\n"));
    assert!(solved("--solver minisat+").well().ends_with("minisat+: unsatisfiable, no frame parts the two\n"));
    assert!(solved("--solver ./bin/minisat+").well().ends_with("unsatisfiable, no frame parts the two\n"));
    room.put_program("clasp", "echo 'v x1'; echo 's SATISFIABLE'");
    assert_eq!(room.pmn("fold f.pmn -o new --solve").failed(1), "f.pmn: clasp says satisfiable; nothing is written\n");
    assert!(!room.has("new"));
    room.put_program("clasp", "exec sleep 20");
    assert!(solved("--solve --solver-seconds 0").well().ends_with("clasp: no verdict within 0 seconds\n"));
}

#[test]
fn a_script_answers_line_by_line() {
    let room = room();
    room.put(
        "script",
        "# file F\npreview 3\nmerge g3 g4 1 2\ncollapse 3\nsweep 128\nundo\nundo\nundo # one too many\ndrop 4\nmerge 3 4 1 3\n",
    );
    let answers = [
        "preview 3: gates 1 cost 18 levels 1",
        "merge 3 4 1 2: refused 15 disagrees",
        "collapse 3: done",
        "sweep 128: folded 0",
        "undo: done",
        "undo: done",
        "undo: refused 22 empty journal",
        "drop 4: refused 17 still read",
        "merge 3 4 1 3: done",
    ];
    assert_eq!(room.pmn("run f.pmn script -o out").well(), answers.join("\n") + "\n");
    let (after, _) = Mask::read(&sample("f.pmn")).unwrap().run(&[Call::Merge { u: 3, v: 4, k: 1, l: 3 }]);
    assert_eq!(room.get("out"), after.bytes());
}

#[test]
fn a_strict_script_writes_nothing_where_a_call_is_refused() {
    let room = room();
    room.put("script", "collapse 3\ndrop 4\n");
    let ran = room.pmn("run f.pmn script -o out --strict");
    assert_eq!((ran.status, ran.err.as_str()), (1, "script: a call was refused, and nothing is written\n"));
    assert_eq!(ran.out, "collapse 3: done\ndrop 4: refused 11 no such gate\n");
    assert!(!room.has("out"));
    room.put("script", "collapse 3\n");
    assert_eq!(room.pmn("run f.pmn script -o out --strict").well(), "collapse 3: done\n");
}

#[test]
fn a_wrong_script_is_wrong_use_and_names_its_line() {
    let room = room();
    room.put("script", "sweep 128\ncolapse 3\n");
    let err = room.pmn("run f.pmn script -o out").failed(2);
    assert_eq!(err, "pmn run: script, line 2: there is no call `colapse`\nsee `pmn run --help`\n");
    assert!(!room.has("out"));
    room.put("script", [0xff, b'\n']);
    room.pmn("run f.pmn script -o out").failed(2);
    room.put("script", "");
    assert_eq!(room.pmn("run f.pmn script -o out").well(), "");
    assert_eq!(room.get("out"), sample("f.pmn"));
}

#[test]
fn a_cut_is_the_cut_of_the_library() {
    let room = room();
    assert_eq!(room.pmn("cut full_rack.pmn 3 -o pin").well(), "gates 20 2\ncost 90 9\nlevels 2 2\n");
    assert_eq!(room.get("pin"), Mask::read(&sample("full_rack.pmn")).unwrap().cut(3).unwrap().bytes());
    assert_eq!(room.pmn("cut full_rack.pmn 10 -o none").failed(1), "full_rack.pmn: refused 8 stray output\n");
    assert!(!room.has("none"));
}

#[test]
fn there_and_back_is_the_same_file() {
    let room = room();
    assert_eq!(room.pmn("convert f.pmn -o v2").well(), "version 1 2\n");
    assert_eq!(room.pmn("convert v2 -o v1").well(), "version 2 1\n");
    assert_eq!(room.get("v1"), sample("f.pmn"));
    assert_ne!(room.get("v2"), sample("f.pmn"));
    let err = room.pmn("convert strict_pin.pmn -o none").failed(1);
    assert_eq!(err, "strict_pin.pmn: refused 25 a margin that version 1 can't hold\n");
    assert!(!room.has("none"));
}

#[test]
fn the_parts_of_a_file_are_its_gates() {
    let room = room();
    assert_eq!(room.pmn("part f.pmn 3 -o three").well(), "bytes 15\n");
    assert_eq!(room.pmn("part f.pmn g4 -o four").well(), "bytes 15\n");
    let whole = [&sample("f.pmn")[..8], &room.get("three"), &room.get("four"), &[4]].concat();
    assert_eq!(whole, sample("f.pmn"));
    assert_eq!(room.pmn("part f.pmn 5 -o none").failed(1), "f.pmn: refused 11 no such gate\n");
    assert!(!room.has("none"));
}

#[test]
fn an_alley_of_all_samples() {
    let room = room();
    let sheet = room.pmn(&format!("alley {} -o hall.alley", samples().join(" "))).well();
    let lanes: Vec<u8> =
        samples().iter().flat_map(|name| [(sample(name).len() as u16).to_le_bytes().to_vec(), sample(name)].concat()).collect();
    assert_eq!(room.get("hall.alley"), lanes);
    if let Some(program) = proved_program("alley") {
        assert_eq!(run(&mut Command::new(program), &lanes).out, sheet);
    }
    room.put("bad.pmn", "PMN");
    let err = room.pmn("alley f.pmn bad.pmn none.pmn -o new.alley").failed(1);
    assert_eq!(err, "bad.pmn: refused 1 foreign mark\nnone.pmn: No such file or directory\n");
    assert!(!room.has("new.alley"));
}

#[test]
fn a_question_printed_and_written() {
    let room = room();
    room.pmn("fold f.pmn -o folded --question asked").well();
    let question = room.pmn("question f.pmn folded").well();
    assert_eq!(question, room.text("asked"));
    assert_eq!(room.pmn("question f.pmn folded -o again").well(), "");
    assert_eq!(room.text("again"), question);
    assert_eq!(room.pmn("question f.pmn folded -o -").well(), question);
    let err = room.pmn("question f.pmn full_rack.pmn -o none").failed(1);
    assert_eq!(err, "f.pmn and full_rack.pmn: refused 19 unlike networks\n");
    assert!(!room.has("none"));
}

#[test]
fn a_picture_in_dot_and_svg() {
    let room = room();
    let dot = room.pmn("picture corner_pin.pmn").well();
    assert!(dot.contains("digraph"), "{dot}");
    room.pmn("picture corner_pin.pmn -o pin.dot").well();
    assert_eq!(room.text("pin.dot"), dot);
    assert_eq!(room.pmn("picture corner_pin.pmn -o -").well(), dot);
    let own = room.pmn("picture corner_pin.pmn -o own.svg");
    assert_eq!((own.status, own.out.as_str()), (0, ""));
    assert_eq!(own.err, "Graphviz (dot) is not installed: this is the command's own drawing\n");
    assert!(room.text("own.svg").contains("<svg"));
    room.put_program("dot", "[ $1 = -Tsvg ] && printf '<svg>' && cat $2");
    room.pmn("picture corner_pin.pmn -o drawn.svg").well();
    assert_eq!(room.text("drawn.svg"), format!("<svg>{dot}"));
    room.put_program("dot", "echo '<svg>'; exit 1");
    let failed = room.pmn("picture corner_pin.pmn -o again.svg");
    assert_eq!((failed.status, failed.err.as_str()), (0, "Graphviz (dot) failed: this is the command's own drawing\n"));
    assert_eq!(room.text("again.svg"), room.text("own.svg"));
}

#[test]
fn a_closing_sheet() {
    let room = room();
    room.pmn("fold f.pmn -o folded --list list").well();
    let printed = room.pmn("sheet f.pmn folded -o a.html --list list --date 2026-02-28").well();
    assert!(printed.starts_with("alike: the list leads"), "{printed}");
    assert!(room.text("a.html").contains("2026-02-28"));
    assert!(room.pmn("sheet f.pmn folded -o b.html").well().starts_with("alike on every frame"));
    room.pmn("sheet f.pmn folded -o c.html --date none --force").well();
    assert_eq!(room.pmn("sheet f.pmn full_rack.pmn -o d.html").failed(1), "f.pmn and full_rack.pmn: refused 19 unlike networks\n");
    room.put("other", "preview 3\n");
    let err = room.pmn("sheet f.pmn folded -o d.html --list other").failed(1);
    assert_eq!(err, "other: does not lead from f.pmn to folded; nothing is written\n");
    assert!(!room.has("d.html"));
    let apart = room.pmn("sheet full_rack.pmn shadow_rack.pmn -o d.html");
    assert_eq!((apart.status, apart.err.as_str()), (1, ""));
    assert!(apart.out.starts_with("apart on frame "), "{}", apart.out);
    assert!(room.has("d.html"));
}
