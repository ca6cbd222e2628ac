//! The command as the shell sees it: help, wrong use, files that are refused, missing or not to be written, standard input and output.
mod common;
use common::{run, sample, Room};
use std::process::Stdio;

/// Every command with words that go well; f.pmn is a mask, script a list of calls, OUT a file that is not there.
const GOOD: [(&str, &str); 18] = [
    ("check", "f.pmn"),
    ("show", "f.pmn"),
    ("report", "f.pmn"),
    ("frame", "f.pmn 1"),
    ("score", "rack.pmn 0"),
    ("fold", "f.pmn -o OUT"),
    ("run", "f.pmn script -o OUT"),
    ("preview", "f.pmn"),
    ("pair", "f.pmn 3 4"),
    ("witness", "f.pmn 3 4 1 3"),
    ("cut", "f.pmn 0 -o OUT"),
    ("convert", "f.pmn -o OUT"),
    ("part", "f.pmn 3 -o OUT"),
    ("compare", "f.pmn f.pmn"),
    ("question", "f.pmn f.pmn"),
    ("alley", "f.pmn -o OUT"),
    ("sheet", "f.pmn f.pmn -o OUT"),
    ("picture", "f.pmn"),
];

fn room() -> Room {
    let room = Room::new();
    room.put("f.pmn", sample("f.pmn"));
    room.put("rack.pmn", sample("full_rack.pmn"));
    room.put("cut.pmn", &sample("f.pmn")[..20]);
    room.put("script", "sweep 128\n");
    room
}

const FILES: [&str; 4] = ["cut.pmn", "f.pmn", "rack.pmn", "script"];

/// The same words with another file in place of the first mask.
fn with_file(words: &str, file: &str) -> String {
    words.replacen("f.pmn", file, 1).replacen("rack.pmn", file, 1)
}

#[test]
fn every_command_goes_well() {
    for (command, words) in GOOD {
        let room = room();
        room.pmn(&format!("{command} {words}")).well();
        assert_eq!(room.has("OUT"), words.contains("OUT"), "{command}");
    }
}

#[test]
fn a_refused_file_is_named_with_its_number_and_nothing_is_written() {
    for (command, words) in GOOD {
        let room = room();
        let ran = room.pmn(&format!("{command} {}", with_file(words, "cut.pmn")));
        assert_eq!((ran.status, ran.err.as_str()), (1, "cut.pmn: refused 4 cut short\n"), "{command}");
        assert!(ran.out.is_empty() || command == "report", "{command}: {}", ran.out);
        assert_eq!(room.names(), FILES, "{command}");
    }
}

#[test]
fn a_missing_file_and_a_directory_are_named() {
    for (command, words) in GOOD {
        let room = room();
        for (file, why) in [("none.pmn", "none.pmn: No such file or directory\n"), ("bin", "bin: Is a directory\n")] {
            let ran = room.pmn(&format!("{command} {}", with_file(words, file)));
            assert_eq!((ran.status, ran.err.as_str()), (1, why), "{command}");
        }
        assert_eq!(room.names(), FILES, "{command}");
    }
}

#[test]
fn wrong_use_says_where_to_look() {
    for (command, words) in GOOD {
        let room = room();
        let hint = format!("see `pmn {command} --help`\n");
        for line in ["".to_string(), format!("{words} --strange"), format!("{words} -o"), format!("{words} --force=1")] {
            let err = room.pmn(&format!("{command} {line}")).failed(2);
            assert!(err.starts_with(&format!("pmn {command}: ")) && err.ends_with(&hint), "{command} {line}: {err}");
        }
        assert_eq!(room.names(), FILES, "{command}");
    }
    for (line, why) in [
        ("show f.pmn f.pmn", "pmn show: `f.pmn` is one word too many\n"),
        ("pair f.pmn 3", "pmn pair: too few words: give FILE U V\n"),
        ("pair f.pmn 3 p4", "pmn pair: `p4` is no number\n"),
        ("frame f.pmn 12a", "pmn frame: `12a` is no number\n"),
        ("frame f.pmn 18446744073709551616", "pmn frame: `18446744073709551616` does not fit into 64 bits\n"),
        ("fold f.pmn", "pmn fold: give -o OUT\n"),
        ("fold f.pmn -o a -b all", "pmn fold: -b: `all` is no number\n"),
        ("fold f.pmn -o a -o b", "pmn fold: -o is given twice\n"),
        ("fold f.pmn -o a --seed 1", "pmn fold: --seed is for --search\n"),
        ("fold f.pmn -o a --search 1 -b 1", "pmn fold: give -b or --search, not both\n"),
        ("fold f.pmn -o a --search soon", "pmn fold: --search needs a number of seconds, up to 1000000\n"),
        ("fold f.pmn -o a --search -1", "pmn fold: --search needs a number of seconds, up to 1000000\n"),
        ("fold f.pmn -o - --list -", "pmn fold: only one file can go to standard output (-)\n"),
        ("compare - -", "pmn compare: standard input (-) can be read only once\n"),
        ("compare f.pmn - --list -", "pmn compare: standard input (-) can be read only once\n"),
        ("frame - -", "pmn frame: standard input (-) can be read only once\n"),
        ("sheet f.pmn f.pmn -o a --date today", "pmn sheet: --date needs a day as YYYY-MM-DD, or `none`\n"),
        ("picture f.pmn -o f.png", "pmn picture: -o needs a name that ends in .svg or .dot\n"),
    ] {
        let room = room();
        let err = room.pmn(line).failed(2);
        assert!(err.starts_with(why), "{line}: {err}");
        assert_eq!(room.names(), FILES, "{line}");
    }
}

#[test]
fn two_outputs_at_one_place_are_wrong_use() {
    let room = room();
    let err = room.pmn("fold f.pmn -o a --list ./a").failed(2);
    assert!(err.contains("two files would be written to "), "{err}");
    assert_eq!(room.names(), FILES);
}

#[test]
fn no_command_or_a_strange_one_is_wrong_use() {
    let room = room();
    let err = room.pmn("").failed(2);
    assert!(err.contains("pmn COMMAND --help"), "{err}");
    assert_eq!(room.pmn("foldd").failed(2), "pmn: there is no command `foldd`\nsee `pmn --help`\n");
    assert_eq!(room.pmn("--strange").failed(2), "pmn: there is no command `--strange`\nsee `pmn --help`\n");
    assert_eq!(room.pmn("--version").well(), "pmn 1.0.0\n");
}

#[test]
fn help_names_every_command_and_every_option() {
    let room = room();
    let overview = room.pmn("--help").well();
    assert_eq!(room.pmn("help").well(), overview);
    for (command, _) in GOOD {
        assert!(overview.contains(&format!("\n    {command} ")), "{command}");
    }
    let written = ["-o ", "--force"];
    let compared = ["--list SCRIPT", "--exhaustive", "--solver NAME", "--solver-seconds N", "--frames N", "--seed N"];
    for (command, options) in [
        ("check", vec![]),
        ("show", vec!["p0", "[signal weight, ..; T]"]),
        ("report", vec![]),
        ("frame", vec!["0x", "0b", "standard input"]),
        ("score", vec!["strike"]),
        (
            "fold",
            [&written[..], &["-b B", "--search SECONDS", "--seed N", "--list LIST", "--question QUESTION", "--solve", "--solver NAME"]]
                .concat(),
        ),
        ("run", [&written[..], &["--strict", "merge U V K L", "drop S", "collapse S", "sweep B", "preview S", "undo"]].concat()),
        ("preview", vec![]),
        ("pair", vec![]),
        ("witness", vec![]),
        ("cut", written.to_vec()),
        ("convert", written.to_vec()),
        ("part", written.to_vec()),
        ("compare", compared.to_vec()),
        ("question", written.to_vec()),
        ("alley", written.to_vec()),
        ("sheet", [&written[..], &compared[..], &["--date YYYY-MM-DD"]].concat()),
        ("picture", written.to_vec()),
    ] {
        let help = room.pmn(&format!("{command} --help")).well();
        assert!(help.starts_with(&format!("pmn {command} ")), "{help}");
        assert_eq!(room.pmn(&format!("help {command}")).well(), help);
        assert_eq!(room.pmn(&format!("{command} f.pmn f.pmn -h")).well(), help);
        for option in options {
            assert!(help.contains(option), "{command}: {option}");
        }
    }
}

#[test]
fn no_line_of_a_help_text_is_too_wide() {
    let room = room();
    for (command, _) in GOOD {
        for line in room.pmn(&format!("{command} --help")).well().lines() {
            assert!(line.chars().count() <= 132, "{command}: {line}");
        }
    }
}

#[test]
fn a_file_that_is_there_is_kept_unless_forced() {
    for (command, words) in GOOD.iter().filter(|(_, words)| words.contains("OUT")) {
        let room = room();
        room.put("OUT", "old");
        let err = room.pmn(&format!("{command} {words}")).failed(1);
        assert_eq!(err, "OUT: is there already; give --force to write over it\n", "{command}");
        assert_eq!(room.get("OUT"), b"old", "{command}");
        let over_input = words.replace("OUT", "f.pmn");
        let err = room.pmn(&format!("{command} {over_input}")).failed(1);
        assert_eq!(err, "f.pmn: is there already; give --force to write over it\n", "{command}");
        assert_eq!(room.get("f.pmn"), sample("f.pmn"), "{command}");
        room.pmn(&format!("{command} {words} --force")).well();
        assert_ne!(room.get("OUT"), b"old", "{command}");
        room.pmn(&format!("{command} {over_input} --force")).well();
        assert_eq!(room.names().len(), FILES.len() + 1, "{command}");
    }
}

#[test]
fn places_that_can_not_be_written_are_named() {
    for (command, words) in GOOD.iter().filter(|(_, words)| words.contains("OUT")) {
        let room = room();
        for (place, why) in [
            ("bin", "is a directory"),
            ("none/", "is no name for a file"),
            ("none/OUT", "No such file or directory"),
            ("f.pmn/OUT", "Not a directory"),
        ] {
            for force in ["", "--force"] {
                let err = room.pmn(&format!("{command} {} {force}", words.replace("OUT", place))).failed(1);
                assert_eq!(err, format!("{place}: {why}\n"), "{command}");
            }
        }
        assert_eq!(room.names(), FILES, "{command}");
    }
}

#[cfg(unix)]
#[test]
fn a_directory_that_may_not_be_written_is_named() {
    use std::fs;
    use std::os::unix::fs::PermissionsExt;
    let room = room();
    let closed = room.path().join("closed");
    fs::create_dir(&closed).unwrap();
    fs::set_permissions(&closed, fs::Permissions::from_mode(0o555)).unwrap();
    // whoever may write everywhere can't see this
    if fs::write(closed.join("try"), "").is_err() {
        let err = room.pmn("fold f.pmn -o closed/OUT").failed(1);
        assert!(err.ends_with("Permission denied\n"), "{err}");
        assert_eq!(fs::read_dir(&closed).unwrap().count(), 0);
    }
    fs::set_permissions(&closed, fs::Permissions::from_mode(0o755)).unwrap();
}

#[cfg(unix)]
#[test]
fn links_and_permissions_stay_where_a_file_is_written_over() {
    use std::fs;
    use std::os::unix::fs::{symlink, PermissionsExt};
    let room = room();
    room.put("old", "old");
    fs::set_permissions(room.path().join("old"), fs::Permissions::from_mode(0o640)).unwrap();
    symlink("old", room.path().join("link")).unwrap();
    symlink("nothing", room.path().join("loose")).unwrap();
    room.pmn("fold f.pmn -o link").failed(1);
    room.pmn("fold f.pmn -o loose").failed(1);
    assert!(!room.has("nothing"));
    room.pmn("fold f.pmn -o link --force").well();
    assert!(fs::symlink_metadata(room.path().join("link")).unwrap().is_symlink());
    assert_eq!(fs::metadata(room.path().join("old")).unwrap().permissions().mode() & 0o777, 0o640);
    room.pmn("check old").well();
}

#[cfg(unix)]
#[test]
fn a_device_is_written_as_it_is() {
    let room = room();
    assert!(room.pmn("fold f.pmn -o /dev/null").well().contains("folded 1"));
    assert!(room.pmn("fold f.pmn -o /dev/null --force").well().contains("folded 1"));
    assert_eq!(std::fs::read("/dev/null").unwrap(), b"");
    let err = room.pmn("fold f.pmn -o /dev/full --list list").failed(1);
    assert_eq!(err, "/dev/full: No space left on device\n");
    assert_eq!(room.names(), FILES);
}

#[test]
fn standard_input_and_output() {
    let room = room();
    let folded = room.pmn_with("fold - -o -", &sample("f.pmn"));
    assert_eq!((folded.status, folded.err.as_str()), (0, "gates 2 1\ncost 18 18\nlevels 2 1\nfolded 1\n"));
    room.pmn("fold f.pmn -o folded").well();
    assert_eq!(folded.bytes, room.get("folded"));
    assert_eq!(room.pmn_with("check -", &folded.bytes).well(), "standard input: accepted\n");
    assert_eq!(room.pmn_with("check -", b"PMN").failed(1), "standard input: refused 1 foreign mark\n");
    assert_eq!(room.pmn_with("frame f.pmn -", b"0\n3 0b111\n\n0x7").well(), "0x0 0x0 0\n0x3 0x0 0\n0x7 0x1 1\n0x7 0x1 1\n");
    assert_eq!(room.pmn_with("frame - 7", &sample("f.pmn")).well(), "0x7 0x1 1\n");
    assert_eq!(room.pmn_with("run f.pmn - -o OUT", b"collapse 3").well(), "collapse 3: done\n");
    assert_eq!(room.pmn_with("compare - folded", &sample("f.pmn")).well(), "alike on every frame: 8 were read\n");
}

#[test]
fn a_file_of_any_length_is_refused_by_its_beginning() {
    let room = room();
    let mut long = sample("f.pmn");
    long.resize(3 << 20, 0);
    assert_eq!(room.pmn_with("check -", &long).failed(1), "standard input: refused 9 tail\n");
    assert_eq!(room.pmn_with("check -", &vec![0; 3 << 20]).failed(1), "standard input: refused 1 foreign mark\n");
}

#[cfg(unix)]
#[test]
fn an_endless_file_ends() {
    let room = room();
    assert_eq!(room.pmn("check /dev/zero").failed(1), "/dev/zero: refused 1 foreign mark\n");
    assert!(room.pmn("run f.pmn /dev/zero -o OUT").failed(1).starts_with("/dev/zero: longer than 16 MB"));
    assert!(room.pmn_with("frame f.pmn -", &vec![b'1'; 1 << 16]).failed(2).starts_with("pmn frame: `1111"));
}

#[test]
fn a_closed_pipe_ends_quietly() {
    let room = room();
    let mut child =
        room.command().args(["frame", "f.pmn", "-"]).stdin(Stdio::piped()).stdout(Stdio::piped()).stderr(Stdio::piped()).spawn().unwrap();
    drop(child.stdout.take());
    let mut stdin = child.stdin.take().unwrap();
    let writer = std::thread::spawn(move || {
        use std::io::Write;
        let _ = stdin.write_all("7\n".repeat(100_000).as_bytes());
    });
    let ended = child.wait_with_output().unwrap();
    writer.join().unwrap();
    assert_eq!((ended.status.code(), ended.stderr), (Some(1), vec![]));
}

#[cfg(unix)]
#[test]
fn full_standard_output_is_said() {
    let room = room();
    let full = std::fs::OpenOptions::new().write(true).open("/dev/full").unwrap();
    let ended = room.command().args(["show", "f.pmn"]).stdout(full).stderr(Stdio::piped()).spawn().unwrap().wait_with_output().unwrap();
    assert_eq!((ended.status.code(), ended.stderr.as_slice()), (Some(1), &b"standard output: No space left on device\n"[..]));
}

#[cfg(unix)]
#[test]
fn names_of_any_bytes() {
    use std::ffi::OsStr;
    use std::os::unix::ffi::OsStrExt;
    let room = room();
    let name = OsStr::from_bytes(b"m\xffask.pmn");
    std::fs::write(room.path().join(name), sample("f.pmn")).unwrap();
    let mut command = room.command();
    assert!(run(command.arg("check").arg(name), b"").well().ends_with(": accepted\n"));
    room.put("--help", sample("f.pmn"));
    assert_eq!(room.pmn("check -- --help").well(), "--help: accepted\n");
}
