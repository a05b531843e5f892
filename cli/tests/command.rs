//! The command line: exit statuses, help, what is written and what is not.

mod common;

use common::{example, folder, printed, root, text, tool};
use std::process::Stdio;

fn status(words: &[&str], input: &[u8]) -> i32 {
    tool(words, input).status.code().expect("no signal")
}

#[test]
fn exit_statuses() {
    let good = example("reverse");
    for words in [["translate", "-"], ["assemble", "-"]] {
        assert_eq!(status(&words, good.as_bytes()), 0);
        assert_eq!(status(&words, b"stop\nshape\np0 -> a -> b\n"), 1);
        assert_eq!(status(&words, b"stp\n"), 2);
    }
    assert_eq!(status(&["disassemble", "examples/tortoise.records"], b""), 0);
    assert_eq!(status(&["disassemble", "-"], &[0; 32]), 1);
    assert_eq!(status(&["translate", "examples/leak.txt", "--locations", "1024", "--edges=2048"], b""), 0);
    assert_eq!(status(&["translate", "--bench", "examples/leak.txt"], b""), 0);
    let wrong: [&[&str]; 31] = [
        &[],
        &["translat", "-"],
        &["translate"],
        &["translate", "examples/reverse.txt", "examples/leak.txt"],
        &["translate", "examples/none.txt"],
        &["translate", "examples"],
        &["translate", "--hexx", "examples/reverse.txt"],
        &["translate", "--hex", "--dot", "examples/reverse.txt"],
        &["translate", "--hex", "--hex", "examples/reverse.txt"],
        &["translate", "--hex=1", "examples/reverse.txt"],
        &["translate", "examples/reverse.txt", "--svg"],
        &["translate", "examples/reverse.txt", "--locations", "1025"],
        &["translate", "examples/reverse.txt", "--edges", "-1"],
        &["translate", "examples/reverse.txt", "--bench=1"],
        &["translate", "examples/reverse.txt", "--bench", "--bench"],
        &["translate", "examples/reverse.txt", "--bench", "--locations", "128"],
        &["translate", "examples/reverse.txt", "--edges=256", "--bench"],
        &["assemble", "examples/reverse.records"],
        &["disassemble", "examples/reverse.txt"],
        &["show", "examples/reverse.txt"],
        &["show", "examples/reverse.txt", "edge", "1", "2"],
        &["show", "examples/reverse.txt", "statement", "1"],
        &["show", "examples/reverse.txt", "edge", "one"],
        &["show", "examples/reverse.txt", "edge", "-1"],
        &["find", "examples/reverse.txt"],
        &["find", "examples/reverse.txt", "4c", "00"],
        &["find", "examples/reverse.txt", "location"],
        &["find", "examples/reverse.txt", "4c", "--hex"],
        &["find", "examples/reverse.txt", "-4c"],
        &["find", "-", "-"],
        &["help", "me"],
    ];
    for words in wrong {
        let done = tool(words, b"");
        let said = text(&done.stderr);
        assert_eq!(done.status.code(), Some(2), "{words:?} {said}");
        assert!(done.stdout.is_empty() && (said.contains("currantplane") && said.ends_with('\n')), "{words:?} {said}");
    }
}

#[test]
fn help_says_what_is_proved() {
    for words in [
        vec!["help"],
        vec!["--help"],
        vec!["-h"],
        vec!["help", "translate"],
        vec!["run", "--help"],
        vec!["help", "assemble"],
        vec!["disassemble", "-h"],
        vec!["help", "show"],
        vec!["help", "walk"],
        vec!["help", "ranges"],
        vec!["help", "find"],
        vec!["find", "-h"],
    ] {
        let done = tool(&words, b"");
        let said = text(&done.stdout);
        assert_eq!((done.status.code(), done.stderr.len()), (Some(0), 0), "{words:?}");
        assert!(said.contains("What is proved: ") && said.contains("What is not proved: "), "{said}");
        assert!(said.lines().all(|l| l.len() <= 100), "{said}");
    }
    for option in ["--hex", "--dot", "--svg", "--bench", "--locations", "--edges"] {
        assert!(text(&printed(&["help", "translate"], b"")).contains(option));
    }
    assert!(text(&printed(&["help", "translate"], b"")).contains("for 9, 18 and 19 `refused NUMBER PLACE NODE`.\n"));
    assert!(text(&printed(&["help"], b"")).contains("translate FILE --bench\n"));
    for option in ["--heap", "--shape", "--picks", "--steps"] {
        assert!(text(&printed(&["help", "run"], b"")).contains(option));
    }
    for option in ["--heap", "--shape", "--edges"] {
        assert!(text(&printed(&["walk", "-h"], b"")).contains(option));
    }
    for option in ["--start", "--counters", "--edges"] {
        assert!(text(&printed(&["ranges", "--help"], b"")).contains(option));
    }
    assert!(text(&printed(&["help"], b"")).contains("  currantplane walk FILE  "));
    assert!(text(&printed(&["help"], b"")).contains("  currantplane ranges FILE  "));
    assert!(text(&printed(&["help"], b"")).contains("  currantplane find FILE RECORD  "));
    assert!(text(&printed(&["help", "find"], b"")).starts_with("currantplane find FILE RECORD\n"));
    assert!(text(&tool(&[], b"").stderr).contains("translate|show|find|run|walk|ranges|assemble|disassemble FILE"));
    assert!(text(&printed(&["help", "translate"], b"")).contains("The edge of a `drop` has no guard;"));
    assert!(text(&printed(&["help", "run"], b"")).contains("`drop` says how many cells went"));
}

#[test]
fn files_are_written_whole_or_not_at_all() {
    let folder = folder("written");
    let file = folder.join("out");
    let name = file.to_str().unwrap();
    std::fs::write(&file, "as it was").unwrap();
    for (words, input) in [
        (["assemble", "-", "-o", name], "stp\n"),
        (["assemble", "-", "-o", name], "stop\nshape\np0 -> a -> b\n"),
        (["disassemble", "-", "-o", name], "S\0"),
        (["translate", "-", "--svg", name], "stop\n"),
        (["translate", "-", "--svg", name], "stop\nshape\np0 -> a -> b\n"),
    ] {
        assert_ne!(status(&words, input.as_bytes()), 0);
        assert_eq!(std::fs::read_to_string(&file).unwrap(), "as it was", "{words:?}");
    }
    let done = tool(&["assemble", "examples/reverse.txt", "-o", name], b"");
    assert_eq!((done.status.code(), done.stdout.len(), done.stderr.len()), (Some(0), 0, 0));
    let records = std::fs::read(root().join("examples/reverse.records")).unwrap();
    assert_eq!(std::fs::read(&file).unwrap(), records);
    assert_eq!(printed(&["assemble", "-"], example("reverse").as_bytes()), records);
    assert_eq!(status(&["assemble", "examples/reverse.txt", "-o", "/nowhere/out"], b""), 2);
}

#[test]
fn text_and_records_give_the_same() {
    let records = printed(&["assemble", "examples/ring.txt"], b"");
    for option in ["--hex", "--locations=1000"] {
        let of_text = text(&printed(&["translate", "examples/ring.txt", option], b""));
        let of_records = text(&printed(&["translate", "-", option], &records));
        // records have no labels and no file name
        let plain = of_text.replace("examples/ring.txt", "standard input").replace(" (turn)", "").replace(" (alone)", "");
        assert_eq!(plain, of_records);
    }
}

#[test]
fn no_colours_without_a_terminal() {
    let record = text(&printed(&["translate", "examples/leak.txt", "--hex"], b""));
    for words in [
        vec!["translate", "examples/leak.txt"],
        vec!["run", "examples/leak.txt", "--heap", "2"],
        vec!["walk", "examples/leak.txt", "--heap", "2", "--edges", "0"],
        vec!["ranges", "examples/leak.txt", "--counters", "1..2", "--edges", "0,1,2,4"],
        vec!["find", "examples/leak.txt", &record[..64]],
    ] {
        assert!(!printed(&words, b"").contains(&0x1b));
    }
}

#[test]
fn a_reader_that_goes_away_is_no_failure() {
    let mut child = common::command()
        .args(["translate", "examples/remove.txt"])
        .stdout(Stdio::piped())
        .stderr(Stdio::piped())
        .spawn()
        .unwrap();
    drop(child.stdout.take());
    let done = child.wait_with_output().unwrap();
    assert_eq!((done.status.code(), text(&done.stderr)), (Some(0), String::new()));
}

#[test]
fn a_full_disk_is_told() {
    let full = std::fs::OpenOptions::new().write(true).open("/dev/full").unwrap();
    let done = common::command().args(["translate", "examples/leak.txt"]).stdout(full).stderr(Stdio::piped()).output().unwrap();
    assert_eq!(done.status.code(), Some(2));
    assert!(text(&done.stderr).starts_with("currantplane: cannot write standard output: "));
}
