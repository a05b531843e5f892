//! Runs the program and looks at what it prints.

use std::io::Write;
use std::process::{Command, Stdio};
use std::thread::sleep;
use std::time::Duration;

pub struct Ran {
    pub status: i32,
    pub output: String,
    pub errors: String,
}

/// Runs the program, writing the input in pieces of this size.
pub fn run_in_pieces(words: &[&str], input: &[u8], piece: usize) -> Ran {
    let mut child = Command::new(env!("CARGO_BIN_EXE_reference"))
        .args(words)
        .stdin(Stdio::piped())
        .stdout(Stdio::piped())
        .stderr(Stdio::piped())
        .spawn()
        .expect("the program runs");
    let mut pipe = child.stdin.take().expect("a pipe");
    for bytes in input.chunks(piece.max(1)) {
        // The program may have read all that it wants.
        if pipe.write_all(bytes).and_then(|_| pipe.flush()).is_err() {
            break;
        }
        if piece == 1 {
            sleep(Duration::from_micros(200));
        }
    }
    drop(pipe);
    let output = child.wait_with_output().expect("the program ends");
    Ran {
        status: output.status.code().expect("an exit status"),
        output: String::from_utf8(output.stdout).expect("plain text"),
        errors: String::from_utf8(output.stderr).expect("plain text"),
    }
}

pub fn run(words: &[&str], input: &[u8]) -> Ran {
    run_in_pieces(words, input, 1 << 16)
}

#[track_caller]
pub fn check(words: &[&str], input: &[u8], status: i32, output: &str) {
    let ran = run(words, input);
    assert_eq!(ran.output, output);
    assert_eq!((ran.status, &ran.errors[..]), (status, ""));
}

#[track_caller]
pub fn check_wrong(words: &[&str], input: &[u8], message: &str) {
    let ran = run(words, input);
    assert_eq!((ran.status, &ran.output[..]), (2, ""));
    assert!(ran.errors.contains(message), "{}", ran.errors);
}
