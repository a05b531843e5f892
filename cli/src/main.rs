//! The command line: arguments in, result and exit status out.

use std::io::{ErrorKind, IsTerminal, Write};
use std::process::ExitCode;
use tool::commands::{perform, Done, Screen};
use tool::source::Failure;
use tool::style::Style;

fn main() -> ExitCode {
    let screen = Screen { terminal: std::io::stdout().is_terminal(), style: Style::of_output() };
    let words: Result<Vec<String>, _> = std::env::args_os().skip(1).map(|w| w.into_string()).collect();
    let done = match words {
        Ok(words) => perform(&words, screen),
        Err(word) => Err(Failure::bad_use(format!("{} is not UTF-8", word.to_string_lossy()))),
    };
    let status = match done.and_then(write) {
        Ok(status) => status,
        Err(failure) => {
            // there is no one to tell if this fails
            let _ = std::io::stderr().write_all(failure.message.as_bytes());
            failure.status
        }
    };
    ExitCode::from(status)
}

/// Writes the result whole. A reader that has gone away is no failure.
fn write(done: Done) -> Result<u8, Failure> {
    let name = done.file.as_deref().unwrap_or("standard output");
    let written = match &done.file {
        Some(file) => std::fs::write(file, &done.output),
        None => std::io::stdout().write_all(&done.output).and_then(|()| std::io::stdout().flush()),
    };
    match written {
        Err(e) if e.kind() != ErrorKind::BrokenPipe => Err(Failure::bad_use(format!("cannot write {name}: {e}"))),
        _ => Ok(done.status),
    }
}
