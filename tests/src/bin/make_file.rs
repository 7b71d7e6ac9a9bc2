//! Makes a problem file from a readable text, or lists the text's states and rows under the numbers
//! that `plan` prints. `README.md` says how a text is written.
//!
//! `make_file make TEXT FILE`, `make_file show TEXT`
//!
//! FILE is written as FILE.part, which takes its name when it is whole. Nothing is replaced but a problem
//! file, so the text cannot be.

use comparisons::written::Written;
use std::fs::OpenOptions;
use std::io::{ErrorKind, Write};
use std::process::ExitCode;

/// What to type, for those who typed something else.
const USAGE: &str = "give `make TEXT FILE` or `show TEXT`";
/// The bytes of an item in each section.
const ITEMS: [usize; 4] = [4, 6, 4, 4];

/// Reads the text of a name.
fn read(name: &str) -> Result<Written, String> {
    let text = std::fs::read_to_string(name).map_err(|error| format!("{name}: {error}"))?;
    Written::read(&text).map_err(|fault| format!("{name}, {fault}"))
}

/// Whether bytes are a problem file: three or four settings, and four sections that fill it. No text is.
fn is_problem(bytes: &[u8]) -> bool {
    let mut at = 0;
    for item in ITEMS {
        let Some(&[low, high]) = bytes.get(at..at + 2) else {
            return false;
        };
        at += 2 + item * usize::from(u16::from_le_bytes([low, high]));
    }
    at == bytes.len() && matches!(bytes[..2], [3 | 4, 0])
}

/// Whether what stands under a name may go: nothing, or a file of these.
fn may_go(name: &str, is_such: fn(&[u8]) -> bool) -> Result<bool, String> {
    let fault = |error| format!("{name}: {error}");
    match std::fs::metadata(name) {
        Err(error) if error.kind() == ErrorKind::NotFound => Ok(true),
        Err(error) => Err(fault(error)),
        Ok(found) => Ok(found.is_file() && is_such(&std::fs::read(name).map_err(fault)?)),
    }
}

/// Writes a file that is new.
fn write_new(name: &str, bytes: &[u8]) -> std::io::Result<()> {
    let mut file = OpenOptions::new().write(true).create_new(true).open(name)?;
    file.write_all(bytes)?;
    file.sync_all()
}

/// Writes a problem file, or leaves everything as it is.
fn write(name: &str, bytes: &[u8]) -> Result<(), String> {
    let part = format!("{name}.part");
    if !may_go(name, is_problem)? {
        return Err(format!("{name}: is there and is no problem file: it is not replaced"));
    }
    if !may_go(&part, |bytes| bytes.is_empty() || is_problem(bytes))? {
        return Err(format!("{part}: is there and is no problem file: it is not replaced"));
    }
    drop(std::fs::remove_file(&part));
    let written = write_new(&part, bytes).and_then(|()| std::fs::rename(&part, name));
    written.map_err(|error| {
        drop(std::fs::remove_file(&part));
        format!("{name}: {error}")
    })
}

/// Does what the words ask for.
fn run(words: &[&str]) -> Result<(), String> {
    match words {
        [_, names @ ..] if names.iter().any(|name| name.starts_with('-')) => Err(USAGE.into()),
        ["make", text, file] => write(file, &read(text)?.draft.bytes()),
        ["show", text] => {
            print!("{}", read(text)?.listing());
            Ok(())
        }
        _ => Err(USAGE.into()),
    }
}

fn main() -> ExitCode {
    let words: Vec<String> = std::env::args().skip(1).collect();
    let words: Vec<&str> = words.iter().map(String::as_str).collect();
    match run(&words) {
        Ok(()) => ExitCode::SUCCESS,
        Err(fault) => {
            eprintln!("make_file: {fault}");
            ExitCode::FAILURE
        }
    }
}
