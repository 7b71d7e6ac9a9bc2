//! Says which must-fail edits do not apply, by the rules that `rt` has for them. README.md tells them.

mod edits;

use std::path::PathBuf;
use std::process::ExitCode;

pub type Outcome<T> = Result<T, String>;

/// The top of the repository that the current folder is in.
fn top() -> Outcome<PathBuf> {
    let here = std::env::current_dir().map_err(|e| e.to_string())?;
    let top = here.ancestors().find(|folder| folder.join("crates.txt").is_file());
    Ok(top.ok_or("no crates.txt in this folder or above it")?.to_path_buf())
}

fn main() -> ExitCode {
    let words: Vec<String> = std::env::args().skip(1).collect();
    match top().and_then(|top| edits::check(&top, &words)) {
        Ok(()) => ExitCode::SUCCESS,
        Err(message) => {
            eprintln!("{message}");
            ExitCode::FAILURE
        }
    }
}
