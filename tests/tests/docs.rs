//! What the documents cite is there: each word of docs/COVERAGE.md, and of README's table of what a
//! reader has to believe, that stands as code behind a line's first column is a definition, a theorem, a
//! function or a clause of its contract, a wrong program, a test, a program, or a path.

use std::collections::HashSet;
use std::fs;
use std::path::{Path, PathBuf};

fn top() -> PathBuf {
    PathBuf::from(env!("CARGO_MANIFEST_DIR")).join("..")
}

/// Every file below a folder, but for what `rt` keeps in out/, where older texts may lie.
fn files(folder: &Path) -> Vec<PathBuf> {
    let mut found = Vec::new();
    for entry in fs::read_dir(folder).into_iter().flatten().flatten() {
        let path = entry.path();
        if path.is_dir() {
            if !path.ends_with("out") {
                found.extend(files(&path));
            }
        } else {
            found.push(path);
        }
    }
    found
}

fn read(path: &Path) -> String {
    fs::read_to_string(path).unwrap_or_else(|error| panic!("{}: {error}", path.display()))
}

/// The word at the front of a text.
fn front_word(text: &str) -> Option<&str> {
    text.split(|c: char| c.is_whitespace() || "(:{<;=,[".contains(c))
        .next()
        .filter(|w| !w.is_empty())
}

fn indent(line: &str) -> usize {
    line.len() - line.trim_start().len()
}

/// What a file of specs or of theorems declares for others: its definitions, theorems, records with their fields, data
/// with their constructors.
fn declared(text: &str) -> HashSet<String> {
    let mut names = HashSet::new();
    let mut data = None;
    for line in text.lines() {
        let code = line.split("--").next().unwrap_or("");
        if code.trim().is_empty() {
            continue;
        }
        if data.is_some_and(|at| indent(code) <= at) {
            data = None;
        }
        let words = code.trim_start();
        let words =
            ["abbrev ", "unfoldable "].iter().find_map(|w| words.strip_prefix(w)).unwrap_or(words);
        let public = words.strip_prefix("pub ");
        if let Some(kind) = public.and_then(|w| w.strip_prefix("data ")) {
            data = Some(indent(code));
            names.extend(front_word(kind).map(String::from));
        } else if let Some(word) = public {
            let word = word.strip_prefix("record ").unwrap_or(word);
            names.extend(front_word(word).map(String::from));
        } else if data.is_some() && words.contains(" : ") {
            names.extend(front_word(words).map(String::from));
        }
    }
    names.remove("mod");
    names
}

/// What a file of code declares: functions, the named clauses of their contracts, structs with their
/// fields, enums, constants, modules.
fn coded(text: &str) -> HashSet<String> {
    let mut names = HashSet::new();
    let mut in_type = false;
    for line in text.lines() {
        in_type = (in_type && !line.starts_with('}'))
            || line.contains("struct ")
            || line.contains("enum ");
        let mut words = line.split("//").next().unwrap_or("").trim_start();
        for mark in ["pub ", "extern \"C\" "] {
            words = words.strip_prefix(mark).unwrap_or(words);
        }
        for kind in ["fn ", "struct ", "enum ", "const ", "mod ", "ensures "] {
            names.extend(words.strip_prefix(kind).and_then(front_word).map(String::from));
        }
        names.extend(words.split_once(": ").filter(|_| in_type).map(|(name, _)| name.to_string()));
    }
    names
}

/// All that may be cited by its name.
fn names() -> HashSet<String> {
    let mut names = HashSet::new();
    for file in files(&top().join("crates")) {
        let is_below = |folder: &str| file.iter().any(|part| part == folder);
        let kind = file.extension().and_then(|e| e.to_str()).unwrap_or("");
        let stem = file.file_stem().and_then(|s| s.to_str()).unwrap_or("").to_string();
        // these two have no functions: what stands in their proofs is theorems
        let holds_theorems = is_below("model") || is_below("guarantee");
        match kind {
            "antt" if is_below("specs") || is_below("proofs") && holds_theorems => {
                names.extend(declared(&read(&file)));
                names.insert(format!("{stem}.antt"));
            }
            "rt" if is_below("src") => names.extend(coded(&read(&file))),
            "edit" if is_below("must-fail") => drop(names.insert(stem)),
            _ => {}
        }
    }
    for name in fs::read_dir(top().join("crates")).expect("crates").flatten() {
        names.extend(name.file_name().to_str().map(String::from));
    }
    names
}

/// The words between backquotes.
fn code_words(text: &str) -> Vec<String> {
    text.split('`').skip(1).step_by(2).map(str::to_string).collect()
}

/// Those of a table's lines, behind the first column, that are no name and no path, each with its line.
fn missing(names: &HashSet<String>, lines: &[&str]) -> Vec<String> {
    let mut found = Vec::new();
    for line in lines {
        let behind = line.trim_start_matches("| ").split_once(" | ").map_or("", |(_, rest)| rest);
        for word in code_words(behind) {
            if !names.contains(&word) && !top().join(&word).exists() {
                found.push(format!("{word}: {line}"));
            }
        }
    }
    found
}

/// The lines of the tables of a text.
fn table_lines(text: &str) -> Vec<&str> {
    text.lines().filter(|l| l.starts_with("| ")).collect()
}

#[test]
fn what_coverage_cites_is_there() {
    let text = read(&top().join("docs/COVERAGE.md"));
    let lines = table_lines(&text);
    assert!(lines.len() > 150, "one line for each sentence");
    let missing = missing(&names(), &lines);
    assert!(
        missing.is_empty(),
        "cited in docs/COVERAGE.md and declared nowhere:\n{}",
        missing.join("\n")
    );
}

#[test]
fn what_a_reader_has_to_believe_is_there() {
    let text = read(&top().join("README.md"));
    let section = text.split("\n## ").find(|s| s.starts_with("What a reader has to believe"));
    let lines = table_lines(section.expect("the section"));
    assert!(lines.len() > 8, "one line for each call");
    let missing = missing(&names(), &lines);
    assert!(missing.is_empty(), "cited in README.md and declared nowhere:\n{}", missing.join("\n"));
}

#[test]
fn a_word_that_is_only_used_is_no_name() {
    let specs = "-- pub remark : used\nuse a.{other}\npub record R (p : P) : Type 0 where\n  pub field : used\n\
                 pub data D : Type 0 where\n  case : used → D\nabbrev pub short : ℕ\nshort = used\n\
                 pub theorem\n    : (x : used)\n    → used\nhidden : used\nmodule _ where\n  pub inner : used\n";
    let asked = ["R", "field", "D", "case", "short", "theorem", "inner"].map(String::from);
    assert_eq!(declared(specs), HashSet::from(asked));
    let code = "// fn remark\nuse a::other;\npub struct S {\n    pub field: u8,\n}\npub extern \"C\" fn f(\n    x: u8,\n) -> u8\n    \
                ensures { used }\n    ensures clause { used }\n{\n    g(used)\n}\nconst C: usize = used;\n";
    let asked = ["S", "field", "f", "clause", "C"].map(String::from);
    assert_eq!(coded(code), HashSet::from(asked));
    let lines =
        ["| `first` | `f`, `used` and `README.md` |", "| x | *tested*: `nowhere.rs` | `S` |"];
    let found: Vec<String> = missing(&coded(code), &lines);
    assert_eq!(found, [format!("used: {}", lines[0]), format!("nowhere.rs: {}", lines[1])]);
}
