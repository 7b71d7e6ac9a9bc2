//! Whether the must-fail edits still apply: a `file:` line holds for the `old:` and `new:` lines after it,
//! and each old text stands once in its file as edited so far.

use crate::Outcome;
use std::collections::BTreeMap;
use std::fs;
use std::path::{Path, PathBuf};

/// The folders that an edit may reach.
const PARTS: [&str; 3] = ["src/", "specs/", "proofs/"];

/// Says how many edits each crate has, of those named or of all, and which do not apply.
pub fn check(top: &Path, names: &[String]) -> Outcome<()> {
    let crates = crates(&read(&top.join("crates.txt"))?);
    if let Some(other) = names.iter().find(|name| !crates.contains(name)) {
        return Err(format!("crates.txt lists no crate {other}"));
    }
    let (mut faults, mut count) = (Vec::new(), 0);
    for name in crates.iter().filter(|name| names.is_empty() || names.contains(name)) {
        let folder = top.join("crates").join(name);
        let files = files(&folder.join("must-fail"))?;
        for file in &files {
            let fault = fault(&folder, file);
            let short = file.strip_prefix(top).unwrap_or(file).display();
            faults.extend(fault.map(|fault| format!("{short}: {fault}")));
        }
        if !files.is_empty() {
            println!("edits: {name}: {}", files.len());
        }
        count += files.len();
    }
    if !faults.is_empty() {
        return Err(faults.join("\n"));
    }
    println!("edits: {count}, and all apply");
    Ok(())
}

/// The crates that a crates.txt lists.
fn crates(text: &str) -> Vec<String> {
    let lines = text.lines().map(|line| line.split('#').next().unwrap_or(""));
    let names = lines.filter_map(|line| line.split_once(':')?.0.split_whitespace().next());
    names.map(String::from).collect()
}

/// All that stands in a folder of edits, in order, but for pages that are only to be read. There may be no
/// such folder.
fn files(folder: &Path) -> Outcome<Vec<PathBuf>> {
    let Ok(entries) = fs::read_dir(folder) else { return Ok(Vec::new()) };
    let mut found = Vec::new();
    for entry in entries {
        let path = entry.map_err(|e| format!("{}: {e}", folder.display()))?.path();
        if path.extension().is_none_or(|end| end != "md") {
            found.push(path);
        }
    }
    found.sort_unstable();
    Ok(found)
}

/// Why a file of must-fail/ is no edit that applies, if it is none.
fn fault(folder: &Path, file: &Path) -> Option<String> {
    let name = file.file_name().and_then(|name| name.to_str()).unwrap_or("");
    let is_plain = |c: char| c.is_ascii_alphanumeric() || "_.-".contains(c);
    if !name.ends_with(".edit") || name.starts_with('.') || !name.chars().all(is_plain) {
        return Some("an edit's name is of letters, digits, _, - and . and ends in .edit".into());
    }
    read(file).and_then(|text| applied(folder, &text)).err()
}

/// The files that an edit changes, as it leaves them, or why it does not apply.
fn applied(folder: &Path, edit: &str) -> Outcome<BTreeMap<String, String>> {
    let mut changed = BTreeMap::new();
    let (mut file, mut old) = ("", "");
    for line in edit.split('\n') {
        if let Some(name) = line.strip_prefix("file: ") {
            file = name.trim();
            if !PARTS.iter().any(|part| file.starts_with(part)) || leads_out(file) {
                return Err(format!("`{file}` is no file under src/, specs/ or proofs/"));
            }
        } else if let Some(text) = line.strip_prefix("old: ") {
            old = text;
        } else if let Some(new) = line.strip_prefix("new:") {
            if file.is_empty() || old.is_empty() {
                return Err("a `new:` line has no `file:` or `old:` line before it".into());
            }
            let text = match changed.remove(file) {
                Some(text) => text,
                None => read(&folder.join(file))?,
            };
            let new = new.strip_prefix(' ').unwrap_or(new);
            changed.insert(file.to_string(), replaced(&text, file, old, new)?);
            old = "";
        }
    }
    if changed.is_empty() {
        return Err("it has no `old:` and `new:` pair".into());
    }
    let is_same = |(file, text): (&String, &String)| read(&folder.join(file)).as_ref() == Ok(text);
    if changed.iter().all(is_same) {
        return Err("it changes nothing".into());
    }
    Ok(changed)
}

/// Whether a path has a part that is no plain name.
fn leads_out(file: &str) -> bool {
    file.split('/').any(|part| ["", ".", ".."].contains(&part))
}

/// The text with the new words for the old ones, which stand in it once.
fn replaced(text: &str, file: &str, old: &str, new: &str) -> Outcome<String> {
    match text.matches(old).count() {
        1 => Ok(text.replacen(old, new, 1)),
        0 => Err(format!("the `old:` text is not in {file}: {old}")),
        _ => Err(format!("the `old:` text is in {file} more than once: {old}")),
    }
}

fn read(path: &Path) -> Outcome<String> {
    fs::read_to_string(path).map_err(|e| format!("{}: {e}", path.display()))
}

#[cfg(test)]
mod tests {
    use super::*;

    /// A folder of its own, which goes when it is dropped.
    struct Temp(PathBuf);

    impl Temp {
        /// A repository with a crate `low`, its sources and a folder for edits.
        fn new(name: &str) -> Temp {
            let top = std::env::temp_dir().join(format!("edits-{name}-{}", std::process::id()));
            drop(fs::remove_dir_all(&top));
            let temp = Temp(top);
            temp.put("crates.txt", "low: # the lowest\nc staticlib: low\n");
            temp.put("crates/low/src/lib.rt", "one two\ntwo three aaa");
            temp.put("crates/low/specs/A.antt", "a = b\n");
            temp.put("crates/low/stdin", "one");
            temp
        }

        fn put(&self, file: &str, text: &str) {
            let path = self.0.join(file);
            fs::create_dir_all(path.parent().unwrap()).unwrap();
            fs::write(path, text).unwrap();
        }

        fn folder(&self) -> PathBuf {
            self.0.join("crates/low")
        }
    }

    impl Drop for Temp {
        fn drop(&mut self) {
            drop(fs::remove_dir_all(&self.0));
        }
    }

    #[test]
    fn edits_apply_one_after_the_other() {
        let temp = Temp::new("apply");
        let found = applied(
            &temp.folder(),
            "a comment\nfile: src/lib.rt\nold: one two\nnew: one\n\nold: two\nnew:\nfile: specs/A.antt \nold: b\nnew:   c \n\
             file: src/lib.rt\nold: three\nnew:b",
        );
        let asked = [("specs/A.antt", "a =   c \n"), ("src/lib.rt", "one\n b aaa")];
        assert_eq!(found, Ok(asked.map(|(f, t)| (f.to_string(), t.to_string())).into()));
    }

    #[test]
    fn an_edit_that_does_not_apply_says_why() {
        let temp = Temp::new("faults");
        let no_pair = "it has no `old:` and `new:` pair";
        let no_front = "a `new:` line has no `file:` or `old:` line before it";
        let no_part = "is no file under src/, specs/ or proofs/";
        for (edit, fault) in [
            ("", no_pair),
            ("file: src/lib.rt\nold: one\n", no_pair),
            ("file: src/lib.rt\nold: two\nnew: one\n", "is in src/lib.rt more than once: two"),
            ("file: src/lib.rt\nold: four\nnew: one\n", "is not in src/lib.rt: four"),
            ("file: src/lib.rt\nold:one\nnew: two\n", no_front),
            ("file: src/lib.rt\nold: one\nnew: 1\nnew: 2\n", no_front),
            ("file: src/lib.rt\nold: one\nnew: 1\nold: one\nnew: 2\n", "is not in src/lib.rt: one"),
            ("old: one\nnew: 1\n", no_front),
            ("file: /src/lib.rt\nold: one\nnew: 1\n", no_part),
            ("file: src/../stdin\nold: one\nnew: 1\n", no_part),
            ("file: src/./lib.rt\nold: one\nnew: 1\n", no_part),
            ("file: stdin\nold: one\nnew: 1\n", no_part),
            ("file: src/main.rt\nold: one\nnew: 1\n", "No such file or directory (os error 2)"),
            ("file: src/lib.rt\nold: one\nnew: one\n", "it changes nothing"),
        ] {
            let found = applied(&temp.folder(), edit).unwrap_err();
            assert!(found.ends_with(fault), "{edit}\n{found}");
        }
    }

    #[test]
    fn all_edits_of_the_crates_are_looked_at() {
        let temp = Temp::new("all");
        let good = "file: src/lib.rt\nold: one\nnew: 1\n";
        temp.put("crates/low/must-fail/a.edit", good);
        temp.put("crates/low/must-fail/notes.md", "only to be read");
        temp.put("crates/c/must-fail/b.edit", "file: src/lib.rt\nold: one\nnew: 1\n");
        temp.put("crates/c/src/lib.rt", "one\n");
        assert_eq!(check(&temp.0, &[]), Ok(()));
        temp.put("crates/c/src/lib.rt", "two\n");
        let fault = "crates/c/must-fail/b.edit: the `old:` text is not in src/lib.rt: one";
        assert_eq!(check(&temp.0, &[]), Err(fault.into()));
        assert_eq!(check(&temp.0, &["low".into()]), Ok(()));
        temp.put("crates/low/must-fail/a b.edit", good);
        temp.put("crates/low/must-fail/deeper/a.edit", good);
        let found = check(&temp.0, &["low".into()]).unwrap_err();
        assert_eq!(found.lines().count(), 2, "{found}");
        let fault = "crates.txt lists no crate other";
        assert_eq!(check(&temp.0, &["other".into()]), Err(fault.into()));
    }
}
