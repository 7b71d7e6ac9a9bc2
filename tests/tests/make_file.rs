//! `make_file` as a program: what it writes, what it lists, and how it says that it cannot.

use comparisons::examples::{file_p, path, stick};
use comparisons::programs::Folder;
use std::os::unix::fs::symlink;
use std::process::{Command, Output};

/// Runs the maker in a folder.
fn make_file(folder: &Folder, words: &[&str]) -> Output {
    let mut command = Command::new(env!("CARGO_BIN_EXE_make_file"));
    command.args(words).current_dir(folder.path("")).output().expect("it runs")
}

/// Runs the maker in a folder, where a file may have no byte, as on a disk that is full.
fn make_on_full_disk(folder: &Folder, words: &[&str]) -> Output {
    let mut command = Command::new("sh");
    command.args(["-c", "trap '' XFSZ; ulimit -f 0; exec \"$@\"", "sh"]);
    command.arg(env!("CARGO_BIN_EXE_make_file")).args(words).current_dir(folder.path(""));
    command.output().expect("it runs")
}

/// The message of a run that fails.
fn fault(folder: &Folder, words: &[&str]) -> String {
    let output = make_file(folder, words);
    assert!(!output.status.success() && output.stdout.is_empty(), "{words:?}");
    String::from_utf8(output.stderr).expect("a text")
}

#[test]
fn it_makes_and_shows() {
    let folder = Folder::new("make-file-makes");
    let output = make_file(&folder, &["make", &path("stick.txt"), "stick"]);
    assert!(output.status.success() && output.stdout.is_empty() && output.stderr.is_empty());
    assert_eq!(folder.get("stick"), Some(stick().bytes()));
    let output = make_file(&folder, &["show", &path("P.txt")]);
    assert!(output.status.success() && output.stderr.is_empty());
    assert!(output.stdout.starts_with(b"state 0  first"));
    assert!(output.stdout.ends_with(b"  row 2  300 s: done 1000\ngoal 2  done\n"));
}

/// E7: a total that is given is the fourth setting, 1,000 too, and whether it is one, the planner asks.
/// Without the line there are three settings.
#[test]
fn it_writes_the_total_that_is_given() {
    let folder = Folder::new("make-file-total");
    let text = std::fs::read_to_string(path("P.txt")).expect("P's text");
    for (line, fourth) in [
        ("", None),
        ("total 100", Some(100)),
        ("total 1000 # of W", Some(1_000)),
        ("total 4096", Some(4_096)),
        ("total 10000", Some(10_000)),
        ("total 999", Some(999)),
        ("total 4294967295", Some(u32::MAX)),
    ] {
        folder.put("text", Some(format!("{line}\n{text}").as_bytes()));
        let output = make_file(&folder, &["make", "text", "file"]);
        assert!(output.status.success() && output.stdout.is_empty() && output.stderr.is_empty());
        assert_eq!(folder.get("file"), Some(file_p().with_fourth(fourth).bytes()), "{line}");
        let shown = make_file(&folder, &["show", "text"]).stdout;
        assert_eq!(shown, make_file(&folder, &["show", &path("P.txt")]).stdout, "{line}");
    }
    folder.put("text", Some(format!("total many\n{text}").as_bytes()));
    let asked = "make_file: text, line 1: `many`: a whole number from 0 to 4294967295 is meant\n";
    assert_eq!(fault(&folder, &["make", "text", "file"]), asked);
    folder.put("text", Some(format!("{text}\ntotal 100\ntotal 100\n").as_bytes()));
    assert!(fault(&folder, &["make", "text", "file"]).ends_with(": `total` is given twice\n"));
}

#[test]
fn it_names_what_is_wrong() {
    let folder = Folder::new("make-file-faults");
    folder.put("text", Some(b"start a\ntolerance 1\npenalty many\n"));
    let asked = "make_file: text, line 3: `many`: a whole number from 0 to 4294967295 is meant\n";
    assert_eq!(fault(&folder, &["make", "text", "file"]), asked);
    assert_eq!(fault(&folder, &["show", "text"]), asked);
    folder.put("bytes", Some(&[0xff]));
    assert!(fault(&folder, &["show", "bytes"]).starts_with("make_file: bytes: "));
    assert!(fault(&folder, &["show", "missing"]).starts_with("make_file: missing: "));
    let nowhere = fault(&folder, &["make", &path("P.txt"), "nowhere/file"]);
    assert!(nowhere.starts_with("make_file: nowhere/file: "));
    assert_eq!(folder.names(), ["bytes", "text"]);
}

#[test]
fn it_says_what_to_type() {
    let folder = Folder::new("make-file-words");
    folder.put("text", Some(&std::fs::read(path("P.txt")).expect("P's text")));
    folder.put("-text", folder.get("text").as_deref());
    for words in [
        &[][..],
        &["make"],
        &["make", "text"],
        &["make", "text", "-file"],
        &["make", "-text", "file"],
        &["show"],
        &["show", "a", "b"],
        &["show", "-text"],
        &["a"],
        &["--help"],
    ] {
        let asked = "make_file: give `make TEXT FILE` or `show TEXT`\n";
        assert_eq!(fault(&folder, words), asked);
        assert_eq!(folder.names(), ["-text", "text"]);
    }
    assert!(make_file(&folder, &["make", "./-text", "./-file"]).status.success());
    assert_eq!(folder.names(), ["-file", "-text", "text"]);
}

/// What it says of a name that holds anything but a problem file.
fn taken(name: &str) -> String {
    format!("make_file: {name}: is there and is no problem file: it is not replaced\n")
}

/// The text, under any name and through any link, and every other file that is no problem stay.
#[test]
fn it_replaces_problem_files_alone() {
    let folder = Folder::new("make-file-replaces");
    let text = std::fs::read(path("P.txt")).expect("P's text");
    let file = file_p().bytes();
    let cut =
        [&file[1..], &file[..file.len() - 1], &[&file[..], &[0]].concat(), &[]].map(<[u8]>::to_vec);
    folder.put("text", Some(&text));
    std::fs::create_dir(folder.path("folder")).expect("a folder can be made");
    symlink("text", folder.path("link")).expect("a link can be made");
    std::fs::hard_link(folder.path("text"), folder.path("same")).expect("a link can be made");
    let standing = folder.names();
    for name in ["text", "./text", "folder/../text", "link", "same", "folder", "/dev/null"] {
        assert_eq!(fault(&folder, &["make", "text", name]), taken(name));
        assert_eq!(folder.get("text"), Some(text.clone()), "{name}");
        assert_eq!(folder.names(), standing);
    }
    for bytes in &cut {
        folder.put("file", Some(bytes));
        assert_eq!(fault(&folder, &["make", "text", "file"]), taken("file"));
        assert_eq!(folder.get("file").as_ref(), Some(bytes));
    }
    for before in [None, Some(stick().bytes()), Some(file.clone())] {
        folder.put("file", before.as_deref());
        assert!(make_file(&folder, &["make", "text", "file"]).status.success());
        assert_eq!(folder.get("file"), Some(file.clone()));
    }
}

/// It writes a part file first: one of an earlier run goes, and anything else stays.
#[test]
fn it_writes_a_part_file_first() {
    let folder = Folder::new("make-file-parts");
    let (old, file) = (stick().bytes(), file_p().bytes());
    folder.put("file", Some(&old));
    for part in [&b"mine"[..], &file[1..]] {
        folder.put("file.part", Some(part));
        assert_eq!(fault(&folder, &["make", &path("P.txt"), "file"]), taken("file.part"));
        assert_eq!(folder.get("file.part").as_deref(), Some(part));
        assert_eq!(folder.get("file").as_ref(), Some(&old));
    }
    for part in [&[], &file[..]] {
        folder.put("file", Some(&old));
        folder.put("file.part", Some(part));
        assert!(make_file(&folder, &["make", &path("P.txt"), "file"]).status.success());
        assert_eq!(folder.get("file").as_ref(), Some(&file));
        assert_eq!(folder.names(), ["file"]);
    }
    folder.put("file", Some(&old));
    for name in ["file", "new"] {
        let ended = make_on_full_disk(&folder, &["make", &path("P.txt"), name]);
        let message = String::from_utf8(ended.stderr).expect("a text");
        assert!(!ended.status.success() && message.starts_with(&format!("make_file: {name}: ")));
        assert_eq!(folder.get("file").as_ref(), Some(&old));
        assert_eq!(folder.names(), ["file"]);
    }
}
