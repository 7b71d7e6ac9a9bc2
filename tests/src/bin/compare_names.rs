//! Tries the programs on names that cannot be read or written, on names of files that are no tables, on
//! the longest names, on names that begin with `-`, and on too few and too many of them, with and without
//! `--finish`, and on `--finish` where it does not count: there is a message on standard error, nothing is
//! lost, and there is no table that is not whole.
//!
//! `compare_names [plan] [audit] [sheet]`

use comparisons::encode::Draft;
use comparisons::examples::file_p;
use comparisons::extremes::of_length;
use comparisons::harness::Tally;
use comparisons::limits::{MAX_STATES, PLAN_HOLDS};
use comparisons::listing::{plan_lines, planned_by};
use comparisons::programs::{
    kind_words, run, said, start, taken, Folder, Program, Said, PLAN_USAGE,
};
use comparisons::random::Random;
use comparisons::solver::{Kind, KINDS};
use comparisons::table_files::{picks_bytes, values_bytes};
use std::ffi::{OsStr, OsString};
use std::fs::File;
use std::os::unix::ffi::OsStringExt;
use std::os::unix::fs::{symlink, FileTypeExt};
use std::process::{Command, ExitCode};

/// How often each must be met.
const LEAST: [(&str, u64); 8] = [
    ("names that cannot be written", 32),
    ("names of other files", 45),
    ("part files", 24),
    ("names with a dash", 35),
    ("names that cannot be read", 21),
    ("tables written with --finish", 8),
    ("uses of --finish that are refused", 35),
    ("refused files with names", 32),
];
/// The system's longest path, in bytes.
const LONGEST_PATH: usize = 4_096;
/// The bytes of P's old tables, which has three states.
const OLD_VALUES: &[u8] = b"values as of";
const OLD_PICKS: &[u8] = b"old...";
/// Lengths of files that are no tables of P: empty, about those of its tables, and longer than any table.
const NO_VALUES: [usize; 6] = [0, 6, 11, 13, 4 * MAX_STATES, 4 * MAX_STATES + 1];
const NO_PICKS: [usize; 6] = [0, 5, 7, 12, 2 * MAX_STATES, 100_000];
/// Words of which `--finish` is not the first, is not all of a word, or is not followed by nothing or two
/// names.
const REFUSED: [&[&str]; 31] = [
    &["--finish", "old-values"],
    &["--finish", ""],
    &["--finish", "--finish"],
    &["--finish", "--"],
    &["--finish", "-v", "old-picks"],
    &["--finish", "old-values", "-p"],
    &["--finish", "--finish", "old-picks"],
    &["--finish", "old-values", "--finish"],
    &["--finish", "--finish", "old-values", "old-picks"],
    &["--finish", "old-values", "old-picks", "--finish"],
    &["--finish", "old-values", "old-picks", "new"],
    &["old-values", "--finish"],
    &["", "--finish"],
    &["old-values", "old-picks", "--finish"],
    &["old-values", "--finish", "old-picks"],
    &["--", "--finish"],
    &["--finishing"],
    &["--finishing", "old-values", "old-picks"],
    &["--finish=", "old-values", "old-picks"],
    &["--finish "],
    &["--finish\n"],
    &[" --finish"],
    &["--Finish"],
    &["--Finish", "old-values", "old-picks"],
    &["--FINISH"],
    &["--finis"],
    &["--finis", "old-values", "old-picks"],
    &["-finish"],
    &["---finish"],
    &["finish"],
    &["finish", "old-values", "old-picks"],
];
/// Runs a program that may write no file longer than so many blocks, as on a disk that is full.
const FULL_DISK: &str = "trap '' XFSZ; ulimit -f \"$1\"; shift; exec \"$@\"";

/// The longest file that `plan` holds, with as many states as there may be.
fn longest_held() -> Draft {
    of_length(&mut Random::new(0), PLAN_HOLDS, true, 5_000, None)
}

/// The programs, the folder that they run in, and the count of differences.
struct Room {
    plan: Program,
    audit: Program,
    sheet: Program,
    /// The kind of run that `plan` is asked for.
    kind: Kind,
    folder: Folder,
    /// What stood in the folder before each run.
    standing: Vec<(String, Vec<u8>)>,
    tally: Tally,
}

impl Room {
    /// The folder as it is before each run: P and its old tables, a folder, a pipe, links, and a folder
    /// where a part would be written.
    fn new() -> Room {
        let folder = Folder::new("compare-names");
        folder.put("file", Some(&file_p().bytes()));
        folder.put("empty", Some(&[]));
        folder.put("old-values", Some(OLD_VALUES));
        folder.put("old-picks", Some(OLD_PICKS));
        folder.put("long-values", Some(&[1; 4 * MAX_STATES]));
        for name in ["folder", "taken.part"] {
            std::fs::create_dir(folder.path(name)).expect("a folder can be made");
        }
        for (name, to) in [("to-the-file", "file"), ("to-the-folder", "folder")] {
            symlink(to, folder.path(name)).expect("a link can be made");
        }
        let made = Command::new("mkfifo").arg(folder.path("pipe")).status();
        assert!(made.expect("mkfifo").success());
        let (plan, audit) = (Program::named(1, "plan"), Program::named(2, "audit"));
        let sheet = Program::named(3, "sheet");
        for program in [&plan, &audit, &sheet] {
            program.run(&folder, &["-"], &[]);
        }
        let standing = contents(&folder);
        let (kind, tally) = (Kind::Plain, Tally::asking(&LEAST));
        Room { plan, audit, sheet, kind, folder, standing, tally }
    }

    /// `plan` with words that ask for its kind of run, and names.
    fn plan_command<N: AsRef<OsStr>>(&self, names: &[N]) -> Command {
        let mut command = Command::new(self.plan.path());
        command.args(kind_words(self.kind)).args(names).current_dir(self.folder.path(""));
        command
    }

    /// Runs it on a file.
    fn run_plan<N: AsRef<OsStr>>(&self, names: &[N], file: &[u8]) -> Said {
        run(&mut self.plan_command(names), file)
    }

    /// The case that is tried, under the kind of run that is asked for.
    fn try_case(&mut self, case: String) {
        self.tally.case = format!("{case}, {:?} run", self.kind);
    }

    /// Holds that the folder is as it was.
    fn hold_folder(&mut self) {
        self.tally.hold("the folder", &contents(&self.folder), &self.standing);
    }

    /// Holds that a message says which program it comes from and about which name, on one line.
    fn hold_message(&mut self, messages: &str, front: &str) {
        let whole = messages.starts_with(front) && messages.ends_with('\n');
        let asked = format!("{front}REASON, on one line");
        let fits = whole && messages.len() > front.len() + 1 && messages.lines().count() == 1;
        let given = if fits { asked.as_str() } else { messages };
        self.tally.hold("the message", given, &asked);
    }

    /// `plan` with names that cannot both take tables: there is no plan, nothing is written, and the
    /// message is about the one at fault.
    fn compare_unwritable(&mut self, values: &OsStr, picks: &OsStr, at_fault: &OsStr) {
        let [shown, other] = [values, picks].map(OsStr::to_string_lossy);
        self.try_case(format!("plan {shown:.40?} {other:.40?}"));
        self.tally.count("names that cannot be written");
        let said = self.run_plan(&[values, picks], &file_p().bytes());
        self.tally.hold("the lines", said.output.as_str(), "");
        self.hold_message(&said.messages, &front("plan", &at_fault.to_string_lossy()));
        self.hold_folder();
    }

    /// All names that cannot be written, each for values and for picks.
    fn compare_all_unwritable(&mut self) {
        let (long, longer) = long_names();
        for name in [
            "nowhere/table",
            "folder",
            "to-the-folder",
            "file/table",
            "taken",
            "",
            "pipe",
            &long,
            &longer,
        ] {
            let at_fault = if name == "taken" { "taken.part" } else { name };
            for (values, picks) in [("new", "new"), ("old-values", "old-picks")] {
                let [name, at_fault, values, picks] =
                    [name, at_fault, values, picks].map(OsStr::new);
                self.compare_unwritable(name, picks, at_fault);
                self.compare_unwritable(values, name, at_fault);
            }
        }
    }

    /// `plan` on P with two names, whose tables are there afterwards.
    fn compare_written(&mut self, values: &OsStr, picks: &OsStr) {
        self.compare_written_to([values, picks], [values, picks]);
    }

    /// The same with names that are others for two files.
    fn compare_written_to(&mut self, names: [&OsStr; 2], [values, picks]: [&OsStr; 2]) {
        let file = file_p().bytes();
        let asked = planned_by(self.kind, &file);
        let tables = asked.tables.expect("P passes");
        if self.kind == Kind::Finishing {
            self.tally.count("tables written with --finish");
        }
        let said = self.run_plan(&names, &file);
        self.tally.hold("the lines", &said, &Said::only(asked.lines));
        self.tally.hold("values", &self.folder.get(values), &Some(values_bytes(&tables.values)));
        self.tally.hold("picks", &self.folder.get(picks), &Some(picks_bytes(&tables.picks)));
    }

    /// Puts what stood under names, and takes others away.
    fn restore(&mut self, names: &[&OsStr]) {
        for name in names {
            drop(std::fs::remove_file(self.folder.path(name)));
        }
        for (name, bytes) in [("old-values", OLD_VALUES), ("old-picks", OLD_PICKS)] {
            self.folder.put(name, Some(bytes));
        }
        self.hold_folder();
    }

    /// `plan` on P with one name that holds a file of another length: it is as it was, the other too.
    fn compare_taken(&mut self, values: &str, picks: &str, message: &str, input: File) {
        self.try_case(format!("plan {values} {picks}, one of them taken"));
        self.tally.count("names of other files");
        let before = contents(&self.folder);
        let ended = said(start(self.plan_command(&[values, picks]).stdin(input)));
        let asked = Said { output: String::new(), messages: message.into() };
        self.tally.hold("what is said", &ended, &asked);
        self.tally.hold("the folder", &contents(&self.folder), &before);
    }

    /// The problem itself, and files of all other lengths, for values and for picks.
    fn compare_all_taken(&mut self) {
        let input = |room: &Room| File::open(room.folder.path("file")).expect("P");
        for name in ["file", "./file", "to-the-file", "/dev/null", "old-picks", "long-values"] {
            for picks in ["new", "old-picks", "file"].into_iter().filter(|&picks| picks != name) {
                self.compare_taken(name, picks, &taken(name, OLD_VALUES.len()), input(self));
            }
        }
        for name in ["file", "folder/../file", "to-the-file", "/dev/null", "old-values", "empty"] {
            for values in ["new", "old-values"].into_iter().filter(|&values| values != name) {
                self.compare_taken(values, name, &taken(name, OLD_PICKS.len()), input(self));
            }
        }
        for (no_values, no_picks) in NO_VALUES.into_iter().zip(NO_PICKS) {
            self.folder.put("other", Some(&vec![b'o'; no_values]));
            self.compare_taken("other", "new", &taken("other", OLD_VALUES.len()), input(self));
            self.folder.put("other", Some(&vec![b'o'; no_picks]));
            self.compare_taken("new", "other", &taken("other", OLD_PICKS.len()), input(self));
        }
        self.restore(&[OsStr::new("other")]);
    }

    /// Files about as long as the longest tables, and longer than any, under the names of these.
    fn compare_longest(&mut self) {
        let file = longest_held().bytes();
        self.folder.put("limits", Some(&file));
        for (name, longest) in [("values", 4 * MAX_STATES), ("picks", 2 * MAX_STATES)] {
            for length in [longest - 1, longest + 1, 100_000] {
                self.folder.put(name, Some(&vec![b'o'; length]));
                let input = File::open(self.folder.path("limits")).expect("a file");
                self.compare_taken("values", "picks", &taken(name, longest), input);
            }
            self.folder.put(name, None);
        }
        self.restore(&[OsStr::new("limits")]);
    }

    /// Names as long as leaves room for their part files' names, which are written, and longer ones.
    fn compare_long_names(&mut self) {
        self.try_case("the longest names".into());
        let long = |name: &str, length: usize| "./".repeat((length - name.len()) / 2) + name;
        let names = ["new", "newer"].map(OsStr::new);
        let long_names = ["new", "newer"].map(|name| OsString::from(long(name, LONGEST_PATH - 7)));
        self.compare_written_to([&long_names[0], &long_names[1]], names);
        self.restore(&names);
        for length in [LONGEST_PATH - 5, LONGEST_PATH - 1] {
            let name = OsString::from(long("new", length));
            let part = OsString::from(long("new", length) + ".part");
            self.compare_unwritable(&name, OsStr::new("newer"), &part);
            self.compare_unwritable(OsStr::new("newer"), &name, &part);
        }
    }

    /// Tables of the same lengths are replaced, and a link to one is, but not what it leads to.
    fn compare_replaced(&mut self) {
        self.try_case("old tables".into());
        let (values, picks) = (OsStr::new("old-values"), OsStr::new("old-picks"));
        self.compare_written(values, picks);
        self.compare_written(values, picks);
        self.restore(&[]);
        self.try_case("a link to an old table".into());
        symlink("old-values", self.folder.path("link")).expect("a link can be made");
        self.compare_written(OsStr::new("link"), OsStr::new("new"));
        self.restore(&["link", "new"].map(OsStr::new));
    }

    /// What stands in the place of a part file: one of an earlier run, which is whole or empty, is
    /// removed, and anything else stays.
    fn compare_parts(&mut self) {
        let input = |room: &Room| File::open(room.folder.path("file")).expect("P");
        let (values, picks) = (OsStr::new("new"), OsStr::new("newer"));
        for (part, whole, others) in [("new.part", 12, NO_VALUES), ("newer.part", 6, NO_PICKS)] {
            for length in [0, whole] {
                self.try_case(format!("{part} of an earlier run, {length} bytes"));
                self.tally.count("part files");
                self.folder.put(part, Some(&vec![b'o'; length]));
                self.compare_written(values, picks);
                self.restore(&[values, picks]);
            }
            for length in others.into_iter().filter(|&length| length != 0) {
                self.tally.count("part files");
                self.folder.put(part, Some(&vec![b'o'; length]));
                self.compare_taken("new", "newer", &taken(part, whole), input(self));
            }
            self.restore(&[OsStr::new(part)]);
        }
    }

    /// A file that is refused is refused whatever the names, and nothing is written; one that `plan` does not
    /// hold too, though it would pass.
    fn compare_refused(&mut self) {
        let wrong = file_p().bytes()[1..].to_vec();
        let long = of_length(&mut Random::new(0), PLAN_HOLDS + 4, true, 5_000, None).bytes();
        let longer = [&longest_held().bytes()[..], &[0]].concat();
        for file in [wrong, long, longer, vec![0; PLAN_HOLDS + 1]] {
            for names in
                [["file", "empty"], ["new", "folder"], ["old-values", "old-picks"], ["", ""]]
            {
                self.try_case(format!("{} bytes that are refused with {names:?}", file.len()));
                self.tally.count("refused files with names");
                let said = self.run_plan(&names, &file);
                self.tally.hold("the refusal", &said, &Said::only(plan_lines(&file)));
                self.hold_folder();
            }
        }
    }

    /// Names that begin with `-`, each at each place.
    fn compare_dashes(&mut self) {
        let long = format!("-{}", "n".repeat(10_000));
        for dashed in ["-", "-v", "--help", "--finish", "--finishing", "-/../new", &long] {
            for place in 0..3 {
                self.tally.case = format!("{dashed:.40} at {place}");
                self.tally.count("names with a dash");
                let mut names = ["file", "old-values", "old-picks"];
                names[place] = dashed;
                self.compare_usage(&names, 3);
                if place > 0 {
                    self.tally.count("names with a dash");
                    self.compare_usage(&names[1..], 2);
                }
            }
        }
    }

    /// Names that begin with `./-`, which are written.
    fn compare_dashed_paths(&mut self) {
        self.try_case("a name that begins with `./-`".into());
        let names = ["./--finish", "./-p"].map(OsStr::new);
        self.compare_written(names[0], names[1]);
        self.restore(&names);
    }

    /// `--finish` counts only as the first word, whole, before no names or two.
    fn compare_finish(&mut self) {
        let long = format!("--finish{}", "h".repeat(10_000));
        for words in REFUSED.into_iter().chain([&[long.as_str()][..]]) {
            self.tally.case = format!("plan {words:.40?}");
            self.tally.count("uses of --finish that are refused");
            self.compare_usage(words, 2);
        }
        let names = ["old-values", "old-picks", "new", "newer", "newest"];
        for count in (1..=names.len()).filter(|&count| count != 2) {
            self.tally.case = format!("--finish and {count} names");
            self.tally.count("uses of --finish that are refused");
            self.compare_usage(&[&["--finish"], &names[..count]].concat(), 2);
        }
    }

    /// A disk that takes no table, or only the front of one.
    fn compare_full_disk(&mut self) {
        let file = longest_held().bytes();
        for blocks in ["0", "1"] {
            self.try_case(format!("a disk with {blocks} blocks left"));
            self.tally.count("full disks");
            let plan = self.plan_command(&["long-values", "new"]);
            let mut command = Command::new("sh");
            command.args(["-c", FULL_DISK, "sh", blocks]).arg(plan.get_program());
            command.args(plan.get_args()).current_dir(self.folder.path(""));
            let said = run(&mut command, &file);
            self.tally.hold("the lines", &said.output, &planned_by(self.kind, &file).lines);
            self.hold_message(&said.messages, "plan: long-values: ");
            self.hold_folder();
        }
    }

    /// One name for both tables, in one spelling and in two, and names of which one is the other's part.
    fn compare_one_name(&mut self) {
        let file = file_p().bytes();
        for names in [
            ["new", "new"],
            ["old-values", "old-values"],
            ["new", "./new"],
            ["folder/../new", "new"],
            ["new", "new.part"],
            ["new.part", "new"],
            ["new", "./new.part"],
            ["./new.part", "new"],
        ] {
            self.try_case(format!("one name for both tables, {names:?}"));
            let said = self.run_plan(&names, &file);
            self.tally.hold("the lines", said.output.as_str(), "");
            self.hold_message(&said.messages, "plan: ");
            self.hold_folder();
        }
    }

    /// Names of any characters but a slash, and names in a folder below, are written.
    fn compare_odd_names(&mut self) {
        self.try_case("odd names".into());
        let odd = OsString::from(" é*\n");
        let below = OsString::from("folder/picks");
        self.compare_written(&odd, &below);
        let names = [OsStr::new("file"), &odd, &below];
        let said = self.audit.run(&self.folder, &names, &[]);
        self.tally.hold("the audit", said.output.as_str(), "accepted 100000\n");
        self.restore(&[&odd, &below]);
    }

    /// A name that is not UTF-8 can be neither written nor read.
    fn compare_no_text(&mut self) {
        let name: OsString = OsStringExt::from_vec(vec![b' ', 0xff, b'*']);
        self.compare_unwritable(&name, OsStr::new("old-picks"), &name);
        self.compare_unwritable(OsStr::new("old-values"), &name, &name);
        self.tally.case = "audit, a name that is not UTF-8".into();
        self.tally.count("names that cannot be read");
        let names = [&name, OsStr::new("old-values"), OsStr::new("old-picks")];
        let said = self.audit.run(&self.folder, &names, &[]);
        self.tally.hold("the verdict", said.output.as_str(), "");
        self.hold_message(&said.messages, &front("audit", &name.to_string_lossy()));
        self.hold_folder();
    }

    /// `audit` with a name that cannot be read at each place: a message, and no verdict.
    fn compare_unreadable(&mut self) {
        let (long, longer) = long_names();
        for unreadable in ["missing", "folder", "nowhere/file", "file/file", "", &long, &longer] {
            for place in 0..3 {
                let mut names = ["file", "old-values", "old-picks"];
                names[place] = unreadable;
                self.tally.case = format!("audit, {unreadable:.40} at {place}");
                self.tally.count("names that cannot be read");
                let said = self.audit.run(&self.folder, &names, &[]);
                self.tally.hold("the verdict", said.output.as_str(), "");
                self.hold_message(&said.messages, &front("audit", unreadable));
                self.hold_folder();
            }
        }
    }

    /// Empty files have a verdict.
    fn compare_empty(&mut self) {
        for (names, asked) in [
            (["empty", "empty", "empty"], "refused 1 0 0\n"),
            (["file", "empty", "old-picks"], "refused 15 0 0\n"),
            (["file", "old-values", "empty"], "refused 15 1 0\n"),
        ] {
            self.tally.case = format!("audit {names:?}");
            self.tally.count("empty files");
            let said = self.audit.run(&self.folder, &names, &[]);
            let asked = Said::only(asked);
            self.tally.hold("the verdict", &said, &asked);
        }
    }

    /// A standard input that cannot be read.
    fn compare_unreadable_input(&mut self) {
        self.try_case("a folder as standard input".into());
        for names in [&[][..], &["old-values", "old-picks"]] {
            let input = File::open(self.folder.path("folder")).expect("a folder opens");
            let said = said(start(self.plan_command(names).stdin(input)));
            self.tally.hold("the lines", said.output.as_str(), "");
            self.hold_message(&said.messages, "plan: standard input: ");
            self.hold_folder();
        }
    }

    /// Too few names, and too many.
    fn compare_counts(&mut self) {
        let names = ["file", "old-values", "old-picks", "new", "newer"];
        for count in 0..=names.len() {
            self.tally.case = format!("{count} names");
            for wanted in [0, 2, 3] {
                if count != wanted && (count != 0 || wanted == 3) {
                    self.compare_usage(&names[..count], wanted);
                }
            }
        }
    }

    /// The program that wants so many names is told others: it says which, and does nothing.
    fn compare_usage(&mut self, names: &[&str], wanted: usize) {
        let (program, messages) = match wanted {
            0 => (&self.sheet, "sheet: give no names\n"),
            2 => (&self.plan, PLAN_USAGE),
            _ => (&self.audit, "audit: give three names: FILE VALUES PICKS\n"),
        };
        let said = program.run(&self.folder, names, &file_p().bytes());
        let asked = Said { output: String::new(), messages: messages.into() };
        self.tally.hold("the names that are wanted", &said, &asked);
        self.hold_folder();
    }
}

/// All that stands in the folder and in the folder below, with the bytes of its files.
fn contents(folder: &Folder) -> Vec<(String, Vec<u8>)> {
    let below = std::fs::read_dir(folder.path("folder")).expect("a folder");
    let below =
        below.map(|entry| entry.expect("an entry").file_name().to_string_lossy().into_owned());
    let names = folder.names().into_iter().chain(below.map(|name| format!("folder/{name}")));
    let bytes = |name: &String| {
        let path = folder.path(name);
        let kind = std::fs::symlink_metadata(&path).expect("an entry").file_type();
        match kind.is_fifo() || kind.is_dir() || path.is_dir() {
            true => vec![],
            false => std::fs::read(&path).expect("a file"),
        }
    };
    names.map(|name| (name.clone(), bytes(&name))).collect()
}

/// A name longer than a folder holds, and one longer than any path.
fn long_names() -> (String, String) {
    ("n".repeat(300), "deep/".repeat(2_000))
}

/// How a message about a name begins. One that is longer than any path is not repeated whole: `plan`
/// writes VALUES or PICKS in its place, `audit` the front of it, so no name is asked for then.
fn front(program: &str, name: &str) -> String {
    match name.len() > LONGEST_PATH {
        true => format!("{program}: "),
        false => format!("{program}: {name}: "),
    }
}

fn main() -> ExitCode {
    let mut room = Room::new();
    room.compare_all_unwritable();
    room.compare_all_taken();
    for kind in KINDS {
        room.kind = kind;
        room.compare_longest();
        room.compare_long_names();
        room.compare_replaced();
        room.compare_parts();
        room.compare_refused();
        room.compare_dashed_paths();
        room.compare_full_disk();
        room.compare_one_name();
        room.compare_odd_names();
        room.compare_no_text();
        room.compare_unreadable_input();
    }
    room.compare_dashes();
    room.compare_finish();
    room.compare_unreadable();
    room.compare_empty();
    room.compare_counts();
    room.tally.close()
}
