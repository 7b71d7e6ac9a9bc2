//! Tries the start scripts: what a program writes they pass on to the byte, whatever the outputs are,
//! and their exit status tells what it was. 0 is solved, accepted or the sheets, 1 refused, 3 spent, and
//! 2 says that something could not be read, written or built. A program that is missing or older than its
//! sources is built first, once, and a script that is ended ends what it started.
//!
//! `compare_status [plan] [audit] [sheet]`, the start scripts

use comparisons::encode::Draft;
use comparisons::examples::{file_p, stick, with_total};
use comparisons::extremes::{deep_chain, deepest_held, endless, of_length};
use comparisons::finishing::coarse;
use comparisons::harness::Tally;
use comparisons::limits::{OLD, PLAN_HOLDS};
use comparisons::listing::{plan_lines, planned, planned_by, Planned};
use comparisons::programs::{kind_words, run_to_end, said, start, Folder, Program, PLAN_USAGE};
use comparisons::random::Random;
use comparisons::sheets::sheets;
use comparisons::solver::{Kind, KINDS};
use comparisons::table_files::{picks_bytes, values_bytes};
use std::ffi::{OsStr, OsString};
use std::io::{Read, Write};
use std::os::unix::ffi::OsStringExt;
use std::os::unix::fs::{symlink, PermissionsExt};
use std::os::unix::process::ExitStatusExt;
use std::path::{Path, PathBuf};
use std::process::{Child, Command, ExitCode, Output, Stdio};
use std::time::{Duration, Instant};

/// How often each status must be met.
const LEAST: [(&str, u64); 8] = [
    ("status 0", 20),
    ("status 1", 16),
    ("status 2", 60),
    ("status 3", 4),
    ("tables written with --finish", 6),
    ("builds", 12),
    ("starts without a build", 7),
    ("ended", 8),
];
/// The longest that a start on P may take where nothing changed.
const LONGEST_START: Duration = Duration::from_millis(100);
/// How long something that is sure to come is waited for.
const PATIENCE: Duration = Duration::from_secs(20);
/// Inputs and outputs that a program may be given, as words of a shell: whole, joined, and then those
/// that cannot be read or written.
const WHOLE: &str = "exec \"$@\"";
const WAYS: [&str; 9] = [
    "exec \"$@\" 2>&1",
    "exec \"$@\" >/dev/full",
    "exec \"$@\" >&-",
    "exec \"$@\" 2>/dev/full",
    "exec \"$@\" 2>&-",
    "exec \"$@\" <&-",
    "exec \"$@\" >/dev/full 2>&1",
    "exec \"$@\" >&- 2>&-",
    "exec \"$@\" <&- >&- 2>&-",
];
/// The crates of a repository that is made for a build, and what is said of them.
const CRATES: &str =
    "plan: high low io\nhigh: low io # above\nother: high\nc staticlib: low\nlow:\n";
const FIRST: &str = "plan: proving 3 crates and building the program, which takes some minutes\n";
const AGAIN: &str =
    "plan: the program may be older than its sources: proving what is new in its 3 crates\n";
const PROVED: &str = "plan: low proved (1 s), 2 left\nplan: plan proved (1 s), 0 left\n";
const NOT_PROVED: &str = "plan: low proved (1 s), 2 left\nplan: high NOT PROVED (exit 1, 1 s)\n";
const NOT_BUILT: &str = "plan: it could not be built; 'rt check' in crates/high says why\n";
const SILENT: &str = "plan: low NOT PROVED (exit 2, 1 s)\n\
    plan: it could not be built; 'rt check' in crates/low says why\n";
const NOT_LINKED: &str = "plan: plan NOT PROVED (exit 1, 1 s)\n\
    plan: it could not be built; 'rt check' in crates/plan says why\n";
const WAITS: &str = "plan: another start is building: this one waits for it\n";
const NO_RT: &str =
    "plan: it has to be built, and rt, the command of the Rattle kit, is not on the path\n";
/// What an `rt` does that proves and builds, and one that does not. Of a library that is built already `rt`
/// says nothing, and it ends as the program does that it built and ran.
const BUILDS: &str = "case \"${PWD##*/} $*\" in \
    'low lib') echo 'fn low::f: proved'; echo 'logic=proved functions=1' ;; \
    'high lib') ;; \
    'plan run') mkdir -p out && cp \"$PROGRAM\" out/plan && echo 'logic=proved functions=2' >&2; \
    echo 'rt: running out/plan; to give it other input, run that file yourself' >&2; \
    echo 'refused 0 0'; exit 1 ;; \
    *) exit 2 ;; \
    esac";
const FAILS: &str = "case \"${PWD##*/} $*\" in \
    'low lib') echo 'fn low::f: proved'; echo 'logic=proved functions=1' ;; \
    *) echo 'logic=not-proved'; exit 1 ;; \
    esac";
/// One that proves all, and then does not build the program.
const DOES_NOT_LINK: &str =
    "[ \"${PWD##*/} $*\" != 'plan run' ] || { echo 'logic=proved' >&2; exit 1; }";
/// What is asked of `rt` in each build, the crates from the lowest up.
const CALLS: &str = "low lib\nhigh lib\nplan run\n";
/// What one does first that is to be met while it builds: it waits for a file, though not for ever.
const WAITS_TO_GO: &str =
    "n=0; until [ -e \"$ROOM/go\" ] || [ $n -eq 200 ]; do sleep 0.1; n=$((n + 1)); done";
/// A program, or an `rt`, that tells its number and goes on for long.
const GOES_ON: &str =
    "echo $$ >\"$ROOM/number.new\"; mv \"$ROOM/number.new\" \"$ROOM/number\"; exec sleep 60";
/// A `date` by which each of its calls is a second after the one before.
const SECONDS: &str = "echo >>\"$ROOM/seconds\"; wc -l <\"$ROOM/seconds\"";
/// The commands that the start scripts need, and the `rt` that is made here.
const TOOLS: [&str; 17] = [
    "awk", "cat", "cksum", "cp", "find", "flock", "mkdir", "mv", "readlink", "rm", "sed", "setsid",
    "sh", "sleep", "sort", "tail", "wc",
];

/// A start script, and the program that it starts.
struct Pair {
    script: Program,
    program: PathBuf,
}

impl Pair {
    /// The script named at a place of the arguments, or the repository's own.
    fn named(place: usize, name: &str) -> Pair {
        let script = Program::named(place, &format!("../../{name}"));
        let top = script.path().parent().expect("a folder");
        let program = top.join("target/bin").join(name);
        // Where it has to be built, that is not said in the comparisons.
        run_to_end(Command::new(script.path()).arg("-"), &[]);
        Pair { script, program }
    }
}

struct Room {
    plan: Pair,
    audit: Pair,
    sheet: Pair,
    tally: Tally,
}

/// All that a run leaves.
#[derive(Debug, PartialEq)]
struct Left {
    output: Vec<u8>,
    messages: Vec<u8>,
    files: Vec<(String, Option<Vec<u8>>)>,
}

impl Left {
    /// The bytes of a file, none where there is no such file.
    fn file(&self, name: &str) -> Option<Vec<u8>> {
        self.files.iter().find(|(own, _)| own == name).and_then(|(_, bytes)| bytes.clone())
    }
}

impl Room {
    /// Runs a program or its script in a folder of its own, with P and P's tables.
    fn run<N: AsRef<OsStr>>(
        &self,
        path: &Path,
        way: &str,
        names: &[N],
        input: &[u8],
    ) -> (Left, Option<i32>) {
        let folder = Folder::new("compare-status");
        let tables = planned(&file_p().bytes()).tables.expect("P passes");
        let mut high = tables.values.clone();
        high[0] += 1;
        folder.put("file", Some(&file_p().bytes()));
        folder.put("values", Some(&values_bytes(&tables.values)));
        folder.put("picks", Some(&picks_bytes(&tables.picks)));
        folder.put("high", Some(&values_bytes(&high)));
        folder.put("empty", Some(&[]));
        let mut command = Command::new("sh");
        command.args(["-c", way, "sh"]).arg(path).args(names).current_dir(folder.path(""));
        let ended = run_to_end(&mut command, input);
        let files = folder.names().into_iter().map(|name| (name.clone(), folder.get(name)));
        let files = files.collect();
        (Left { output: ended.stdout, messages: ended.stderr, files }, ended.status.code())
    }

    /// Holds that a script does what its program does, and ends with a status. Gives what it left.
    fn compare<N: AsRef<OsStr>>(
        &mut self,
        of: fn(&Room) -> &Pair,
        way: &str,
        names: &[N],
        input: &[u8],
        asked: i32,
    ) -> Left {
        let shown: Vec<_> = names.iter().map(|name| name.as_ref().to_string_lossy()).collect();
        self.tally.case = format!("{} {shown:.40?}, {way}", of(self).program.display());
        let pair = of(self);
        let (given, status) = self.run(pair.script.path(), way, names, input);
        let (own, _) = self.run(&pair.program, way, names, input);
        self.tally.hold("what is left", &given, &own);
        self.hold_status(status, asked);
        given
    }

    fn hold_status(&mut self, given: Option<i32>, asked: i32) {
        self.tally.hold("the status", &given, &Some(asked));
        self.tally.count(["status 0", "status 1", "status 2", "status 3"][asked as usize]);
    }

    /// Plans a file by a kind of run, without names and with two that are new, and holds the lines and the
    /// tables.
    fn compare_plan(&mut self, kind: Kind, file: &[u8], asked: i32) {
        let Planned { lines, tables } = planned_by(kind, file);
        let words = kind_words(kind);
        let left = self.compare(|r| &r.plan, WHOLE, words, file, asked);
        self.tally.hold("the lines", &left.output[..], lines.as_bytes());
        let named = [words, &["new", "newer"]].concat();
        let left = self.compare(|r| &r.plan, WHOLE, &named, file, asked);
        self.tally.hold("the lines with names", &left.output[..], lines.as_bytes());
        let written = ["new", "newer"].map(|name| left.file(name));
        let tables =
            tables.map(|tables| [values_bytes(&tables.values), picks_bytes(&tables.picks)]);
        if kind == Kind::Finishing && tables.is_some() {
            self.tally.count("tables written with --finish");
        }
        let asked = tables.map_or([None, None], |tables| tables.map(Some));
        self.tally.hold("the tables", &written, &asked);
    }

    /// Plans of every kind, with tables and without.
    fn compare_plans(&mut self) {
        let random = &mut Random::new(1);
        let cut = |draft: Draft| draft.bytes()[1..].to_vec();
        let in_100 = with_total(&stick(), Some(100));
        for (file, asked) in [
            (file_p().bytes(), 0),
            (stick().bytes(), 0),
            (in_100.bytes(), 0),
            (in_100.with_fourth(Some(99)).bytes(), 1),
            (of_length(random, PLAN_HOLDS, true, 5_000, None).bytes(), 0),
            (of_length(random, PLAN_HOLDS + 2, true, 5_000, None).bytes(), 1),
            (vec![0; PLAN_HOLDS + 1], 1),
            (deepest_held(Some(10_000)).bytes(), 0),
            (coarse().bytes(), 0),
            (endless(None).bytes(), 3),
            (vec![], 1),
            (cut(file_p()), 1),
            (vec![0; 5_000_000], 1),
        ] {
            for kind in KINDS {
                self.compare_plan(kind, &file, asked);
            }
        }
        self.compare(|r| &r.plan, WHOLE, &["values", "picks"], &file_p().bytes(), 0);
        self.compare(|r| &r.plan, WHOLE, &["--finish", "values", "picks"], &file_p().bytes(), 0);
    }

    /// `--finish` where it does not count, and names after it that cannot be written: the status is 2.
    fn compare_finish(&mut self) {
        for words in [
            &["values", "picks", "--finish"][..],
            &["values", "--finish"],
            &["--finish", "values"],
            &["--finish", "--finish"],
            &["--finish", "--finish", "values", "picks"],
            &["--finish", "values", "picks", "new"],
            &["--finish", "-v", "picks"],
            &["--finishing"],
            &["--finishing", "values", "picks"],
            &["--Finish"],
            &["--finis"],
            &["finish"],
        ] {
            let left = self.compare(|r| &r.plan, WHOLE, words, &file_p().bytes(), 2);
            self.tally.hold("the message", &left.messages[..], PLAN_USAGE.as_bytes());
            self.tally.hold("the lines", &left.output[..], b"");
        }
        for names in [["file", "new"], ["new", "file"], ["nowhere/new", "new"], ["new", "new"]] {
            let words = [kind_words(Kind::Finishing), &names].concat();
            self.compare(|r| &r.plan, WHOLE, &words, &file_p().bytes(), 2);
        }
    }

    /// Names that cannot be written, or are those of other files, or begin with `-`: the status is 2.
    fn compare_unwritable(&mut self) {
        let bytes: Vec<u8> = (1..=255).filter(|&byte| byte != b'/').collect();
        let odd = OsString::from_vec([b"nowhere/", &bytes[..]].concat());
        let file = deep_chain(&mut Random::new(2), OLD.states, 8, true, None).bytes();
        for name in [OsStr::new("nowhere/new"), OsStr::new("."), OsStr::new(""), &odd] {
            self.compare(|r| &r.plan, WHOLE, &[name, OsStr::new("new")], &file_p().bytes(), 2);
            self.compare(|r| &r.plan, WHOLE, &[OsStr::new("new"), name], &file, 2);
        }
        self.compare(|r| &r.plan, WHOLE, &["new", "new"], &file, 2);
        for names in [["file", "new"], ["new", "file"], ["-v", "new"], ["picks", "values"]] {
            self.compare(|r| &r.plan, WHOLE, &names, &file_p().bytes(), 2);
        }
        for names in [&["new"][..], &["new", "newer", "newest"]] {
            self.compare(|r| &r.plan, WHOLE, names, &file, 2);
        }
    }

    /// Audits: accepted, refused, and with names that cannot be read or are too few.
    fn compare_audits(&mut self) {
        for (names, asked) in [
            (&["file", "values", "picks"][..], 0),
            (&["file", "high", "picks"], 1),
            (&["file", "values", "empty"], 1),
            (&["empty", "values", "picks"], 1),
            (&["missing", "values", "picks"], 2),
            (&["file", "missing", "picks"], 2),
            (&["file", "values", "missing/a:/ b\n"], 2),
            (&["file", "values", "."], 2),
            (&["file", "values", "-"], 2),
            (&["file", "values"], 2),
            (&[], 2),
        ] {
            self.compare(|r| &r.audit, WHOLE, names, &[], asked);
        }
    }

    /// The sheets, whole and from the paper's numbers; a name is one too many.
    fn compare_sheets(&mut self) {
        self.compare(|r| &r.sheet, WHOLE, &[""; 0], &[], 0);
        let (printed, _) = self.run(self.sheet.script.path(), WHOLE, &[""; 0], &[]);
        self.tally.hold("the sheets", &printed.output[..], sheets().as_bytes());
        for names in [&["250"][..], &[""], &["250", "500"]] {
            self.compare(|r| &r.sheet, WHOLE, names, &[], 2);
        }
    }

    /// Inputs and outputs that cannot be read or written. What goes well with no message, and is
    /// printed, has its own status also where messages would be lost.
    fn compare_ways(&mut self) {
        for way in WAYS {
            let unread = way.contains("<&-");
            let unprinted = way.contains(">/dev/full") && !way.contains("2>/dev/full");
            let lost = unprinted || way.contains("\" >&-") || unread;
            let file = file_p().bytes();
            self.compare(|r| &r.plan, way, &[""; 0], &file, if lost { 2 } else { 0 });
            self.compare(|r| &r.plan, way, &["new", "newer"], &file, if lost { 2 } else { 0 });
            self.compare(|r| &r.plan, way, &["new", "nowhere/new"], &file, 2);
            self.compare(|r| &r.plan, way, &[""; 0], &file[1..], if lost { 2 } else { 1 });
            let lost = lost && !way.ends_with("\"$@\" <&-");
            let names = ["file", "values", "picks"];
            self.compare(|r| &r.audit, way, &names, &[], if lost { 2 } else { 0 });
            self.compare(|r| &r.audit, way, &["file"], &[], 2);
            self.compare(|r| &r.sheet, way, &[""; 0], &[], if lost { 2 } else { 0 });
            self.compare(|r| &r.sheet, way, &["250"], &[], 2);
        }
    }

    /// A reader that is gone: the tables are written, and the status is 2.
    fn compare_unread(&mut self) {
        self.tally.case = "a plan that nobody reads".into();
        let folder = Folder::new("compare-status");
        let mut command = Command::new(self.plan.script.path());
        command.args(["values", "picks"]).current_dir(folder.path("")).stdin(Stdio::piped());
        let mut child = start(&mut command);
        drop(child.stdout.take());
        let mut input = child.stdin.take().expect("a pipe");
        input.write_all(&file_p().bytes()).expect("it reads");
        drop(input);
        let ended = child.wait_with_output().expect("output");
        self.tally.hold("the messages", &ended.stderr, &vec![]);
        self.hold_status(ended.status.code(), 2);
        let tables = planned(&file_p().bytes()).tables.expect("P passes");
        self.tally.hold("values", &folder.get("values"), &Some(values_bytes(&tables.values)));
        self.tally.hold("picks", &folder.get("picks"), &Some(picks_bytes(&tables.picks)));
    }

    /// A program that is missing is built first, a line a crate; one that cannot be built is told, each
    /// time again.
    fn compare_builds(&mut self) {
        let made = Repository::new(self, 1);
        made.rt(BUILDS);
        self.hold_start("a first start", &made, &[FIRST, PROVED], 0, 1);
        self.tally.hold("what is asked of rt", &made.asked().as_str(), &CALLS);
        self.hold_start("a second start", &made, &[], 0, 1);
        let made = Repository::new(self, 2);
        made.rt(FAILS);
        self.hold_start("a build that fails", &made, &[FIRST, NOT_PROVED, NOT_BUILT], 2, 1);
        self.hold_start("once more", &made, &[FIRST, NOT_PROVED, NOT_BUILT], 2, 2);
        made.rt("exit 2");
        self.hold_start("a build that says nothing", &made, &[FIRST, SILENT], 2, 3);
        made.rt(DOES_NOT_LINK);
        self.hold_start("a program that is not built", &made, &[FIRST, NOT_LINKED], 2, 4);
    }

    /// A program that is older than its sources, or was replaced, is built again, and where that fails it
    /// is not run. What it is not made of does not matter, nor does a time.
    fn compare_stale(&mut self) {
        let made = Repository::new(self, 3);
        made.rt(BUILDS);
        self.hold_start("a first start", &made, &[FIRST, PROVED], 0, 1);
        for (count, name) in [
            (2, "crates/low/src/lib.rt"),
            (3, "crates/high/proofs/f/Answers.antt"),
            (4, "crates/plan/specs/New.antt"),
            (5, "crates.txt"),
        ] {
            made.append(name);
            self.hold_start(&format!("{name} changed"), &made, &[AGAIN, PROVED], 0, count);
        }
        made.append("target/bin/plan");
        self.hold_start("the program changed", &made, &[FIRST, PROVED], 0, 6);
        for name in ["crates/other/src/lib.rt", "crates/low/must-fail/f.edit", "README.md"] {
            made.append(name);
            self.hold_start(&format!("{name} changed"), &made, &[], 0, 6);
        }
        made.folder.put("crates/plan/out/kept.antt", Some(b"made by rt\n"));
        self.hold_start("what rt keeps in out/", &made, &[], 0, 6);
        let low = made.folder.path("crates/low/src/lib.rt");
        std::fs::write(&low, std::fs::read(&low).expect("a source")).expect("it can be written");
        self.hold_start("a source written again", &made, &[], 0, 6);
        made.rt(FAILS);
        let before = std::fs::read(&low).expect("a source");
        made.append("crates/low/src/lib.rt");
        for count in [7, 8] {
            let said = [AGAIN, NOT_PROVED, NOT_BUILT];
            self.hold_start("a change that fails", &made, &said, 2, count);
        }
        std::fs::write(&low, before).expect("it can be written");
        self.hold_start("a change that is taken back", &made, &[], 0, 8);
        made.rt(BUILDS);
        made.append("crates/low/src/lib.rt");
        self.hold_start("a change that goes well", &made, &[AGAIN, PROVED], 0, 9);
    }

    /// What is missing is named: `rt`, or a folder that can be written. Where nothing has to be built,
    /// neither is needed.
    fn compare_causes(&mut self) {
        let mut made = Repository::new(self, 4);
        made.rt(BUILDS);
        made.has_rt = false;
        self.hold_start("no rt", &made, &[NO_RT], 2, 0);
        made.has_rt = true;
        self.hold_start("a first start", &made, &[FIRST, PROVED], 0, 1);
        made.has_rt = false;
        self.hold_start("no rt, and nothing to build", &made, &[], 0, 1);
        made.append("crates/low/src/lib.rt");
        self.hold_start("no rt, and a source changed", &made, &[NO_RT], 2, 1);
        made.has_rt = true;
        std::fs::remove_file(made.folder.path("tools/flock")).expect("a tool");
        std::fs::remove_file(made.folder.path("tools/setsid")).expect("a tool");
        self.hold_start("neither flock nor setsid", &made, &[AGAIN, PROVED], 0, 2);
        std::fs::remove_file(made.folder.path("tools/cksum")).expect("a tool");
        for count in [3, 4] {
            self.hold_start("no sums, so nothing is known", &made, &[AGAIN, PROVED], 0, count);
        }
        for taken in ["target", "target/made"] {
            let made = Repository::new(self, 5);
            made.rt(BUILDS);
            if taken != "target" {
                std::fs::create_dir(made.folder.path("target")).expect("a folder can be made");
            }
            made.folder.put(taken, Some(b"a file"));
            let target = made.folder.path("target");
            let cause = "plan: it has to be built, and the folder";
            let message = format!("{cause} {} cannot be written\n", target.display());
            self.hold_start("a folder that cannot be made", &made, &[&message], 2, 0);
        }
    }

    /// Two first starts at once: one builds, and the other waits for it and says so.
    fn compare_two_at_once(&mut self) {
        self.tally.case = "two first starts at once".into();
        let made = Repository::new(self, 6);
        made.rt(&format!("{WAITS_TO_GO}; {BUILDS}"));
        let first = made.start();
        self.wait_for("the build", || made.calls() == 1);
        let mut second = made.start();
        let mut waits = vec![0; WAITS.len()];
        let messages = second.stderr.as_mut().expect("a pipe");
        drop(messages.read_exact(&mut waits));
        self.tally.hold("what the second says", &waits[..], WAITS.as_bytes());
        made.folder.put("go", Some(&[]));
        self.hold_ended(&first.wait_with_output().expect("output"), &[FIRST, PROVED], 0);
        self.hold_ended(&second.wait_with_output().expect("output"), &[], 0);
        self.tally.hold("builds", &made.calls(), &1);
    }

    /// A script that is ended ends its program, or the building of it, of which nothing is known then.
    fn compare_ended(&mut self) {
        for (number, signal) in [(1, "HUP"), (2, "INT"), (3, "QUIT"), (15, "TERM")] {
            let made = Repository::new(self, 7);
            made.rt(GOES_ON);
            self.hold_ending("a build", &made, number, signal);
            self.tally.hold("what is known", &made.folder.get("target/made/plan"), &None);
            made.rt(BUILDS);
            self.hold_start("a build after one that was ended", &made, &[FIRST, PROVED], 0, 2);
            let mut made = Repository::new(self, 8);
            made.rt(BUILDS);
            made.program = made.folder.path("goes-on");
            made.script("goes-on", GOES_ON);
            self.hold_ending("a program", &made, number, signal);
        }
    }

    /// Starts, waits until what goes on has told its number, ends the script by a signal, and holds that
    /// both are gone.
    fn hold_ending(&mut self, what: &str, made: &Repository, number: i32, signal: &str) {
        self.tally.case = format!("{what} that is ended by {signal}");
        self.tally.count("ended");
        let mut child = made.start();
        self.wait_for("its number", || made.folder.get("number").is_some());
        let told = made.folder.get("number").unwrap_or_default();
        let told = String::from_utf8_lossy(&told).trim().to_string();
        self.tally.hold("whether it goes on", &goes_on(&told), &true);
        send(signal, &child.id().to_string());
        let ended = child.wait().expect("its status");
        // Some shells cannot end by QUIT.
        let is_told = ended.signal() == Some(number) || (number == 3 && ended.code() == Some(2));
        self.tally.hold("whether it ended by the signal", &is_told, &true);
        self.wait_for("its end", || !goes_on(&told));
        if goes_on(&told) {
            send("KILL", &told);
        }
        self.tally.hold("what is said", &said(child).output.as_str(), &"");
        made.folder.put("number", None);
    }

    /// Waits until something is so.
    fn wait_for(&mut self, what: &str, is_so: impl Fn() -> bool) {
        let began = Instant::now();
        while !is_so() && began.elapsed() < PATIENCE {
            std::thread::sleep(Duration::from_millis(10));
        }
        self.tally.hold(what, &is_so(), &true);
    }

    /// Starts `plan` on P in a repository that was made, and holds what it says, its status, and how
    /// often it has been built.
    fn hold_start(
        &mut self,
        case: &str,
        made: &Repository,
        said: &[&str],
        asked: i32,
        calls: usize,
    ) {
        self.tally.case = case.into();
        self.tally.count(if said.is_empty() { "starts without a build" } else { "builds" });
        let ended = made.start().wait_with_output().expect("output");
        self.hold_ended(&ended, said, asked);
        self.tally.hold("how often it was built", &made.calls(), &calls);
    }

    /// Holds what a start on P left.
    fn hold_ended(&mut self, ended: &Output, said: &[&str], asked: i32) {
        let lines = if asked == 0 { plan_lines(&file_p().bytes()) } else { String::new() };
        let text = |bytes: &[u8]| String::from_utf8_lossy(bytes).into_owned();
        self.tally.hold("the lines", &text(&ended.stdout), &lines);
        self.tally.hold("the messages", &text(&ended.stderr), &said.concat());
        self.hold_status(ended.status.code(), asked);
    }

    /// A link to a script, and a link to that, from another folder.
    fn compare_links(&mut self) {
        self.tally.case = "a link to the script".into();
        let folder = Folder::new("compare-status");
        symlink(self.plan.script.path(), folder.path("plan")).expect("a link can be made");
        symlink("plan", folder.path("p")).expect("a link can be made");
        for link in ["./plan", "./p"] {
            let mut command = Command::new("sh");
            command.args(["-c", WHOLE, "sh", link]).current_dir(folder.path(""));
            let ended = run_to_end(&mut command, &file_p().bytes());
            self.hold_ended(&ended, &[], 0);
        }
    }

    /// Where nothing changed a start takes little time: one of many has to, since the machine may have
    /// other work.
    fn compare_times(&mut self) {
        self.tally.case = "the time of a start".into();
        let time = || {
            let began = Instant::now();
            run_to_end(&mut Command::new(self.plan.script.path()), &file_p().bytes());
            began.elapsed()
        };
        let least = (0..100).map(|_| time()).find(|&time| time <= LONGEST_START);
        self.tally.hold("whether a start is quick", &least.is_some(), &true);
    }
}

/// A repository that is made for builds: the start script `plan`, crates, and an `rt` that is told what to
/// do and counts its calls. The program that it builds stands elsewhere.
struct Repository {
    folder: Folder,
    program: PathBuf,
    has_rt: bool,
}

impl Repository {
    /// One that has not been built; with a number of its own.
    fn new(room: &Room, number: usize) -> Repository {
        let folder = Folder::new(&format!("compare-status-{number}"));
        let top = room.plan.script.path().parent().expect("a folder");
        for name in
            ["start", "bin", "tools", "crates/low/src", "crates/low/must-fail", "crates/plan/specs"]
        {
            std::fs::create_dir_all(folder.path(name)).expect("a folder can be made");
        }
        for name in ["crates/high/proofs/f", "crates/other/src"] {
            std::fs::create_dir_all(folder.path(name)).expect("a folder can be made");
        }
        for name in ["plan", "start/program", "start/status", "start/build"] {
            std::fs::copy(top.join(name), folder.path(name)).expect("a script");
        }
        folder.put("crates.txt", Some(CRATES.as_bytes()));
        for name in ["crates/low/src/lib.rt", "crates/high/proofs/f/Answers.antt"] {
            folder.put(name, Some(b"as it was\n"));
        }
        let path = std::env::var("PATH").expect("a path");
        for tool in TOOLS {
            let found = path.split(':').map(|folder| Path::new(folder).join(tool));
            let found = found.into_iter().find(|path| path.is_file());
            symlink(found.expect(tool), folder.path("tools").join(tool))
                .expect("a link can be made");
        }
        Repository { folder, program: room.plan.program.clone(), has_rt: true }
    }

    /// Writes a script.
    fn script(&self, name: &str, commands: &str) {
        self.folder.put(name, Some(format!("#!/bin/sh\n{commands}\n").as_bytes()));
        let runs = std::fs::Permissions::from_mode(0o755);
        std::fs::set_permissions(self.folder.path(name), runs).expect("it can be run");
    }

    /// Writes the `rt` that does these commands.
    fn rt(&self, commands: &str) {
        self.script("bin/date", SECONDS);
        self.script("bin/rt", &format!("echo \"${{PWD##*/}} $*\" >>\"$ROOM/calls\"; {commands}"));
    }

    /// What was asked of it: the crate in whose folder, and its words.
    fn asked(&self) -> String {
        String::from_utf8_lossy(&self.folder.get("calls").unwrap_or_default()).into_owned()
    }

    /// How often the program was built, or that was begun: each build begins with its lowest crate.
    fn calls(&self) -> usize {
        self.asked().lines().filter(|&line| line == "low lib").count()
    }

    /// Adds a line to a file, which may be new.
    fn append(&self, name: &str) {
        let mut bytes = self.folder.get(name).unwrap_or_default();
        bytes.extend(b"# a line more\n");
        self.folder.put(name, Some(&bytes));
    }

    /// Starts `plan` on P, with the tools that it needs and no other.
    fn start(&self) -> Child {
        let bin = if self.has_rt { "bin" } else { "nothing" };
        let path = [bin, "tools"].map(|name| self.folder.path(name).display().to_string());
        let mut command = Command::new("env");
        command.args(["--default-signal=HUP,INT,QUIT,TERM", &format!("PATH={}", path.join(":"))]);
        command.arg(self.folder.path("plan")).env("PROGRAM", &self.program);
        command.env("ROOM", self.folder.path(""));
        self.folder.put("P", Some(&file_p().bytes()));
        let input = std::fs::File::open(self.folder.path("P")).expect("P");
        start(command.stdin(input))
    }
}

/// Sends a signal to the process of a number.
fn send(signal: &str, number: &str) {
    let sent = Command::new("kill").args(["-s", signal, number]).status();
    assert!(sent.expect("kill").success());
}

/// Whether the process of a number goes on; one that has ended may be listed until someone asks for it.
fn goes_on(number: &str) -> bool {
    let listed = std::fs::read_to_string(format!("/proc/{number}/stat")).unwrap_or_default();
    let state = listed.rsplit(") ").next().unwrap_or_default();
    !state.is_empty() && !state.starts_with(['Z', 'X'])
}

fn main() -> ExitCode {
    let (plan, audit) = (Pair::named(1, "plan"), Pair::named(2, "audit"));
    let sheet = Pair::named(3, "sheet");
    let mut room = Room { plan, audit, sheet, tally: Tally::asking(&LEAST) };
    room.compare_plans();
    room.compare_finish();
    room.compare_unwritable();
    room.compare_audits();
    room.compare_sheets();
    room.compare_ways();
    room.compare_unread();
    room.compare_builds();
    room.compare_stale();
    room.compare_causes();
    room.compare_two_at_once();
    room.compare_ended();
    room.compare_links();
    room.compare_times();
    room.tally.close()
}
