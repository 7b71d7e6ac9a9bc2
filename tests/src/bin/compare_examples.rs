//! Compiles the C and the Rust example as `README.md` says, runs both on files of `examples` and on
//! others, and holds what they print against the solver and the audit written apart; the C example also
//! where it finishes. So too the example that follows a plan, against the follower, and the one that
//! writes a set form, against `set_form.rs`. Holds also what `stick.md` and `README.md` show.
//!
//! `compare_examples`

use comparisons::audit::{audit_file, Verdict};
use comparisons::damage::{damaged, one_wrong_each};
use comparisons::examples::{file_p, path, stick, with_total, TEXTS};
use comparisons::extremes::{at_limits, deep_chain};
use comparisons::finishing::coarse;
use comparisons::follower::{open, report, Followed, Record};
use comparisons::harness::Tally;
use comparisons::limits::{GIVE_UP, LONGEST_FILE, OLD, PLAN_ROUNDS};
use comparisons::listing::{audit_line, plan_lines, planned, planned_at_any_length};
use comparisons::problem::{Problem, FILE_QUESTIONS};
use comparisons::programs::{run_to_end, said, start, Folder, Said};
use comparisons::random::Random;
use comparisons::set_form::set_form;
use comparisons::solver::{run, Answer, Kind, OwnedTables};
use comparisons::totals::{Fourth, FOURTHS};
use comparisons::variants::SAME;
use comparisons::wide::{wide, ORDERS};
use comparisons::written::Written;
use std::process::{Command, ExitCode, Output};

/// The top of the repository.
const TOP: &str = concat!(env!("CARGO_MANIFEST_DIR"), "/..");
/// How an example is compiled: the language, the command that `README.md` shows, from the top of the
/// repository, and words that make the compiler strict.
struct Example {
    name: &'static str,
    command: &'static str,
    strict: &'static str,
}

/// Words that make the C compiler strict.
const STRICT_C: &str = "-std=c11 -Wall -Wextra -Wpedantic -Werror";
/// The examples that check, solve and audit.
const EXAMPLES: [Example; 2] = [
    Example {
        name: "c",
        command: "gcc -O2 -Iexamples/c examples/c/plan_and_audit.c crates/capi/out/libcapi.a",
        strict: STRICT_C,
    },
    Example {
        name: "rust",
        command: "rustc -O examples/rust/plan_and_audit.rs -C link-arg=crates/capi/out/libcapi.a",
        strict: "-D warnings",
    },
];
/// The example that follows a plan.
const FOLLOW: Example = Example {
    name: "follow",
    command: "gcc -O2 -Iexamples/c examples/c/follow.c crates/capi/out/libcapi.a",
    strict: STRICT_C,
};
/// The example that writes a set form.
const SET_FORM: Example = Example {
    name: "set_form",
    command: "gcc -O2 -Iexamples/c examples/c/set_form.c crates/capi/out/libcapi.a",
    strict: STRICT_C,
};
/// The C examples, which read a file by `problem_file.h`.
const C_EXAMPLES: [&Example; 3] = [&EXAMPLES[0], &FOLLOW, &SET_FORM];
/// What the C examples say of a file that is longer than their room.
const TOO_LONG: &str = "it is longer than 110,616 bytes, as no problem file is";
/// A program in C++ that makes a call, and ends with what it returns: an empty file is refused.
const C_PLUS_PLUS: &str =
    "#include \"cuulipso.h\"\nint main() { uint64_t answer[CUULIPSO_ANSWER]; \
     return cuulipso_check(nullptr, 0, answer, CUULIPSO_ANSWER); }\n";
/// How it is compiled, from standard input.
const COMPILED: &str =
    "g++ -std=c++17 -Wall -Wextra -Wpedantic -Werror -Iexamples/c -x c++ - -x none crates/capi/out/libcapi.a";
/// Damaged files whose set form is asked for, in each total.
const DAMAGED: usize = 24;
/// How often each of the questions 1 to 11 must be met.
const LEAST_MET: u64 = 5;
/// How many there must be of these, in each total their share.
const LEAST: [(&str, u64); 2] =
    [("set forms written", 80), ("set forms shorter than the file", 40)];
/// How many files the C example must finish.
const LEAST_FINISHING: (&str, u64) = ("runs of the example that finishes", 30);
/// The reports that `README.md` shows on P.
const SHOWN_REPORTS: [u64; 3] = [0, 0, 0];

/// Compiles an example into the folder.
fn compile(folder: &Folder, example: &Example) {
    let mut words = example.command.split(' ');
    let mut compiler = Command::new(words.next().expect("a compiler"));
    compiler.args(words).args(example.strict.split(' '));
    compiler.arg("-o").arg(folder.path(example.name)).current_dir(TOP);
    let status = compiler.status().unwrap_or_else(|error| panic!("{compiler:?}: {error}"));
    assert!(status.success(), "{compiler:?}");
}

/// What the examples print of a refusal that carries an excess.
fn refused_text(question: u64, place: u64, excess: i64) -> String {
    format!("refused, question {question}, place {place}, excess {excess}\n")
}

/// What the examples print of a verdict.
fn audit_text(verdict: Verdict) -> String {
    match verdict {
        Verdict::Accepted { least_cost } => format!("audit: accepted, C {least_cost}\n"),
        Verdict::Refused { question, place, excess } => {
            format!("audit: {}", refused_text(question, place, excess))
        }
    }
}

/// What the examples print of the states of the last walk.
fn states_text(tables: &OwnedTables) -> String {
    let listed = tables.walk.iter().take_while(|&&state| state != GIVE_UP);
    let line = |&state: &u16| {
        let value = tables.values[usize::from(state)];
        match tables.picks[usize::from(state)] {
            GIVE_UP => format!("state {state}: {value} ticks, give up\n"),
            row => format!("state {state}: {value} ticks, row {row}\n"),
        }
    };
    listed.map(line).collect()
}

/// The words that ask an example for a run of a kind, behind the name of a file.
fn words_behind(kind: Kind) -> &'static [&'static str] {
    match kind {
        Kind::Plain => &[],
        Kind::Finishing => &["finish"],
    }
}

/// All that the examples print of a file, with a run of a kind.
fn example_text(kind: Kind, file: &[u8]) -> String {
    let problem = match Problem::read(file) {
        Ok(problem) => problem,
        Err(no) => {
            return format!("check: refused, question {}, place {}\n", no.question, no.place)
        }
    };
    let mut tables = OwnedTables::new(&problem);
    let (word, rounds, evaluations, least) =
        match run(kind, &problem, PLAN_ROUNDS, tables.lend()).answer {
            Answer::Solved { rounds, evaluations, least_cost } => {
                ("solved", rounds, evaluations, least_cost)
            }
            Answer::Spent { rounds, evaluations } => ("spent", rounds, evaluations, 0),
            Answer::Refused(refusal) => panic!("{refusal:?}"),
        };
    let states = states_text(&tables);
    let audit = audit_text(audit_file(file, &tables.values, &tables.picks));
    tables.values[0] += 1;
    let higher = audit_text(audit_file(file, &tables.values, &tables.picks));
    let call = words_behind(kind).first().unwrap_or(&"solve");
    format!(
        "check: passed\n{call}: {word}, {rounds} rounds, {evaluations} evaluations, C {least}\n\
         {states}{audit}with the value of state 0 a tick higher:\n{higher}"
    )
}

/// What the example that follows prints of an opening or a report.
fn followed_text(followed: Followed, record: &Record) -> String {
    let Record { state, moves, seconds, .. } = record;
    match followed {
        Followed::Done => format!("state {state}, {moves} moves, {seconds} seconds\n"),
        Followed::Refused { question, place, excess } => refused_text(question, place, excess),
    }
}

/// All that it prints of a file and reports.
fn follow_text(file: &[u8], outcomes: &[u64]) -> String {
    let tables = planned_at_any_length(Kind::Plain, file).tables;
    let OwnedTables { values, picks, .. } = tables.unwrap_or_default();
    let mut record = Record { state: 0, moves: 0, seconds: 0, mark: 0 };
    let opened = open(file, &values, &picks, &mut record);
    let mut text = followed_text(opened, &record);
    for &outcome in outcomes.iter().take_while(|_| opened == Followed::Done) {
        let followed = report(file, &values, &picks, outcome, &mut record);
        text += &followed_text(followed, &record);
    }
    text
}

/// Runs the example that follows on a file and reports.
fn compare_follow(tally: &mut Tally, folder: &Folder, case: &str, file: &[u8], outcomes: &[u64]) {
    folder.put("file", Some(file));
    tally.case = format!("the example that follows on {case}, reports {outcomes:?}");
    tally.count("runs of the example that follows");
    let mut command = Command::new(folder.path(FOLLOW.name));
    command.arg(folder.path("file")).args(outcomes.iter().map(u64::to_string));
    let asked = Said::only(follow_text(file, outcomes));
    tally.hold("what it prints", &said(start(&mut command)), &asked);
}

/// Follows the examples' plans: P to its goal, past it and with refused outcomes, a stick that is given
/// up, the stick of `stick.md`; and an empty file, which is not opened.
fn compare_follows(tally: &mut Tally, folder: &Folder) {
    let files = TEXTS.map(|(name, _)| (name, std::fs::read(path(name)).expect("an example")));
    let [(_, p), (_, one_state), (_, stick)] = &files;
    compare_follow(tally, folder, "P", p, &SHOWN_REPORTS);
    compare_follow(tally, folder, "P", p, &[2, 1, 0]);
    compare_follow(tally, folder, "P", p, &[u64::MAX, 0, 1, 0]);
    compare_follow(tally, folder, "one-state", one_state, &[1, 0, 0]);
    compare_follow(tally, folder, "stick", stick, &[1, 0, 1, 0, 1, 0, 0, 0]);
    for fourth in FOURTHS {
        let p = with_total(&file_p(), fourth).bytes();
        compare_follow(tally, folder, "P in another total", &p, &[2, 0, 0, 0]);
        let limits = at_limits(&mut Random::new(1), true, 5_000, fourth).bytes();
        compare_follow(tally, folder, "the limits", &limits, &[0, 1, 0]);
    }
    compare_follow(tally, folder, "an empty file", &[], &[0]);
}

/// All that the example which writes a set form has on its standard output and its standard error,
/// and its exit status, from a file.
fn form_output(tally: &mut Tally, file: &[u8]) -> (Vec<u8>, Vec<u8>, i32) {
    match set_form(file) {
        Ok(form) => {
            tally.count_on(file, "set forms written");
            if form.len() < file.len() {
                tally.count_on(file, "set forms shorter than the file");
            }
            (form, Vec::new(), 0)
        }
        Err(no) => {
            tally.meet(no.question, file);
            let said = format!("refused, question {}, place {}\n", no.question, no.place);
            (Vec::new(), said.into_bytes(), 1)
        }
    }
}

/// Runs the example that writes a set form on a file.
fn compare_form(tally: &mut Tally, folder: &Folder, case: &str, file: &[u8]) {
    folder.put("file", Some(file));
    tally.case = format!("the example that writes a set form on {case}");
    tally.count("runs of the example that writes a set form");
    let (form, said, code) = form_output(tally, file);
    let mut command = Command::new(folder.path(SET_FORM.name));
    let Output { status, stdout, stderr } = run_to_end(command.arg(folder.path("file")), &[]);
    tally.hold("what it writes", &stdout, &form);
    tally.hold("its messages and status", &(stderr, status.code()), &(said, Some(code)));
}

/// Writes the set forms, in a total, of the stick written in other ways, of rows with as many outcomes
/// as there may be in every order, and of the largest file; and meets refusals: of the stick with one
/// thing wrong for each question, and of damaged sticks.
fn compare_forms_in(tally: &mut Tally, folder: &Folder, random: &mut Random, fourth: Fourth) {
    let stick = with_total(&stick(), fourth);
    for change in &SAME {
        let mut draft = stick.clone();
        (change.make)(random, &mut draft);
        compare_form(tally, folder, &format!("the stick, {}", change.name), &draft.bytes());
    }
    for order in ORDERS {
        for states in [3, 300] {
            let case = format!("wide rows, {states} states, {order:?}");
            compare_form(tally, folder, &case, &wide(random, states, order, fourth).bytes());
        }
    }
    compare_form(tally, folder, "the limits", &at_limits(random, true, 5_000, fourth).bytes());
    for (refusal, file) in one_wrong_each(&stick) {
        compare_form(tally, folder, &format!("the stick wrong for {refusal:?}"), &file);
    }
    for number in 0..DAMAGED {
        let file = damaged(random, &stick);
        compare_form(tally, folder, &format!("damaged stick {number}"), &file);
    }
}

/// Runs the C examples on a name: nothing is printed, the message is about the name, and the status 1.
fn compare_unread(tally: &mut Tally, folder: &Folder, name: &str, reason: &str) {
    for Example { name: example, .. } in C_EXAMPLES {
        tally.case = format!("the example {example} on {name}: {reason}");
        tally.count("files that an example cannot read");
        let path = folder.path(name);
        let Output { status, stdout, stderr } =
            run_to_end(Command::new(folder.path(example)).arg(&path), &[]);
        let given = String::from_utf8_lossy(&stderr);
        let program = if *example == "c" { "plan_and_audit" } else { example };
        let asked = format!("{program}: {}: {reason}\n", path.display());
        tally.hold("its message", &*given, &asked);
        tally.hold("its output and status", &(stdout, status.code()), &(Vec::new(), Some(1)));
    }
}

/// Names that the C examples cannot read, and a file longer than their room, which is not cut.
fn compare_all_unread(tally: &mut Tally, folder: &Folder) {
    compare_unread(tally, folder, "nowhere", "No such file or directory");
    std::fs::create_dir(folder.path("folder")).expect("a folder can be made");
    compare_unread(tally, folder, "folder", "Is a directory");
    let mut long = stick().bytes();
    long.resize(LONGEST_FILE + 1, 0);
    folder.put("long", Some(&long));
    compare_unread(tally, folder, "long", TOO_LONG);
}

/// The header in a program in C++.
fn compare_c_plus_plus(tally: &mut Tally, folder: &Folder) {
    tally.case = "the header in C++".into();
    let mut words = COMPILED.split(' ');
    let mut compiler = Command::new(words.next().expect("a compiler"));
    compiler.args(words).arg("-o").arg(folder.path("c++")).current_dir(TOP);
    let Output { status, stderr, .. } = run_to_end(&mut compiler, C_PLUS_PLUS.as_bytes());
    tally.hold("what the compiler says", &*String::from_utf8_lossy(&stderr), "");
    tally.hold("its status", &status.code(), &Some(0));
    let status = run_to_end(&mut Command::new(folder.path("c++")), &[]).status;
    tally.hold("what the call returns", &status.code(), &Some(0));
}

/// Writes the set forms of the examples, and of much else in each total; and meets the refusals of an
/// empty file, and of one that is as long as the example's room.
fn compare_forms(tally: &mut Tally, folder: &Folder) {
    for (name, _) in TEXTS {
        let file = std::fs::read(path(name)).expect("an example");
        compare_form(tally, folder, name, &file);
    }
    let mut random = Random::new(1);
    for fourth in FOURTHS {
        compare_forms_in(tally, folder, &mut random, fourth);
    }
    compare_form(tally, folder, "an empty file", &[]);
    let mut long = stick().bytes();
    long.resize(LONGEST_FILE, 0);
    compare_form(tally, folder, "a file as long as the room", &long);
}

/// Runs both examples on a file, and the C example once more to finish it.
fn compare(tally: &mut Tally, folder: &Folder, case: &str, file: &[u8]) {
    folder.put("file", Some(file));
    for Example { name, .. } in EXAMPLES {
        tally.count("runs of an example");
        compare_example(tally, folder, name, Kind::Plain, case, file);
    }
    tally.count(LEAST_FINISHING.0);
    compare_example(tally, folder, EXAMPLES[0].name, Kind::Finishing, case, file);
}

/// Runs an example on the file that stands in the folder.
fn compare_example(
    tally: &mut Tally,
    folder: &Folder,
    name: &str,
    kind: Kind,
    case: &str,
    file: &[u8],
) {
    tally.case = format!("the {name} example on {case}, {kind:?} run");
    let mut command = Command::new(folder.path(name));
    command.arg(folder.path("file")).args(words_behind(kind));
    let asked = Said::only(example_text(kind, file));
    tally.hold("what it prints", &said(start(&mut command)), &asked);
}

/// A text as an indented block.
fn block(text: &str) -> String {
    let indented = |line: &str| if line.is_empty() { "\n".into() } else { format!("    {line}\n") };
    text.lines().map(indented).collect()
}

/// Holds that a page shows a text, as a block.
fn hold_shown(tally: &mut Tally, page: &str, text: &str) {
    tally.case = page.into();
    tally.count("texts shown on pages");
    let shown = std::fs::read_to_string(path(page)).expect("a page");
    let given = if shown.contains(block(text).trim_end()) { text } else { "not shown" };
    tally.hold("what it shows", given, text);
}

/// What the pages show: the stick's listing, plan and audits; P's text and lines, what the examples
/// print of it, and how they are compiled.
fn compare_pages(tally: &mut Tally) {
    let file = stick().bytes();
    let tables = planned(&file).tables.expect("the stick passes");
    let (_, text) = TEXTS[2];
    let listing = Written::read(text).expect("the stick's text is whole").listing();
    hold_shown(tally, "stick.md", &listing);
    hold_shown(tally, "stick.md", &plan_lines(&file));
    hold_shown(tally, "stick.md", &audit_line(audit_file(&file, &tables.values, &tables.picks)));
    let mut values = tables.values.clone();
    values[2] += 1;
    hold_shown(tally, "stick.md", &audit_line(audit_file(&file, &values, &tables.picks)));
    let p = std::fs::read(path("P")).expect("P");
    hold_shown(tally, "../README.md", TEXTS[0].1);
    hold_shown(tally, "../README.md", &plan_lines(&p));
    hold_shown(tally, "../README.md", &example_text(Kind::Plain, &p));
    hold_shown(tally, "../README.md", &follow_text(&p, &SHOWN_REPORTS));
    for example in EXAMPLES.iter().chain([&FOLLOW, &SET_FORM]) {
        hold_shown(tally, "../README.md", example.command);
    }
}

fn main() -> ExitCode {
    let tally = Tally::asking(&[LEAST_FINISHING]).in_each_total(&LEAST);
    let mut tally = tally.meeting(FILE_QUESTIONS, LEAST_MET);
    let folder = Folder::new("compare-examples");
    for example in EXAMPLES.iter().chain([&FOLLOW, &SET_FORM]) {
        compile(&folder, example);
    }
    for (name, _) in TEXTS {
        let file = std::fs::read(path(name)).expect("an example");
        compare(&mut tally, &folder, name, &file);
    }
    let mut random = Random::new(1);
    compare(&mut tally, &folder, "an empty file", &[]);
    for fourth in FOURTHS {
        let limits = at_limits(&mut random, true, 5_000, fourth).bytes();
        let chain = deep_chain(&mut random, OLD.states, 8, true, fourth).bytes();
        compare(&mut tally, &folder, "P in another total", &with_total(&file_p(), fourth).bytes());
        compare(
            &mut tally,
            &folder,
            "the stick in another total",
            &with_total(&stick(), fourth).bytes(),
        );
        let coarse = with_total(&coarse(), fourth).bytes();
        compare(&mut tally, &folder, "a coarse tolerance", &coarse);
        compare(&mut tally, &folder, "no total", &file_p().with_fourth(Some(999)).bytes());
        compare(&mut tally, &folder, "the limits", &limits);
        compare(&mut tally, &folder, "a chain", &chain);
    }
    compare_follows(&mut tally, &folder);
    compare_forms(&mut tally, &folder);
    compare_all_unread(&mut tally, &folder);
    compare_c_plus_plus(&mut tally, &folder);
    compare_pages(&mut tally);
    tally.close()
}
