//! Measures the stack that the product needs at the limits: 2,048 states one below the other, 8,192
//! rows, 16,384 outcomes, four settings; `plan` as much of it as it holds. The library runs on threads with
//! smaller and smaller stacks, each in a process of its own; the programs run under `ulimit -s`, and under
//! `ulimit -v` for all their memory. Where the system begins a program's stack is a matter of chance, so what is
//! enough must be so each of many times.
//!
//! `measure_stack [plan] [audit] [sheet]`

use comparisons::audit::Verdict;
use comparisons::extremes::{deepest, deepest_held};
use comparisons::follower::Record;
use comparisons::library::{self, ACCEPTED, ANSWER, DONE, PASSED, SOLVED, WRITTEN};
use comparisons::limits::PLAN_ROUNDS;
use comparisons::listing::{audit_line, planned, planned_at_any_length};
use comparisons::programs::{run, said, start, Folder, Program};
use comparisons::sheets::sheets;
use comparisons::solver::{Kind, OwnedTables};
use comparisons::table_files::{picks_bytes, values_bytes};
use comparisons::totals::Fourth;
use std::process::Command;

/// The steps of the measuring, in KiB: a page.
const STEP: u64 = 4;
/// The most stack that anything may need, in KiB.
const BAR: u64 = 512;
/// More than anything needs, in KiB.
const PLENTY: u64 = 16 * 1_024;
/// How often a program must do with what is enough.
const TIMES: usize = 40;
/// What a child prints when it came to its end.
const ENDED: &str = "ended\n";
/// The largest file has count 4.
const LARGEST: Fourth = Some(10_000);
/// The record at the start of the file, state 0.
const START: Record = Record { state: 0, moves: 0, seconds: 0, mark: 0 };
/// Runs a program under a limit.
const LIMITED: &str = "ulimit \"$1\" \"$2\"; shift 2; exec \"$@\"";

/// The product's run of a kind on the file.
fn run_library(kind: Kind, file: &[u8], tables: &mut OwnedTables) {
    let code = library::run(kind, file, PLAN_ROUNDS, tables.lend(), &mut [0; ANSWER]);
    assert_eq!(code, SOLVED);
}

/// The product's audit of the tables.
fn audit(file: &[u8], tables: &mut OwnedTables) {
    let code = library::audit(file, &mut tables.values, &mut tables.picks, &mut [0; ANSWER]);
    assert_eq!(code, ACCEPTED);
}

/// The product's check of the file.
fn check(file: &[u8]) {
    let code = library::check(file, &mut [0; ANSWER]);
    assert_eq!(code, PASSED);
}

/// The product's lookup of the start's rows.
fn rows(file: &[u8]) {
    assert_ne!(library::rows(file, START.state, &mut [0; ANSWER]), 0);
}

/// The product's opening of a follower.
fn open(file: &[u8], tables: &mut OwnedTables) {
    let (OwnedTables { values, picks, .. }, mut record) = (tables, START);
    let code = library::open(file, values, picks, &mut record, &mut [0; ANSWER]);
    assert_eq!(code, DONE);
}

/// The product's report of the picked row's first outcome at the start.
fn report(file: &[u8], tables: &mut OwnedTables) {
    let (OwnedTables { values, picks, .. }, mut record) = (tables, START);
    let code = library::report(file, values, picks, 0, &mut record, &mut [0; ANSWER]);
    assert_eq!(code, DONE);
}

/// The product's set form of the file, into an output as long as the file.
fn set_form(file: &[u8]) {
    let code = library::set_form(file, &mut vec![0; file.len()], &mut [0; ANSWER]);
    assert_eq!(code, WRITTEN);
}

/// A child's part: the named function on a thread with so many KiB of stack.
fn child(function: &str, kib: &str) {
    let function = function.to_string();
    let stack = kib.parse::<usize>().expect("a whole number") * 1_024;
    let file = deepest(LARGEST).bytes();
    let mut tables = planned_at_any_length(Kind::Plain, &file).tables.expect("whole");
    let thread = std::thread::Builder::new().stack_size(stack);
    let work = move || match function.as_str() {
        "solve" => run_library(Kind::Plain, &file, &mut tables),
        "finish" => run_library(Kind::Finishing, &file, &mut tables),
        "audit" => audit(&file, &mut tables),
        "open" => open(&file, &mut tables),
        "report" => report(&file, &mut tables),
        "set_form" => set_form(&file),
        "rows" => rows(&file),
        _ => check(&file),
    };
    thread.spawn(work).expect("a thread").join().expect("it ends well");
    print!("{ENDED}");
}

/// Whether a function of the library does with so much.
fn library_does(function: &str, kib: u64) -> bool {
    let own = std::env::current_exe().expect("this program");
    let command = &mut Command::new(own);
    said(start(command.args(["child", function, &kib.to_string()]))).output == ENDED
}

/// Whether a program does with so much of what a letter of `ulimit` names, each time.
fn program_does(command: &Command, limit: &str, kib: u64, input: &[u8], asked: &str) -> bool {
    let mut limited = Command::new("sh");
    limited.args(["-c", LIMITED, "sh", limit, &kib.to_string()]);
    limited.arg(command.get_program()).args(command.get_args()).env_clear();
    limited.current_dir(command.get_current_dir().expect("a folder"));
    (0..TIMES).all(|_| run(&mut limited, input).output == asked)
}

/// The least number of KiB with which something does.
fn least(does: impl Fn(u64) -> bool) -> u64 {
    let (mut fails, mut enough) = (0, PLENTY);
    assert!(does(enough));
    while enough - fails > STEP {
        let middle = (fails + enough) / 2 / STEP * STEP;
        match does(middle) {
            true => enough = middle,
            false => fails = middle,
        }
    }
    enough
}

/// A stack, and whether it is within the bar.
fn held(stack: u64) -> String {
    let word = if stack <= BAR { "within" } else { "above" };
    format!("{stack} KiB of stack, {word} the bar of {BAR}")
}

/// Measures a program.
fn measure(name: &str, command: &Command, input: &[u8], asked: &str) {
    let stack = least(|kib| program_does(command, "-s", kib, input, asked));
    let memory = least(|kib| program_does(command, "-v", kib, input, asked));
    println!("{name}: {}; {memory} KiB of memory in all", held(stack));
}

fn main() {
    let words: Vec<String> = std::env::args().collect();
    match &words[..] {
        [_, word, function, kib] if word == "child" => return child(function, kib),
        _ => {}
    }
    for function in ["solve", "finish", "audit", "check", "rows", "open", "report", "set_form"] {
        println!("cuulipso_{function}: {}", held(least(|kib| library_does(function, kib))));
    }
    let (file, held) = (deepest(LARGEST).bytes(), deepest_held(LARGEST).bytes());
    let tables = planned_at_any_length(Kind::Plain, &file).tables.expect("whole");
    let folder = Folder::new("measure-stack");
    folder.put("file", Some(&file));
    folder.put("values", Some(&values_bytes(&tables.values)));
    folder.put("picks", Some(&picks_bytes(&tables.picks)));
    let (plan, audit) = (Program::named(1, "plan"), Program::named(2, "audit"));
    let mut command = Command::new(plan.path());
    command.args(["new-values", "new-picks"]).current_dir(folder.path(""));
    measure("plan", &command, &held, &planned(&held).lines);
    let mut command = Command::new(audit.path());
    command.args(["file", "values", "picks"]).current_dir(folder.path(""));
    let line = audit_line(Verdict::Accepted { least_cost: 1_000 });
    measure("audit", &command, &[], &line);
    let mut command = Command::new(Program::named(3, "sheet").path());
    command.current_dir(folder.path(""));
    measure("sheet", &command, &[], &sheets());
}
