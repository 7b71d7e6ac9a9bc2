//! Times the product's `cuulipso_audit` against `audit.rs`, its `cuulipso_report` against
//! `follower.rs`, and its report against its audit, on the same solved files in the same process,
//! two sides by turns. All read the file from its bytes and put questions 1 to 11 and 15 to 19; a
//! report then puts 20 to 22 and alters the record.
//!
//! Each report is of outcome 0 from the record at the start, which is set anew before each call.
//! The tables are those of the run, which nothing alters.
//!
//! `bench_following [seed] [files per load]`

use comparisons::audit::{audit_file, reached_states, Verdict};
use comparisons::follower::{self, Followed, Record};
use comparisons::harness::argument;
use comparisons::library::{self, asked_of_follower, ACCEPTED, ANSWER, DONE};
use comparisons::limits::{MAX_STATES, OLD};
use comparisons::loads::{Load, LOADS};
use comparisons::problem::Problem;
use comparisons::proposal::Proposal;
use comparisons::random::Random;
use comparisons::timing::{median, Pairs};
use std::process::ExitCode;

/// The sizes timed.
const SIZES: [usize; 5] = [16, 64, 256, OLD.states, MAX_STATES];
/// The rounds of the run that makes the tables.
const BUDGET: u64 = 10_000;
/// The outcome reported.
const OUTCOME: u64 = 0;

/// A shift: a file with the tables of its run, and the record that reports alter.
struct Shift {
    file: Vec<u8>,
    tables: Proposal,
    /// The record at the start.
    start: Record,
    record: Record,
    /// How many states the plan reaches.
    reached: u64,
}

impl Shift {
    /// The shift on a file.
    fn new(file: Vec<u8>) -> Shift {
        let problem = Problem::read(&file).expect("whole");
        let (tables, _) = Proposal::of_run(&problem, BUDGET);
        let reached = reached_states(&problem, &tables.picks).iter().map(|&is| u64::from(is)).sum();
        let start = Record { state: problem.start as u64, moves: 0, seconds: 0, mark: 0 };
        Shift { file, tables, start, record: start, reached }
    }
}

/// The product's audit: its code and answer.
fn product_audit(shift: &mut Shift) -> (u8, [i64; ANSWER]) {
    let Shift { file, tables: Proposal { values, picks }, .. } = shift;
    let mut answer = [0; ANSWER];
    let code = library::audit(file, values, picks, &mut answer);
    (code, answer)
}

/// The Rust audit.
fn rust_audit(shift: &mut Shift) -> Verdict {
    let Shift { file, tables: Proposal { values, picks }, .. } = shift;
    audit_file(file, values, picks)
}

/// The product's report: its code and answer.
fn product_report(shift: &mut Shift) -> (u8, [i64; ANSWER]) {
    let Shift { file, tables: Proposal { values, picks }, start, record, .. } = shift;
    *record = *start;
    let mut answer = [0; ANSWER];
    let code = library::report(file, values, picks, OUTCOME, record, &mut answer);
    (code, answer)
}

/// The Rust report.
fn rust_report(shift: &mut Shift) -> Followed {
    let Shift { file, tables: Proposal { values, picks }, start, record, .. } = shift;
    *record = *start;
    follower::report(file, values, picks, OUTCOME, record)
}

/// Whether both sides accept the tables with one answer.
fn both_accept(shift: &mut Shift) -> bool {
    match rust_audit(shift) {
        Verdict::Accepted { least_cost } => {
            product_audit(shift) == (ACCEPTED, [i64::from(least_cost), 0, 0])
        }
        Verdict::Refused { .. } => false,
    }
}

/// Whether the report is done on both sides, with one answer and one record.
fn both_done(shift: &mut Shift) -> bool {
    let asked = asked_of_follower(rust_report(shift), &shift.record);
    let left = shift.record;
    asked.0 == DONE && product_report(shift) == asked && shift.record == left
}

/// What was measured on some files.
#[derive(Default)]
struct Measured {
    /// The audit of the product, and of Rust.
    audits: Pairs,
    /// The report of the product, and of Rust.
    reports: Pairs,
    /// The report of the product, and its audit.
    report_over_audit: Pairs,
    /// The states that the plans reach.
    reached: u64,
    /// Audits not accepted, reports not done, and those on which the two sides differ.
    failed: u64,
}

impl Measured {
    /// Makes each call on a file once, compares the two sides, and adds to the counts.
    fn compare(&mut self, shift: &mut Shift) {
        self.failed += u64::from(!both_accept(shift)) + u64::from(!both_done(shift));
        self.reached += shift.reached;
    }

    /// Times the calls on a file.
    fn time(&mut self, shift: &mut Shift) {
        self.audits.time(shift, product_audit, rust_audit);
        self.reports.time(shift, product_report, rust_report);
        self.report_over_audit.time(shift, product_report, product_audit);
    }

    /// Measures a load at a size on files of a seed.
    fn load(load: &Load, states: usize, seed: u64, files: u64) -> Measured {
        let mut measured = Measured::default();
        for number in 0..files {
            let file = load.file(&mut Random::of_file(seed, number), states, None);
            let shift = &mut Shift::new(file);
            measured.compare(shift);
            measured.time(shift);
        }
        measured
    }

    /// Adds what was measured on others.
    fn extend(&mut self, other: Measured) {
        self.audits.extend(other.audits);
        self.reports.extend(other.reports);
        self.report_over_audit.extend(other.report_over_audit);
        self.reached += other.reached;
        self.failed += other.failed;
    }

    /// Prints a line about a load, or about all.
    fn print(&self, name: &str, states: usize) {
        println!(
            "{states:>5}  {name:<23} {:>8.3} {:>8.3} {:>12.3} {:>12.2} {:>12.2} {:>8}",
            median(&self.audits.ratios),
            median(&self.reports.ratios),
            median(&self.report_over_audit.ratios),
            median(&self.audits.first) * 1e6,
            median(&self.reports.first) * 1e6,
            self.reached,
        );
    }
}

fn main() -> ExitCode {
    let (seed, files) = (argument(1, 1), argument(2, 5));
    let mut failed = 0;
    println!("audit, report: the product's time over Rust's, median; report/audit: its report's");
    println!("time over its audit's, median; its times in microseconds a call, median;");
    println!("reached: states that the plans reach, sum over {files} files a load");
    println!(
        "{:>5}  {:<23} {:>8} {:>8} {:>12} {:>12} {:>12} {:>8}",
        "size", "load", "audit", "report", "report/audit", "audit time", "report time", "reached"
    );
    for states in SIZES {
        let mut all = Measured::default();
        for load in &LOADS {
            let measured = Measured::load(load, states, seed, files);
            measured.print(load.name, states);
            all.extend(measured);
        }
        all.print("all loads", states);
        failed += all.failed;
    }
    println!("{failed} audits or reports refused or different");
    if failed == 0 {
        ExitCode::SUCCESS
    } else {
        ExitCode::FAILURE
    }
}
