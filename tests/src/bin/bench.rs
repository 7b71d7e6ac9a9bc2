//! Times the product's `cuulipso_solve` against `solver.rs`, on the same files in the same process,
//! the two by turns. Both read the file from its bytes, put questions 1 to 11, and solve.
//!
//! Both write into the same lent tables. The buffers are not cleared between runs: each run finds
//! what the run before left there.
//!
//! The files have the weight total 1,000, by count 3. Files of the largest size are timed in the other
//! totals too. The loads are the four of before, the two with four rows a state, and apart from these E11's,
//! which has at most 1,024 states.
//!
//! `bench [seed] [files per load]`, the seed being E11's first starting number

use comparisons::harness::argument;
use comparisons::library::{self, asked_of_run, ANSWER};
use comparisons::limits::{MAX_STATES, OLD, TOTALS, USUAL_TOTAL};
use comparisons::loads::{files_by_rule, Load, BY_RULE, LOADS, LOADS_OF_FOUR_ROWS};
use comparisons::problem::Problem;
use comparisons::short_ways::ShortWays;
use comparisons::solver::{solve_file, OwnedTables, Run};
use comparisons::timing::{median, Pairs};
use comparisons::totals::Fourth;
use std::process::ExitCode;

/// The sizes timed, each with the highest ratios of the product's time to Rust's that are let pass: over the
/// four loads of before, and over all loads.
const BARS: [(usize, [f64; 2]); 5] = [
    (16, [0.85, 0.85]),
    (64, [0.90, 0.90]),
    (256, [0.90, 0.90]),
    (OLD.states, [0.85, 0.85]),
    (MAX_STATES, [0.85, 0.85]),
];
/// The same for E11's load.
const BARS_BY_RULE: [(usize, f64); 4] = [(16, 1.10), (64, 0.85), (256, 0.80), (OLD.states, 0.80)];
/// The highest ratio in another total, over that in 1,000 at the same size, that is let pass.
const BAR_OF_TOTALS: f64 = 1.1;
/// The rounds of a run.
const BUDGET: u64 = 10_000;

/// The product's run: its code and answer.
fn product(file: &[u8], tables: &mut OwnedTables) -> (u8, [u64; ANSWER]) {
    let mut answer = [0; ANSWER];
    let code = library::solve(file, BUDGET, tables.lend(), &mut answer);
    (code, answer)
}

/// The Rust run.
fn rust(file: &[u8], tables: &mut OwnedTables) -> Run {
    solve_file(file, BUDGET, tables.lend())
}

/// What was measured on some files.
#[derive(Default)]
struct Measured {
    timed: Pairs,
    ways: ShortWays,
    full_count: u64,
    differences: u64,
}

impl Measured {
    /// Runs both sides once, compares them in answer and tables, and adds to the counts.
    fn compare(&mut self, file: &[u8]) {
        let (mut ours, mut theirs) = (OwnedTables::longest(), OwnedTables::longest());
        let run = rust(file, &mut ours);
        let asked = asked_of_run(run.answer);
        let given = product(file, &mut theirs);
        self.differences += u64::from(given != asked || theirs != ours);
        self.full_count += run.full_count;
        if let Ok(problem) = Problem::read(file) {
            let ways = ShortWays::of_run(&problem, BUDGET).0;
            self.differences += u64::from([ways.rounds, ways.evaluations] != asked.1[..2]);
            self.ways.add(ways);
        }
    }

    /// Times both sides by turns.
    fn time(&mut self, file: &[u8]) {
        let lent = &mut OwnedTables::longest();
        self.timed.time(lent, |lent| product(file, lent), |lent| rust(file, lent));
    }

    /// Measures some files, and prints a line about them, after their size or total.
    fn files(name: &str, size: u32, files: &[Vec<u8>]) -> Measured {
        let mut measured = Measured::default();
        for file in files {
            measured.compare(file);
            measured.time(file);
        }
        measured.print(name, size);
        measured
    }

    /// Adds what was measured on the files of loads at a size in a total.
    fn loads(mut self, loads: &[Load], states: usize, fourth: Fourth, drawn: [u64; 2]) -> Measured {
        let size = fourth.unwrap_or(states as u32);
        for load in loads {
            self.extend(Measured::files(load.name, size, &load.files(states, fourth, drawn)));
        }
        self
    }

    /// Adds what was measured on other files.
    fn extend(&mut self, other: Measured) {
        self.timed.extend(other.timed);
        self.ways.add(other.ways);
        self.full_count += other.full_count;
        self.differences += other.differences;
    }

    /// The median of the product's time over Rust's.
    fn ratio(&self) -> f64 {
        median(&self.timed.ratios)
    }

    /// Prints a line about a load.
    fn print(&self, name: &str, size: u32) {
        println!(
            "{size:>5}  {name:<23} {:>8.3} {:>12.1} {:>12.1} {:>8} {:>12} {:>12} {:>8} {:>8}",
            self.ratio(),
            median(&self.timed.first) * 1e6,
            median(&self.timed.second) * 1e6,
            self.ways.rounds,
            self.ways.evaluations,
            self.full_count,
            self.ways.percent_without_walk(),
            self.ways.percent_with_one(),
        );
    }
}

/// Prints the heads of the columns, the first of them what it is given.
fn print_heads(size: &str) {
    println!(
        "{size:>5}  {:<23} {:>8} {:>12} {:>12} {:>8} {:>12} {:>12} {:>8} {:>8}",
        "load",
        "ratio",
        "product",
        "rust",
        "rounds",
        "evaluations",
        "full count",
        "no walk",
        "one row"
    );
}

/// The sides' verdicts, and the number of differences.
#[derive(Default)]
struct Verdicts {
    lines: Vec<String>,
    differences: u64,
}

impl Verdicts {
    /// Adds what was measured, and whether a number of it is within the highest that is let pass.
    fn hold(&mut self, measured: String, number: f64, bar: f64) {
        let word = if number <= bar { "within" } else { "above" };
        self.lines.push(format!("{measured}, {word} the bar of {bar}"));
    }

    /// Measures all loads of a size. Gives the ratio over all of them.
    fn size(&mut self, states: usize, bars: [f64; 2], drawn: [u64; 2]) -> f64 {
        let before = Measured::default().loads(&LOADS, states, None, drawn);
        let ratio = before.ratio();
        self.hold(
            format!("{states:>5} states: ratio {ratio:.3} over the four loads of before"),
            ratio,
            bars[0],
        );
        let all = before.loads(&LOADS_OF_FOUR_ROWS, states, None, drawn);
        let ratio = all.ratio();
        self.hold(format!("{states:>5} states: ratio {ratio:.3} over all loads"), ratio, bars[1]);
        self.differences += all.differences;
        ratio
    }

    /// Measures E11's load at a size.
    fn by_rule(&mut self, states: usize, bar: f64, drawn: [u64; 2]) {
        let measured = Measured::files(BY_RULE, states as u32, &files_by_rule(states, drawn));
        let ratio = measured.ratio();
        self.hold(format!("{states:>5} states: ratio {ratio:.3} {BY_RULE}"), ratio, bar);
        self.differences += measured.differences;
    }

    /// Measures all loads of the largest size in a total, beside the ratio in 1,000.
    fn total(&mut self, total: u32, usual: f64, drawn: [u64; 2]) {
        let all = [&LOADS[..], &LOADS_OF_FOUR_ROWS].into_iter();
        let measured = all.fold(Measured::default(), |measured, loads| {
            measured.loads(loads, MAX_STATES, Some(total), drawn)
        });
        let ratio = measured.ratio();
        let over = ratio / usual;
        let line = format!("{total:>5} total: ratio {ratio:.3}, {over:.3} of {USUAL_TOTAL}'s");
        self.hold(line, over, BAR_OF_TOTALS);
        self.differences += measured.differences;
    }
}

fn main() -> ExitCode {
    let drawn = [argument(1, 1), argument(2, 5)];
    let (mut verdicts, mut usual) = (Verdicts::default(), 0.0);
    println!("ratio: the product's time over Rust's, median; times in microseconds a run, median;");
    println!(
        "rounds, evaluations and full count: sums over {} files; buffers not cleared;",
        drawn[1]
    );
    println!("no walk: rounds, in hundredths, before which no pick changed since the last walk;");
    println!("one row: backups, in hundredths, with one evaluation whose pick stays");
    print_heads("size");
    for (states, bars) in BARS {
        usual = verdicts.size(states, bars, drawn);
    }
    for (states, bar) in BARS_BY_RULE {
        verdicts.by_rule(states, bar, drawn);
    }
    println!("in the other totals, at {MAX_STATES} states");
    print_heads("total");
    for total in TOTALS.into_iter().filter(|&total| total != USUAL_TOTAL) {
        verdicts.total(total, usual, drawn);
    }
    println!("{}\n{} differences", verdicts.lines.join("\n"), verdicts.differences);
    if verdicts.differences == 0 {
        ExitCode::SUCCESS
    } else {
        ExitCode::FAILURE
    }
}
