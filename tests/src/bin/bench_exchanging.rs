//! Times the product's `cuulipso_set_form` against its `cuulipso_check`, and against the set form
//! of `quick_form.rs`, on the same files in the same process, two sides by turns. All
//! read the file from its bytes and put questions 1 to 11; then a set form is written to an output as
//! long as the file.
//!
//! The files have two outcomes a row, with four rows at each state and with as many rows as there may
//! be; and rows of 255 outcomes in several orders, as many as fit.
//!
//! `bench_exchanging [seed] [files per load]`

use comparisons::encode::{share, Draft};
use comparisons::harness::argument;
use comparisons::library::{check, set_form, ANSWER, PASSED, WRITTEN};
use comparisons::limits::*;
use comparisons::made::{any_cost, any_weights};
use comparisons::quick_form::write_quickly;
use comparisons::random::Random;
use comparisons::set_form;
use comparisons::timing::{median, Pairs};
use comparisons::wide::{wide, Order};
use std::process::ExitCode;

/// The rows at each state of a file at all limits.
const ROWS_EACH: usize = MAX_ROWS / MAX_STATES;

/// A load's name, its sizes in states, and how its files are made.
struct Load {
    name: &'static str,
    sizes: &'static [usize],
    draft: fn(&mut Random, usize) -> Draft,
}

/// The loads timed.
const LOADS: [Load; 7] = [
    Load {
        name: "two outcomes, four rows",
        sizes: &[16, 64, 256, OLD.states, MAX_STATES],
        draft: four_rows,
    },
    Load { name: "two outcomes, most rows", sizes: &[16, 64, 256], draft: most_rows },
    Load {
        name: "255 falling",
        sizes: &[256, MAX_STATES],
        draft: |r, n| wide(r, n, Order::Falling, None),
    },
    Load {
        name: "255 mixed",
        sizes: &[256, MAX_STATES],
        draft: |r, n| wide(r, n, Order::Mixed, None),
    },
    Load {
        name: "255 rising",
        sizes: &[256, MAX_STATES],
        draft: |r, n| wide(r, n, Order::Rising, None),
    },
    Load {
        name: "255 with repeats",
        sizes: &[16, MAX_STATES],
        draft: |r, n| wide(r, n, Order::Repeats, None),
    },
    Load {
        name: "255 to one state",
        sizes: &[2, MAX_STATES],
        draft: |r, n| wide(r, n, Order::One, None),
    },
];

/// Four rows at each state: at 2,048 states, 8,192 rows and 16,384 outcomes.
fn four_rows(random: &mut Random, states: usize) -> Draft {
    two_outcomes(random, states, ROWS_EACH * states)
}

/// As many rows as there may be: 8,192, or 255 at each state.
fn most_rows(random: &mut Random, states: usize) -> Draft {
    two_outcomes(random, states, MAX_ROWS.min(MAX_IN_BYTE * states))
}

/// So many rows at so many states, no goals, each with two outcomes to any states.
fn two_outcomes(random: &mut Random, states: usize, rows: usize) -> Draft {
    let mut draft = Draft::new(0, 1, 5_000);
    for state in 0..states {
        draft.add_state();
        for _ in share(rows, states, state) {
            let (kind, cost) = any_cost(random);
            let weights = any_weights(random, 2, USUAL_TOTAL);
            let outcomes: Vec<(u16, u16)> =
                weights.into_iter().map(|weight| (random.below(states) as u16, weight)).collect();
            draft.add_row(kind, cost, &outcomes);
        }
    }
    draft
}

/// A file, and an output as long as it.
struct Lent {
    file: Vec<u8>,
    output: Vec<u8>,
}

/// The product's set form: its code and its length.
fn product_form(lent: &mut Lent) -> (u8, u64) {
    let mut answer = [0; ANSWER];
    let code = set_form(&lent.file, &mut lent.output, &mut answer);
    (code, answer[0])
}

/// The product's check.
fn product_check(lent: &mut Lent) -> u8 {
    check(&lent.file, &mut [0; ANSWER])
}

/// The Rust set form: its length.
fn rust_form(lent: &mut Lent) -> Option<usize> {
    write_quickly(&lent.file, &mut lent.output).ok()
}

/// Whether both sides write the set form and the check passes.
fn both_write(lent: &mut Lent) -> bool {
    let asked = set_form::set_form(&lent.file).expect("whole");
    let is_written = |output: &[u8]| output[..asked.len()] == asked[..];
    lent.output.fill(0);
    let rust = rust_form(lent) == Some(asked.len()) && is_written(&lent.output);
    lent.output.fill(0);
    let product = product_form(lent) == (WRITTEN, asked.len() as u64) && is_written(&lent.output);
    rust && product && product_check(lent) == PASSED
}

/// What was measured on some files.
#[derive(Default)]
struct Measured {
    /// The product's set form, and its check.
    over_check: Pairs,
    /// The product's set form, and Rust's.
    over_rust: Pairs,
    /// Files on which a side was wrong.
    failed: u64,
}

impl Measured {
    /// Measures a load at a size on files of a seed.
    fn load(load: &Load, states: usize, seed: u64, files: u64) -> Measured {
        let mut measured = Measured::default();
        for number in 0..files {
            let file = (load.draft)(&mut Random::of_file(seed, number), states).bytes();
            let output = vec![0; file.len()];
            let lent = &mut Lent { file, output };
            measured.failed += u64::from(!both_write(lent));
            measured.over_check.time(lent, product_form, product_check);
            measured.over_rust.time(lent, product_form, rust_form);
        }
        measured
    }

    /// Prints a line about a load.
    fn print(&self, name: &str, states: usize) {
        println!(
            "{states:>5}  {name:<23} {:>10.3} {:>10.3} {:>10.2} {:>10.2} {:>10.2}",
            median(&self.over_check.ratios),
            median(&self.over_rust.ratios),
            median(&self.over_rust.first) * 1e6,
            median(&self.over_check.second) * 1e6,
            median(&self.over_rust.second) * 1e6,
        );
    }
}

fn main() -> ExitCode {
    let (seed, files) = (argument(1, 1), argument(2, 5));
    let mut failed = 0;
    println!(
        "form/check, form/rust: the time of the product's set form over that of its check, and"
    );
    println!(
        "over Rust's set form, median; times in microseconds a call, median, {files} files a line"
    );
    println!(
        "{:>5}  {:<23} {:>10} {:>10} {:>10} {:>10} {:>10}",
        "size", "load", "form/check", "form/rust", "form", "check", "rust"
    );
    for load in &LOADS {
        for &states in load.sizes {
            let measured = Measured::load(load, states, seed, files);
            measured.print(load.name, states);
            failed += measured.failed;
        }
    }
    println!("{failed} files on which a side was wrong");
    if failed == 0 {
        ExitCode::SUCCESS
    } else {
        ExitCode::FAILURE
    }
}
