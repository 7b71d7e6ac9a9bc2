//! Compares the cost of every melt rate, E4's sheet, with the rule for kind 1: through `cuulipso_check`,
//! where an estimate of 1000 × c passes and one tick more does not; through what a run remembers of the
//! rows of one file with all rates; and through the lines of `plan`. Cost numbers that are no rate too.
//! What a rate costs does not hang on the weight total, so all of it is tried in every total.
//!
//! `compare_rates [plan]`

use comparisons::encode::Draft;
use comparisons::harness::Tally;
use comparisons::library::{self, asked_of_check, check, ANSWER, PASSED, SPENT};
use comparisons::limits::*;
use comparisons::listing::plan_lines;
use comparisons::problem::{seconds_of, Problem};
use comparisons::programs::{run, Program};
use comparisons::solver::OwnedTables;
use comparisons::totals::{total_of, Fourth, FOURTHS};
use std::process::{Command, ExitCode};

/// "A sheet of 991 seconds, for rates 10 to 1,000."
const RATES: u64 = 991;
/// The ways to tell a total.
const WAYS: u64 = FOURTHS.len() as u64;
/// How many there must be of each answer: in each total a rate passes with an estimate of 0 and of its
/// cost, and is refused one tick above; any other cost number is refused; `plan` solves each rate.
const LEAST: [(&str, u64); 4] = [
    ("passed", 2 * WAYS * RATES),
    ("refused", 65_536 - RATES + WAYS * RATES),
    ("rows in one file", WAYS * RATES),
    ("plans solved", RATES),
];

/// The only outcome of a row.
fn surely(successor: u16, fourth: Fourth) -> [(u16, u16); 1] {
    [(successor, total_of(fourth) as u16)]
}

/// The way to tell a total that a cost number has where it is tried in one alone.
fn fourth_of(number: u16) -> Fourth {
    FOURTHS[usize::from(number) % FOURTHS.len()]
}

/// One row, with a cost number of kind 1, from the start with an estimate to the goal.
fn one_row(number: u16, estimate: u32, fourth: Fourth) -> Draft {
    let mut draft = Draft::new(0, 1, MAX_PENALTY).with_fourth(fourth);
    draft.add_state();
    draft.add_row(KIND_RATE, number, &surely(1, fourth));
    draft.add_goal();
    draft.states[0].estimate = estimate;
    draft
}

/// Compares the check of one row with an estimate.
fn compare_check(tally: &mut Tally, number: u16, estimate: u32, fourth: Fourth) {
    tally.case = format!("cost number {number}, estimate {estimate}, fourth setting {fourth:?}");
    let file = one_row(number, estimate, fourth).bytes();
    let asked = asked_of_check(&file);
    match asked.0 {
        PASSED => tally.count_on(&file, "passed"),
        _ => tally.meet(asked.1[0], &file),
    }
    let mut answer = [u64::MAX; ANSWER];
    let code = check(&file, &mut answer);
    tally.hold("the check", &(code, answer), &asked);
}

/// Compares the checks of a cost number: with no estimate, and for a rate at its cost and a tick above,
/// in each total.
fn compare_checks(tally: &mut Tally, number: u16) {
    let Some(seconds) = seconds_of(KIND_RATE, number) else {
        return compare_check(tally, number, 0, fourth_of(number));
    };
    for fourth in FOURTHS {
        for estimate in [0, TICKS * seconds, TICKS * seconds + 1] {
            compare_check(tally, number, estimate, fourth);
        }
    }
}

/// Compares what a run of no rounds remembers of each row of a file that has all rates, falling.
fn compare_all_rates(tally: &mut Tally, fourth: Fourth) {
    tally.case = format!("all rates in one file, fourth setting {fourth:?}");
    let rates: Vec<u16> = (MIN_RATE..=MAX_RATE).rev().collect();
    let mut draft = Draft::new(0, 1, MAX_PENALTY).with_fourth(fourth);
    for of_state in rates.chunks(MAX_IN_BYTE) {
        draft.add_state();
        of_state.iter().for_each(|&rate| draft.add_row(KIND_RATE, rate, &surely(0, fourth)));
    }
    let file = draft.bytes();
    let mut tables = OwnedTables::new(&Problem::read(&file).expect("whole"));
    let code = library::solve(&file, 0, tables.lend(), &mut [0; ANSWER]);
    tally.hold("the run's code", &code, &SPENT);
    for (&rate, remembered) in rates.iter().zip(&tables.remembered) {
        tally.case = format!("rate {rate} in one file with all, fourth setting {fourth:?}");
        let asked = seconds_of(KIND_RATE, rate).map(|seconds| TICKS * seconds);
        tally.hold("the row's value", &Some(*remembered), &asked);
        tally.count_on(&file, "rows in one file");
    }
}

/// Compares the lines of `plan` on the file of a cost number.
fn compare_plan(tally: &mut Tally, program: &Program, number: u16) {
    tally.case = format!("the plan of cost number {number}");
    let file = one_row(number, 0, fourth_of(number)).bytes();
    let asked = plan_lines(&file);
    if asked.starts_with("solved ") {
        tally.count_on(&file, "plans solved");
    }
    let said = run(&mut Command::new(program.path()), &file);
    tally.hold("the lines", &said.output, &asked);
    tally.hold("the messages", said.messages.as_str(), "");
}

fn main() -> ExitCode {
    let program = Program::named(1, "plan");
    let mut tally = Tally::default().in_each_total(&LEAST).meeting([11], WAYS * RATES);
    (0..=u16::MAX).for_each(|number| compare_checks(&mut tally, number));
    FOURTHS.into_iter().for_each(|fourth| compare_all_rates(&mut tally, fourth));
    let around = [0, MIN_RATE - 1, MAX_RATE + 1, u16::MAX];
    for number in (MIN_RATE..=MAX_RATE).chain(around) {
        compare_plan(&mut tally, &program, number);
    }
    tally.close()
}
