//! Times the product's `cuulipso_solve` against the rounds in C of `c/rounds.c`, as gcc builds them with
//! -Os and with -O2: on the same files in the same process, the product and a build by turns. All read the
//! file from its bytes, put questions 1 to 13, and fill the same lent tables. In C every round walks and
//! every backup scans.
//!
//! Answers and tables of all three are compared with those of `solver.rs`: on the files that are timed, and
//! first on others, whole and damaged, at several budgets, with tables and answers of other lengths too.
//!
//! It is built without a gcc too, and then has nothing to time.
//!
//! `bench_c [seed] [files per load] [files compared first]`

use comparisons::damage::damaged;
use comparisons::harness::{answer_length, argument, lent_tables, noise};
use comparisons::library::{
    self, asked_of_lent, asked_of_run, run_by, RunFunction, ANSWER, TOO_SHORT,
};
use comparisons::limits::{MAX_BUDGET, MAX_STATES, OLD};
use comparisons::loads::{all_loads, files_by_rule, BY_RULE};
use comparisons::made::made;
use comparisons::random::Random;
use comparisons::solver::{solve_file, OwnedTables};
use comparisons::timing::{median, Pairs};
use std::process::ExitCode;

/// The sizes timed.
const SIZES: [usize; 5] = [16, 64, 256, OLD.states, MAX_STATES];
/// The rounds of a run that is timed.
const BUDGET: u64 = 10_000;
/// The budgets of runs that are compared first.
const BUDGETS: [u64; 8] = [0, 1, 2, 3, 7, 400, MAX_BUDGET + 1, u64::MAX];

#[cfg(c_rounds)]
comparisons::declare_runs!(rounds_solve_os, rounds_solve_o2);

/// The builds of the rounds in C, each with what gcc was told.
#[cfg(c_rounds)]
const BUILDS: &[(&str, RunFunction)] = &[("-Os", rounds_solve_os), ("-O2", rounds_solve_o2)];
/// None where there was no gcc.
#[cfg(not(c_rounds))]
const BUILDS: &[(&str, RunFunction)] = &[];

/// A run's code, its answer's entries and its tables.
type Left = (u8, Vec<u64>, OwnedTables);

/// What a run leaves of tables and an answer that are lent.
fn left(
    lent: &OwnedTables,
    answer: &[u64],
    run: impl Fn(&mut OwnedTables, &mut [u64]) -> u8,
) -> Left {
    let (mut tables, mut answer) = (lent.clone(), answer.to_vec());
    let code = run(&mut tables, &mut answer);
    (code, answer, tables)
}

/// What the paper asks a run to leave of them.
fn asked(file: &[u8], budget: u64, lent: &OwnedTables, answer: &[u64]) -> Left {
    let mut tables = lent.clone();
    let (code, entries) = match answer.len() >= ANSWER {
        true => asked_of_run(solve_file(file, budget, tables.lend()).answer),
        false => (TOO_SHORT, [0; ANSWER]),
    };
    let (code, answer) = asked_of_lent(code, entries, answer);
    (code, answer, tables)
}

/// The number of sides, the product and the builds in C, that leave anything else.
fn differences(file: &[u8], budget: u64, lent: &OwnedTables, answer: &[u64]) -> u64 {
    let asked = asked(file, budget, lent, answer);
    let by = |tables: &mut OwnedTables, answer: &mut [u64]| {
        library::solve(file, budget, tables.lend(), answer)
    };
    let product = left(lent, answer, by) != asked;
    let differs = |&&(_, build): &&(&str, RunFunction)| {
        let by = |tables: &mut OwnedTables, answer: &mut [u64]| {
            run_by(build, file, budget, tables.lend(), answer)
        };
        left(lent, answer, by) != asked
    };
    u64::from(product) + BUILDS.iter().filter(differs).count() as u64
}

/// Compares all sides on so many made files, each whole and damaged. Gives the number of differences.
fn compare_made(seed: u64, files: u64) -> u64 {
    let mut found = 0;
    for number in 0..files {
        let random = &mut Random::of_file(seed, number);
        let draft = made(random);
        for file in [draft.bytes(), damaged(random, &draft)] {
            let lent = lent_tables(random, draft.states.len(), draft.rows.len());
            let length = answer_length(random);
            let answer: Vec<u64> = noise(random, length);
            found += differences(&file, random.pick(&BUDGETS), &lent, &answer);
        }
    }
    found
}

/// What was measured on some files: the product against each build in C.
struct Measured {
    over: Vec<Pairs>,
    differences: u64,
}

impl Measured {
    /// Nothing yet.
    fn new() -> Measured {
        Measured { over: BUILDS.iter().map(|_| Pairs::default()).collect(), differences: 0 }
    }

    /// Compares and times all sides on some files, and prints a line about them.
    fn files(name: &str, states: usize, files: &[Vec<u8>]) -> Measured {
        let mut measured = Measured::new();
        for file in files {
            measured.differences +=
                differences(file, BUDGET, &OwnedTables::longest(), &[0; ANSWER]);
            measured.time(file);
        }
        measured.print(name, states);
        measured
    }

    /// Times the product and each build by turns.
    fn time(&mut self, file: &[u8]) {
        let lent = &mut OwnedTables::longest();
        for (pairs, &(_, build)) in self.over.iter_mut().zip(BUILDS) {
            pairs.time(
                lent,
                |lent| library::solve(file, BUDGET, lent.lend(), &mut [0; ANSWER]),
                |lent| run_by(build, file, BUDGET, lent.lend(), &mut [0; ANSWER]),
            );
        }
    }

    /// Adds what was measured on other files.
    fn extend(&mut self, other: Measured) {
        self.over.iter_mut().zip(other.over).for_each(|(pairs, others)| pairs.extend(others));
        self.differences += other.differences;
    }

    /// The product's time over that of each build, median.
    fn ratios(&self) -> Vec<f64> {
        self.over.iter().map(|pairs| median(&pairs.ratios)).collect()
    }

    /// Prints a line about a load.
    fn print(&self, name: &str, states: usize) {
        print!("{states:>5}  {name:<23}");
        self.ratios().iter().for_each(|ratio| print!(" {ratio:>8.3}"));
        print!(" {:>12.1}", median(&self.over[0].first) * 1e6);
        self.over.iter().for_each(|pairs| print!(" {:>12.1}", median(&pairs.second) * 1e6));
        println!();
    }

    /// The size's line: the ratio over each build, and over the faster of them, which is the highest.
    fn verdict(&self, name: &str, states: usize) -> String {
        let ratios = self.ratios();
        let over = |(&(told, _), ratio): (&(&str, RunFunction), &f64)| format!("{ratio:.3} {told}");
        let each: Vec<String> = BUILDS.iter().zip(&ratios).map(over).collect();
        let highest = ratios.into_iter().fold(0.0, f64::max);
        format!("{states:>5} states, {name}: {highest:.3} of the faster C ({})", each.join(", "))
    }
}

/// Prints the heads of the columns.
fn print_heads() {
    print!("{:>5}  {:<23}", "size", "load");
    BUILDS.iter().for_each(|(told, _)| print!(" {:>8}", format!("C {told}")));
    print!(" {:>12}", "product");
    BUILDS.iter().for_each(|(told, _)| print!(" {:>12}", format!("C {told}")));
    println!();
}

/// Times all loads, and prints how it came out. Gives the number of differences.
fn time_all(drawn: [u64; 2]) -> u64 {
    let (mut verdicts, mut found) = (Vec::new(), 0);
    println!("the product's time over that of C built with -Os and with -O2, median;");
    println!("then the times in microseconds a run, median; {} files a load", drawn[1]);
    print_heads();
    for states in SIZES {
        let mut all = Measured::new();
        for load in all_loads() {
            all.extend(Measured::files(load.name, states, &load.files(states, None, drawn)));
        }
        verdicts.push(all.verdict("all loads", states));
        found += all.differences;
    }
    for states in SIZES.into_iter().filter(|&states| states <= OLD.states) {
        let measured = Measured::files(BY_RULE, states, &files_by_rule(states, drawn));
        verdicts.push(measured.verdict(BY_RULE, states));
        found += measured.differences;
    }
    println!("{}", verdicts.join("\n"));
    found
}

fn main() -> ExitCode {
    if BUILDS.is_empty() {
        println!("bench_c was built without a gcc: there are no rounds in C to time");
        return ExitCode::FAILURE;
    }
    let (seed, files, compared) = (argument(1, 1), argument(2, 5), argument(3, 2_000));
    let found = compare_made(seed, compared);
    println!("{compared} made files, each whole and damaged: {found} differences");
    let found = found + time_all([seed, files]);
    println!("{found} differences");
    if found == 0 {
        ExitCode::SUCCESS
    } else {
        ExitCode::FAILURE
    }
}
