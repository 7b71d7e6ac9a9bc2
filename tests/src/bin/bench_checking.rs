//! Times the product's `cuulipso_check` against `problem.rs`, on the same files in the same process,
//! the two by turns. Both put questions 1 to 11; the Rust reader keeps what it has read as well.
//!
//! The files are those of the first load, with all costs in seconds and with all of them by melt rate;
//! and at the largest size in the other weight totals.
//!
//! `bench_checking [seed] [files]`

use comparisons::harness::argument;
use comparisons::library::{check, ANSWER, PASSED};
use comparisons::limits::{KIND_RATE, MAX_RATE, MAX_STATES, MIN_RATE, OLD};
use comparisons::loads::LOADS;
use comparisons::problem::Problem;
use comparisons::random::Random;
use comparisons::timing::{median, Pairs};
use comparisons::totals::Fourth;
use std::process::ExitCode;

/// The sizes timed.
const SIZES: [usize; 6] = [2, 16, 64, 256, OLD.states, MAX_STATES];
/// How the files of every size are written: the name, whether by rate, and the fourth setting.
const KINDS: [(&str, bool, Fourth); 2] = [("seconds", false, None), ("rates", true, None)];
/// How those of the largest size are written too: in the other totals.
const TOTALS: [(&str, bool, Fourth); 3] =
    [("W 100", false, Some(100)), ("W 4096", false, Some(4_096)), ("W 10000", false, Some(10_000))];

/// A file of the first load, its costs by rate where that is asked for.
fn file(random: &mut Random, states: usize, by_rate: bool, fourth: Fourth) -> Vec<u8> {
    let mut draft = LOADS[0].draft(random, states, fourth);
    for row in draft.rows.iter_mut().filter(|_| by_rate) {
        row.kind = KIND_RATE;
        row.cost = random.between(u32::from(MIN_RATE), u32::from(MAX_RATE)) as u16;
    }
    draft.bytes()
}

fn main() -> ExitCode {
    let (seed, files) = (argument(1, 1), argument(2, 20));
    let mut differences = 0;
    println!("ratio: the product's time over Rust's, median; times in nanoseconds a check, median");
    println!("{:>5}  {:<10} {:>8} {:>10} {:>10}", "size", "costs", "ratio", "product", "rust");
    for states in SIZES {
        let others = TOTALS.into_iter().filter(|_| states == MAX_STATES);
        for (costs, by_rate, fourth) in KINDS.into_iter().chain(others) {
            let mut pairs = Pairs::default();
            for number in 0..files {
                let mut file = file(&mut Random::of_file(seed, number), states, by_rate, fourth);
                let passes = Problem::read(&file).is_ok();
                differences += u64::from((check(&file, &mut [0; ANSWER]) == PASSED) != passes);
                let product = |lent: &mut Vec<u8>| check(lent, &mut [0; ANSWER]);
                pairs.time(&mut file, product, |lent| Problem::read(lent).is_ok());
            }
            println!(
                "{states:>5}  {costs:<10} {:>8.3} {:>10.0} {:>10.0}",
                median(&pairs.ratios),
                median(&pairs.first) * 1e9,
                median(&pairs.second) * 1e9,
            );
        }
    }
    println!("{differences} differences");
    if differences == 0 {
        ExitCode::SUCCESS
    } else {
        ExitCode::FAILURE
    }
}
