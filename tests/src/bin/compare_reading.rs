//! Compares the product's reading of problem files with `problem.rs`: the answer to questions 1 to
//! 11, 24 among them, and the stretch of a state's rows, on files whole and damaged, in every total.
//!
//! `compare_reading [seed] [files]`

use comparisons::damage::{damaged, one_wrong_each, NO_TOTALS};
use comparisons::encode::Draft;
use comparisons::examples::{file_p, one_state, stick, with_total};
use comparisons::extremes::{at_limits, deep_chain, lengths_above, of_length, sized};
use comparisons::harness::{argument, noise, Tally};
use comparisons::library::{asked_of_check, asked_of_lent, check, rows, ANSWER, PASSED};
use comparisons::limits::{IN_FORCE, MAX_PENALTY, MAX_STATES, OLD, ROW_BYTES};
use comparisons::made::made;
use comparisons::problem::{lookup, Problem, FILE_QUESTIONS};
use comparisons::random::Random;
use comparisons::totals::{Fourth, FOURTHS};
use std::process::ExitCode;

/// How often each of the questions 1 to 11 must be met.
const LEAST_MET: u64 = 300;
/// How many there must be of other things, in each total its share.
const LEAST: [(&str, u64); 3] =
    [("passed", 4_000), ("refused", 10_000), ("stretches, with rows", 6_000)];

/// Compares the check of a file, with answers lent at every length from 0 to 5.
fn compare_check(random: &mut Random, tally: &mut Tally, file: &[u8]) {
    let (code, answer) = asked_of_check(file);
    match code {
        PASSED => tally.count_on(file, "passed"),
        _ => tally.meet(answer[0], file),
    }
    for length in [random.below(ANSWER), ANSWER, ANSWER + 1 + random.below(2)] {
        let mut given: Vec<u64> = noise(random, length);
        let (asked_code, asked) = asked_of_lent(code, answer, &given);
        let given_code = check(file, &mut given);
        tally.hold("check's code", &given_code, &asked_code);
        tally.hold("check's answer", &given, &asked);
    }
}

/// Compares the lookup of a few numbers, states and others, with outputs of several lengths.
fn compare_rows(random: &mut Random, tally: &mut Tally, file: &[u8]) {
    let states = Problem::read(file).map_or(3, |problem| problem.states.len()) as u64;
    let within = random.below(states as usize) as u64;
    let limits = [OLD.states, MAX_STATES].map(|limit| limit as u64);
    let far =
        [states, within + 65_536, within + (1 << 32), limits[0], limits[1], 1 << 63, u64::MAX];
    for state in [0, within, states - 1, random.pick(&far)] {
        let stretch = lookup(file, state);
        let lengths = [0, stretch.len(), stretch.len().saturating_sub(1 + random.below(ROW_BYTES))];
        let longer = stretch.len() + 1 + random.below(9);
        let length = random.pick(&[lengths[0], lengths[1], lengths[2], longer]);
        let mut given: Vec<u8> = noise(random, length);
        let mut asked = given.clone();
        let fitting = length.min(stretch.len());
        asked[..fitting].copy_from_slice(&stretch[..fitting]);
        let given_length = rows(file, state, &mut given);
        tally.hold("the stretch's length", &given_length, &(stretch.len() as u64));
        tally.hold("the stretch", &given, &asked);
        let empty = stretch.is_empty();
        tally.count_on(file, if empty { "stretches, empty" } else { "stretches, with rows" });
    }
}

/// Compares all that is called on a file.
fn compare(random: &mut Random, tally: &mut Tally, file: &[u8]) {
    compare_check(random, tally, file);
    compare_rows(random, tally, file);
}

/// The draft behind the file of a number: the paper's, those at the limits, and made ones.
fn draft_of(random: &mut Random, number: u64) -> Draft {
    let fourth = FOURTHS[number as usize / 600 % FOURTHS.len()];
    match number % 600 {
        0 => with_total(&file_p(), fourth),
        1 => one_state().with_fourth(fourth),
        2 => {
            let with_goal = random.once_in(2);
            at_limits(random, with_goal, MAX_PENALTY, fourth)
        }
        3 => deep_chain(random, MAX_STATES, 8, true, fourth),
        _ => made(random),
    }
}

/// Every cut of a file, and the file lengthened: any slice length from 0 bytes.
fn compare_cuts(random: &mut Random, tally: &mut Tally, name: &str, whole: Vec<u8>) {
    for length in 0..=whole.len() {
        tally.case = format!("{name} cut to {length} bytes");
        compare(random, tally, &whole[..length]);
    }
    let mut long = whole;
    long.resize(200_000, 0);
    tally.case = format!("{name} lengthened to 200,000 bytes");
    compare(random, tally, &long);
}

/// Files around the limits, those of before E9 and those in force, and files of lengths above what `plan`
/// holds; and the longest with a byte more and a byte less.
fn compare_limits(random: &mut Random, tally: &mut Tally, fourth: Fourth) {
    for counts in [OLD.around(), IN_FORCE.around()].concat() {
        tally.case = format!("{counts:?}, fourth setting {fourth:?}");
        let with_goal = random.once_in(2);
        let file = sized(random, counts, with_goal, 5_000, fourth).bytes();
        compare(random, tally, &file);
    }
    for length in lengths_above(fourth) {
        tally.case = format!("a file of {length} bytes, fourth setting {fourth:?}");
        let file = of_length(random, length, true, 5_000, fourth).bytes();
        compare(random, tally, &file);
        compare(random, tally, &file[..length - 1]);
        compare(random, tally, &[&file[..], &[0]].concat());
    }
}

/// P in each total: cut everywhere, also inside the fourth setting; and P and the stick with one thing
/// wrong for each question.
fn compare_totals(random: &mut Random, tally: &mut Tally) {
    for fourth in FOURTHS {
        let [p, stick] = [file_p(), stick()].map(|draft| with_total(&draft, fourth));
        compare_cuts(random, tally, &format!("P with fourth setting {fourth:?}"), p.bytes());
        for (refusal, file) in [&p, &stick].into_iter().flat_map(one_wrong_each) {
            tally.case = format!("fourth setting {fourth:?}, wrong for {refusal:?}");
            compare(random, tally, &file);
        }
        for no_total in NO_TOTALS {
            tally.case = format!("P's rows with fourth setting {fourth:?}, the fourth {no_total}");
            compare(random, tally, &p.clone().with_fourth(Some(no_total)).bytes());
        }
    }
}

fn main() -> ExitCode {
    let (seed, files) = (argument(1, 1), argument(2, 30_000));
    let mut tally = Tally::default().in_each_total(&LEAST).meeting(FILE_QUESTIONS, LEAST_MET);
    compare_totals(&mut Random::new(seed), &mut tally);
    for fourth in FOURTHS {
        compare_limits(&mut Random::new(seed), &mut tally, fourth);
    }
    for number in 0..files {
        let mut random = Random::of_file(seed, number);
        let draft = draft_of(&mut random, number);
        let whole = random.once_in(5);
        let file = if whole { draft.bytes() } else { damaged(&mut random, &draft) };
        tally.case = format!("seed {seed}, file {number}, {} bytes", file.len());
        tally.count("files");
        compare(&mut random, &mut tally, &file);
    }
    tally.close()
}
