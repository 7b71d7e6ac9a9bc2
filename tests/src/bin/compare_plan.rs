//! Compares what the program `plan` writes with the lines of `listing.rs`, whole, on files given on
//! its standard input, in every total; and what it writes with `--finish`.
//!
//! `compare_plan [program] [seed] [files]`

use comparisons::damage::{damaged, one_wrong_each};
use comparisons::examples::{file_p, one_state, stick, with_total};
use comparisons::extremes::{
    deep_chain, deepest_held, endless, endless_fan, lengths_above, long_lines, of_length, sized,
};
use comparisons::finishing::{coarse, wavering, with_tolerance};
use comparisons::harness::{argument, close_all, Tally};
use comparisons::limits::*;
use comparisons::listing::{ends_within, plan_lines, planned_by, remainders_from, TOO_LONG};
use comparisons::made::made;
use comparisons::problem::FILE_QUESTIONS;
use comparisons::programs::{kind_words, run, Program};
use comparisons::random::Random;
use comparisons::solver::Kind;
use comparisons::totals::{Fourth, FOURTHS};
use std::process::{Command, ExitCode};

/// A made file whose run takes more rounds than this is left out.
const MOST_ROUNDS: u64 = 20_000;
/// A standard input longer than any problem file.
const VERY_LONG: usize = 200_000;
/// How often each of the questions 1 to 11 must be met, and 25.
const LEAST_MET: u64 = 5;
/// How many there must be of each answer, and of remainders above 0 in its state lines, in each total
/// its share. Only a spent run shows that they are taken under the final values: a solved run's last
/// round changes no value.
const LEAST: [(&str, u64); 5] = [
    ("solved", 240),
    ("spent", 10),
    ("refused", 120),
    ("remainders above 0, solved", 5_000),
    ("remainders above 0, spent", 50),
];
/// How many with `--finish`: of the solved, some must have other lines, behind the first, than the plain
/// run's, and the spent must be so in the second part.
const LEAST_FINISHING: [(&str, u64); 6] = [
    ("solved", 120),
    ("finished to other lines", 30),
    ("spent in the second part", 5),
    ("refused", 60),
    ("remainders above 0, solved", 5_000),
    ("remainders above 0, spent", 5),
];
/// How many remainders of four digits there must be: only 4,096 and 10,000 have any.
const LEAST_LONG: (&str, u64) = ("remainders of 1,000 and more", 2_000);
/// Files, in each total, whose pick finishing often changes.
const WAVERING: usize = 5;

/// The program, and the kind of run that it is asked for.
struct Plan<'a> {
    program: &'a Program,
    kind: Kind,
}

impl Plan<'_> {
    /// Whether the run is asked to finish.
    fn is_finishing(&self) -> bool {
        self.kind == Kind::Finishing
    }
}

/// The lines behind the first.
fn state_lines(lines: &str) -> &str {
    lines.split_once('\n').map_or("", |(_, states)| states)
}

/// Compares the program's lines on one input.
fn compare(tally: &mut Tally, plan: &Plan, case: &str, input: &[u8]) {
    tally.case = format!("{:?} run, {case}", plan.kind);
    let asked = planned_by(plan.kind, input).lines;
    let word = asked.split(' ').next().unwrap_or_default();
    let remainders = remainders_from(1, &asked);
    match word {
        "solved" => {
            tally.count_on(input, "solved");
            tally.count_all_on(input, "remainders above 0, solved", remainders);
            if plan.is_finishing() && state_lines(&asked) != state_lines(&plan_lines(input)) {
                tally.count_on(input, "finished to other lines");
            }
        }
        "spent" => {
            tally.count_on(input, "spent");
            tally.count_all_on(input, "remainders above 0, spent", remainders);
            if plan.is_finishing() && plan_lines(input).starts_with("solved ") {
                tally.count_on(input, "spent in the second part");
            }
        }
        _ => tally.meet(asked.split(' ').nth(1).and_then(|q| q.parse().ok()).unwrap_or(0), input),
    }
    tally.count_all_on(input, LEAST_LONG.0, remainders_from(1_000, &asked));
    let said = run(Command::new(plan.program.path()).args(kind_words(plan.kind)), input);
    tally.hold("the lines", &said.output, &asked);
    tally.hold("the messages", said.messages.as_str(), "");
}

/// The files that stand for themselves, in a total: the examples, and what is wrong with one for each
/// question; the longest lines, deep walks, and runs that are spent.
fn compare_set_files(tally: &mut Tally, plan: &Plan, random: &mut Random, fourth: Fourth) {
    let mut compare = |case: &str, input: &[u8]| {
        compare(tally, plan, &format!("{case}, fourth setting {fourth:?}"), input);
    };
    compare("P", &with_total(&file_p(), fourth).bytes());
    compare("the one-state file", &with_total(&one_state(), fourth).bytes());
    compare("the stick", &with_total(&stick(), fourth).bytes());
    compare("a coarse tolerance", &with_total(&coarse(), fourth).bytes());
    for number in 0..WAVERING {
        compare(&format!("wavering file {number}"), &wavering(random, fourth).bytes());
    }
    for (refusal, file) in one_wrong_each(&with_total(&stick(), fourth)) {
        compare(&format!("the stick, wrong for {refusal:?}"), &file);
    }
    compare("the longest lines", &long_lines(fourth).bytes());
    for with_goal in [false, true] {
        let chain = deep_chain(random, OLD.states, 8, with_goal, fourth);
        compare("a deep chain", &chain.bytes());
    }
    let dear = of_length(random, PLAN_HOLDS, true, MAX_PENALTY, fourth);
    compare("a file of 65,536 bytes, the highest penalty", &dear.bytes());
    if plan.is_finishing() {
        let coarse = with_tolerance(&endless(fourth).bytes(), MAX_TOLERANCE);
        compare("a run that is spent in the second part", &coarse);
        return;
    }
    compare("a run that is spent", &endless(fourth).bytes());
    let fan = endless_fan(random, fourth).bytes();
    compare("a spent run that walks to a dozen states", &fan);
}

/// Inputs empty, of about as many bytes as `plan` holds, in a total, and longer.
fn compare_lengths(tally: &mut Tally, plan: &Plan, random: &mut Random, fourth: Fourth) {
    let mut compare = |case: &str, input: &[u8]| {
        compare(tally, plan, &format!("{case}, fourth setting {fourth:?}"), input);
    };
    let lengthened = |file: &[u8], length: usize| {
        let mut long = file.to_vec();
        long.resize(length, 7);
        long
    };
    compare("an empty input", &[]);
    for file in [with_total(&file_p(), fourth), of_length(random, PLAN_HOLDS, true, 5_000, fourth)]
    {
        for length in [PLAN_HOLDS - 1, PLAN_HOLDS, PLAN_HOLDS + 1, VERY_LONG] {
            compare(&format!("a file with {length} bytes"), &lengthened(&file.bytes(), length));
        }
    }
    for length in [PLAN_HOLDS - 2].into_iter().chain(lengths_above(fourth)) {
        let file = of_length(random, length, true, 5_000, fourth).bytes();
        compare(&format!("a whole file of {length} bytes"), &file);
    }
    for length in [PLAN_HOLDS, PLAN_HOLDS + 1, VERY_LONG] {
        compare(&format!("{length} zeros"), &vec![0; length]);
    }
}

/// Files around the limits, those of before E9 and those in force, as far as `plan` holds them: those around
/// the latter are cut, and meet question 1 or 2, but for some that have as many states and are whole. Each total
/// has its turn. And the deepest walk that `plan` holds.
fn compare_limits(tally: &mut Tally, plan: &Plan, random: &mut Random) {
    let held = Counts::filling(PLAN_HOLDS - 100, MOST_SETTINGS);
    let near = |limits: Counts| [limits.states - 1, limits.states, limits.states + 1];
    let whole = [OLD, IN_FORCE].into_iter().flat_map(near).map(|states| Counts { states, ..held });
    let around = [OLD.around(), IN_FORCE.around()].concat().into_iter().chain(whole);
    for (counts, fourth) in around.zip(FOURTHS.into_iter().cycle()) {
        let mut file = sized(random, counts, true, 5_000, fourth).bytes();
        file.truncate(PLAN_HOLDS);
        compare(tally, plan, &format!("{counts:?}, fourth setting {fourth:?}"), &file);
    }
    compare(tally, plan, "the deepest walk", &deepest_held(Some(10_000)).bytes());
}

/// Compares all files of a seed, with a tally that asks for enough of what its kind of run meets.
fn compare_all(plan: &Plan, seed: u64, files: u64) -> Tally {
    let least = if plan.is_finishing() { &LEAST_FINISHING[..] } else { &LEAST };
    let tally = Tally::asking(&[LEAST_LONG]).in_each_total(least);
    let mut tally = tally.meeting(FILE_QUESTIONS.into_iter().chain([TOO_LONG]), LEAST_MET);
    for fourth in FOURTHS {
        compare_lengths(&mut tally, plan, &mut Random::new(0), fourth);
        compare_set_files(&mut tally, plan, &mut Random::new(0), fourth);
    }
    compare_limits(&mut tally, plan, &mut Random::new(0));
    for number in 0..files {
        let mut random = Random::of_file(seed, number);
        let draft = made(&mut random);
        let broken = random.once_in(4);
        let file = if broken { damaged(&mut random, &draft) } else { draft.bytes() };
        if ends_within(&file, MOST_ROUNDS) {
            compare(&mut tally, plan, &format!("seed {seed}, file {number}"), &file);
        }
    }
    tally
}

fn main() -> ExitCode {
    let program = &Program::named(1, "plan");
    let (seed, files) = (argument(2, 1), argument(3, 600));
    let plain = compare_all(&Plan { program, kind: Kind::Plain }, seed, files);
    let finishing = compare_all(&Plan { program, kind: Kind::Finishing }, seed, files / 2);
    close_all(&[("plan", &plain), ("plan --finish", &finishing)])
}
