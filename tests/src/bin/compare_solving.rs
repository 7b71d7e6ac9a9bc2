//! Compares the product's runs of both kinds with `solver.rs`: the answer and every entry of the four
//! lent tables, at budgets from 0 to the largest number, on files whole and damaged, in every total. Where
//! a run is solved the product's audit of the tables as they were left must accept them, with the run's C;
//! a finishing run's also under tolerance 1, and its values must be exact and its rounds within the bound.
//! All of it runs on a thread with a stack of 512 KiB.
//!
//! `compare_solving [seed] [files]`

use comparisons::audit::{audit_file, Verdict};
use comparisons::damage::{damaged, one_wrong_each};
use comparisons::encode::Draft;
use comparisons::examples::{file_p, one_state, stick, with_total};
use comparisons::extremes::{at_limits, dearest_row, deep_chain, deepest, sized};
use comparisons::finishing::{
    coarse, giving_up, inexact_states, most_rounds, settling_chain, wavering, with_tolerance,
};
use comparisons::harness::{answer_length, argument, close_all, lent_tables, noise, Tally};
use comparisons::library::{
    self, asked_of_audit, asked_of_lent, asked_of_run, ACCEPTED, ANSWER, REFUSED, SOLVED, SPENT,
    TOO_SHORT,
};
use comparisons::limits::*;
use comparisons::made::{any_tolerance, made};
use comparisons::plain::{told_run, Ties};
use comparisons::problem::{Problem, FILE_QUESTIONS};
use comparisons::random::Random;
use comparisons::solver::{run, run_file, Answer, Kind, OwnedTables, KINDS};
use comparisons::totals::FOURTHS;
use std::cmp::Ordering;
use std::process::ExitCode;

/// The stack that the runs must do with.
const STACK: usize = 512 * 1_024;
/// A file whose plain run takes more rounds than this is run no further.
const MOST_ROUNDS: u64 = 20_000;
/// A file whose finishing run takes more rounds than this is run no further.
const MOST_FINISHING: u64 = 2_000;
/// Rounds from which a solved run is counted apart.
const MANY_ROUNDS: u64 = 100;
/// A budget that is large and yet below the highest.
const LARGE: u64 = 1_000_000;
/// The ends: no round, one, and budgets that question 13 refuses.
const ENDS: [u64; 4] = [0, 1, MAX_BUDGET + 1, u64::MAX];
/// Other budgets that are small.
const SMALL: [u64; 3] = [2, 3, 7];
/// How often questions 12 and 13 must be met by runs of a kind.
const LEAST_MET: u64 = 1_000;
/// How often each of the questions 1 to 11 must be met by plain runs.
const LEAST_OF_FILES: u64 = 50;
/// How often by finishing runs, of which there are fewer.
const LEAST_OF_FINISHING: u64 = 25;
/// How many there must be of other things, in each total its share.
const LEAST: [(&str, u64); 4] = [
    ("solved", 19_000),
    ("solved after 100 rounds or more", 1_000),
    ("spent", 13_000),
    ("refused", 23_000),
];
/// How many there must be with finishing runs, in each total its share.
const LEAST_FINISHING: [(&str, u64); 18] = [
    ("files that pass", 5_000),
    ("files with e 1", 800),
    ("files with e 2 to 998", 2_400),
    ("files with e 999", 250),
    ("solved", 4_500),
    ("solved after 100 rounds or more", 250),
    ("spent in the first part", 6_000),
    ("spent at the first quiet round", 2_300),
    ("spent in the second part", 800),
    ("refused", 12_000),
    ("second parts of one round", 2_700),
    ("second parts that raise values", 600),
    ("second parts that change picks", 200),
    ("second parts that walk another way", 200),
    ("second parts that raise a state that gives up", 25),
    ("plain answers that are refused under 1", 600),
    ("bounds of at most 20,000 rounds", 300),
    ("runs that take all rounds of the bound", 100),
];
/// How many answers must be lent to finishing runs with so few entries, 0, 1 and 2.
const LEAST_SHORT: [(&str, u64); ANSWER] = [
    ("answers lent with no entry", 500),
    ("answers lent with one entry", 500),
    ("answers lent with two entries", 500),
];
/// The number of the first made file.
const FIRST_MADE: u64 = 35;
/// The lengths of the chains whose finishing runs take all the rounds that they may.
const CHAINS: [u16; 12] = [1, 2, 3, 4, 5, 6, 7, 8, 15, 30, 60, 120];
/// The number of files, in each total, whose pick the second part often changes.
const WAVERING: usize = 100;
/// Of so many files one is spared finishing runs, which take more time.
const SPARED: u64 = 3;
/// Ties are counted on files of at most so many states.
const TIE_STATES: usize = 10;
/// The kinds of ties, and how many comparisons must meet each.
const TIES: [(&str, u64, fn(&Ties) -> u64); 7] = [
    ("compared with a tie at 1000 x D", 2_000, |ties| ties.met),
    ("compared with a tie at first", 1_000, |ties| ties.at_first),
    ("compared with a tie after values rose", 1_000, |ties| ties.risen),
    ("compared with a tie at the row picked before", 1_000, |ties| ties.at_pick),
    ("compared with a tie at another row", 1_000, |ties| ties.at_others),
    ("compared with a tie of several rows of a state", 1_000, |ties| ties.of_several),
    ("compared with a pick kept at a tie with an earlier row", 1_000, |ties| ties.kept),
];

/// A run that ends soon: its rounds and its tables.
struct Ended {
    rounds: u64,
    tables: OwnedTables,
}

impl Ended {
    /// The run of a kind on a problem, where it is solved within so many rounds.
    fn within(rounds: u64, kind: Kind, problem: &Problem) -> Option<Ended> {
        let mut tables = OwnedTables::new(problem);
        match run(kind, problem, rounds, tables.lend()).answer {
            Answer::Solved { rounds, .. } => Some(Ended { rounds, tables }),
            _ => None,
        }
    }
}

/// The comparison of the runs of a kind.
struct Comparison {
    kind: Kind,
    /// The name of the file in hand.
    case: String,
    tally: Tally,
}

impl Comparison {
    /// The comparison of a kind, whose tally also asks for the questions of the file so often, and for 12
    /// and 13.
    fn new(kind: Kind, tally: Tally, least_of_files: u64) -> Comparison {
        let tally = tally.meeting(FILE_QUESTIONS, least_of_files).meeting(12..=13, LEAST_MET);
        Comparison { kind, case: String::new(), tally }
    }

    /// Compares the runs on a file at all its budgets.
    fn compare_file(&mut self, random: &mut Random, case: String, file: &[u8]) {
        self.case = case;
        self.tally.count("files");
        match (Problem::read(file), self.kind) {
            (Ok(problem), Kind::Plain) => self.compare_plain(random, file, &problem),
            (Ok(problem), Kind::Finishing) => self.compare_finishing(random, file, &problem),
            (Err(_), _) => {
                let sizes = [random.below(20), random.below(20)];
                for budget in [&ENDS[..], &SMALL, &[LARGE, MAX_BUDGET]].concat() {
                    self.compare_run(random, file, budget, sizes);
                }
            }
        }
    }

    /// Compares one run on tables of noise, the answer lent at any length from 0 to 5. Gives the code, and
    /// the tables as the product left them.
    fn compare_run(
        &mut self,
        random: &mut Random,
        file: &[u8],
        budget: u64,
        sizes: [usize; 2],
    ) -> (u8, OwnedTables) {
        let tally = &mut self.tally;
        tally.case = format!("{}, budget {budget}", self.case);
        let mut given = lent_tables(random, sizes[0], sizes[1]);
        let mut asked = given.clone();
        let length = answer_length(random);
        let mut given_answer: Vec<u64> = noise(random, length);
        let (code, answer) = match length >= ANSWER {
            true => asked_of_run(run_file(self.kind, file, budget, asked.lend()).answer),
            false => (TOO_SHORT, [0; ANSWER]),
        };
        let (asked_code, asked_answer) = asked_of_lent(code, answer, &given_answer);
        match asked_code {
            REFUSED => tally.meet(asked_answer[0], file),
            SOLVED => tally.count_on(file, "solved"),
            SPENT => tally.count_on(file, "spent"),
            _ => tally.count(LEAST_SHORT[length].0),
        }
        let given_code = library::run(self.kind, file, budget, given.lend(), &mut given_answer);
        tally.hold("the code", &given_code, &asked_code);
        tally.hold("the answer", &given_answer, &asked_answer);
        tally.hold("the values", &given.values, &asked.values);
        tally.hold("the picks", &given.picks, &asked.picks);
        tally.hold("the remembered values", &given.remembered, &asked.remembered);
        tally.hold("the walk list", &given.walk, &asked.walk);
        if asked_code == SOLVED {
            if asked_answer[0] >= MANY_ROUNDS {
                tally.count_on(file, "solved after 100 rounds or more");
            }
            self.compare_own_audit(file, &mut given, given_answer[2]);
        }
        (asked_code, given)
    }

    /// "Whenever a run of these rounds ends solved, the audit accepts that file with the values and
    /// picks the run left, and gives the run's C": the product's own run and audit, one after the other.
    /// E8: "The audit accepts the answer under the file's own e and under 1."
    fn compare_own_audit(&mut self, file: &[u8], tables: &mut OwnedTables, least_cost: u64) {
        let left = tables.clone();
        let asked = (ACCEPTED, [least_cost as i64, 0, 0]);
        self.tally.hold("the audit", &audited(file, tables), &asked);
        if self.kind == Kind::Finishing {
            let under_1 = with_tolerance(file, FINISHING_TOLERANCE);
            self.tally.hold("the audit under 1", &audited(&under_1, tables), &asked);
        }
        self.tally.hold("the tables after the audit", tables, &left);
    }

    /// Compares the plain runs on a file that passes.
    fn compare_plain(&mut self, random: &mut Random, file: &[u8], problem: &Problem) {
        let sizes = sizes(problem);
        for budget in self.plain_budgets(problem) {
            let (code, _) = self.compare_run(random, file, budget, sizes);
            if matches!(code, SOLVED | SPENT) && sizes[0] <= TIE_STATES {
                self.count_ties(file, problem, budget);
            }
        }
    }

    /// The budgets of plain runs: the paper's ends, small ones, and those about the run's own end.
    /// A file whose run does not end soon gets no budget between `MOST_ROUNDS` and the refused ones.
    fn plain_budgets(&mut self, problem: &Problem) -> Vec<u64> {
        let mut budgets = [&ENDS[..], &SMALL].concat();
        match Ended::within(MOST_ROUNDS, Kind::Plain, problem) {
            Some(Ended { rounds, .. }) => {
                self.tally.count("files that end");
                budgets.extend([rounds - 1, rounds, rounds + 1, LARGE, MAX_BUDGET]);
            }
            None => {
                self.tally.count("files that go on past 20,000 rounds");
                budgets.push(MOST_ROUNDS);
            }
        }
        budgets
    }

    /// Counts the kinds of ties that the plain run of a file's problem at a budget meets.
    fn count_ties(&mut self, file: &[u8], problem: &Problem, budget: u64) {
        let mut ties = Ties::default();
        told_run(Kind::Plain, problem, budget, &mut OwnedTables::new(problem), &mut ties);
        for (name, ..) in TIES.iter().filter(|(_, _, count)| count(&ties) > 0) {
            self.tally.count_on(file, name);
        }
    }

    /// Compares the finishing runs on a file that passes: "the value at every walked state is exactly the
    /// pick's row value, or 1000 × D" where one is solved.
    fn compare_finishing(&mut self, random: &mut Random, file: &[u8], problem: &Problem) {
        let [first, whole] = KINDS.map(|kind| Ended::within(MOST_FINISHING, kind, problem));
        self.count_tolerance(file, problem);
        if let (Some(first), Some(whole)) = (&first, &whole) {
            self.count_second_part(file, problem, first, whole);
        }
        if let Some(first) = &first {
            self.compare_audit_under_1(file, &first.tables);
        }
        let (first, whole) = (first.map(|end| end.rounds), whole.map(|end| end.rounds));
        let most = self.compare_bound(file, problem, whole);
        for budget in finishing_budgets(random, first, whole, most) {
            let (code, left) = self.compare_run(random, file, budget, sizes(problem));
            match code {
                SPENT => self.tally.count_on(file, spent_in(budget, first)),
                SOLVED => {
                    let inexact = inexact_states(problem, &left);
                    self.tally.hold("the states whose value is not exact", &inexact, &vec![]);
                }
                _ => {}
            }
        }
    }

    /// Counts a file by its tolerance.
    fn count_tolerance(&mut self, file: &[u8], problem: &Problem) {
        let name = match problem.tolerance {
            1 => "files with e 1",
            MAX_TOLERANCE => "files with e 999",
            _ => "files with e 2 to 998",
        };
        self.tally.count_on(file, "files that pass");
        self.tally.count_on(file, name);
    }

    /// Counts what the second part of a run brings over the first.
    fn count_second_part(&mut self, file: &[u8], problem: &Problem, first: &Ended, whole: &Ended) {
        let (before, after) = (&first.tables, &whole.tables);
        let is_raised = |&state: &usize| {
            after.picks[state] == GIVE_UP && before.values[state] < after.values[state]
        };
        for (is_so, name) in [
            (whole.rounds == first.rounds + 1, "second parts of one round"),
            (after.values != before.values, "second parts that raise values"),
            (after.picks != before.picks, "second parts that change picks"),
            (after.walk != before.walk, "second parts that walk another way"),
            (
                giving_up(problem, before).iter().any(is_raised),
                "second parts that raise a state that gives up",
            ),
        ] {
            if is_so {
                self.tally.count_on(file, name);
            }
        }
    }

    /// The audit of a plain run's tables under 1, which it often refuses.
    fn compare_audit_under_1(&mut self, file: &[u8], tables: &OwnedTables) {
        self.tally.case = format!("{}, the plain run under 1", self.case);
        let file = with_tolerance(file, FINISHING_TOLERANCE);
        let verdict = audit_file(&file, &tables.values, &tables.picks);
        if matches!(verdict, Verdict::Refused { .. }) {
            self.tally.count_on(&file, "plain answers that are refused under 1");
        }
        let given = audited(&file, &mut tables.clone());
        self.tally.hold("the audit", &given, &asked_of_audit(verdict));
    }

    /// Holds that the rounds of a run that ends soon, or those that it takes at least, are within the
    /// bound, and gives the bound.
    fn compare_bound(&mut self, file: &[u8], problem: &Problem, rounds: Option<u64>) -> u64 {
        let most = most_rounds(problem);
        let is_within = rounds.unwrap_or(MOST_FINISHING + 1) <= most;
        self.tally.case = format!("{}, within {most} rounds", self.case);
        self.tally.hold("whether it is solved", &is_within, &true);
        if rounds == Some(most) {
            self.tally.count_on(file, "runs that take all rounds of the bound");
        }
        if most <= MOST_ROUNDS {
            self.tally.count_on(file, "bounds of at most 20,000 rounds");
        }
        most
    }
}

/// The numbers of a problem's states and rows.
fn sizes(problem: &Problem) -> [usize; 2] {
    [problem.states.len(), problem.rows.len()]
}

/// The code and the answer of the product's audit of tables.
fn audited(file: &[u8], tables: &mut OwnedTables) -> (u8, [i64; ANSWER]) {
    let mut answer = [-1; ANSWER];
    (library::audit(file, &mut tables.values, &mut tables.picks, &mut answer), answer)
}

/// The budgets of finishing runs: the ends, those about the end of either part, as far as these come soon,
/// and one that is enough for every run: just the rounds of the bound, or the highest.
fn finishing_budgets(
    random: &mut Random,
    first: Option<u64>,
    whole: Option<u64>,
    most: u64,
) -> Vec<u64> {
    let mut budgets = ENDS.to_vec();
    budgets.extend(first.into_iter().flat_map(|rounds| [rounds - 1, rounds, rounds + 1]));
    match whole {
        Some(rounds) if most <= MOST_ROUNDS => budgets.extend([rounds - 1, rounds, most]),
        Some(rounds) => budgets.extend([rounds - 1, rounds, random.pick(&[most, MAX_BUDGET])]),
        None => budgets.push(MOST_FINISHING),
    }
    budgets.sort_unstable();
    budgets.dedup();
    budgets
}

/// Where a finishing run is spent, whose first part ends after so many rounds, or not soon.
fn spent_in(budget: u64, first: Option<u64>) -> &'static str {
    match first.map(|rounds| budget.cmp(&rounds)) {
        None | Some(Ordering::Less) => "spent in the first part",
        Some(Ordering::Equal) => "spent at the first quiet round",
        Some(Ordering::Greater) => "spent in the second part",
    }
}

/// Compares the runs on the stick with one thing wrong for each question, in each total.
fn compare_refused(random: &mut Random, comparison: &mut Comparison) {
    for fourth in FOURTHS {
        for (refusal, file) in one_wrong_each(&with_total(&stick(), fourth)) {
            let case = format!("the stick, fourth setting {fourth:?}, wrong for {refusal:?}");
            comparison.compare_file(random, case, &file);
        }
    }
}

/// Compares the runs on files around the limits, those of before E9 and those in force. Each total has its
/// turn.
fn compare_limits(random: &mut Random, comparison: &mut Comparison) {
    for (number, counts) in [OLD.around(), IN_FORCE.around()].concat().into_iter().enumerate() {
        let fourth = FOURTHS[number % FOURTHS.len()];
        let file = sized(random, counts, true, 5_000, fourth).bytes();
        comparison.compare_file(random, format!("{counts:?}, fourth setting {fourth:?}"), &file);
    }
}

/// Compares finishing runs, in each total, on a file whose tolerance is coarse, on chains that take all the
/// rounds they may, and on picks that the second part changes.
fn compare_finished(random: &mut Random, comparison: &mut Comparison) {
    for fourth in FOURTHS {
        let coarse = with_total(&coarse(), fourth).bytes();
        comparison.compare_file(random, format!("coarse, fourth setting {fourth:?}"), &coarse);
        for states in CHAINS {
            let tolerance = any_tolerance(random);
            let chain = settling_chain(tolerance, states, fourth).bytes();
            let case = format!("a chain of {states}, fourth setting {fourth:?}, e {tolerance}");
            comparison.compare_file(random, case, &chain);
        }
        for number in 0..WAVERING {
            let case = format!("wavering file {number}, fourth setting {fourth:?}");
            let file = wavering(random, fourth).bytes();
            comparison.compare_file(random, case, &file);
        }
    }
}

/// The draft behind the file of a number: the paper's, those at the limits, chains, the dearest row, and made ones.
fn draft_of(random: &mut Random, number: u64) -> Draft {
    let with_goal = random.once_in(2);
    let fourth = FOURTHS[number as usize % FOURTHS.len()];
    // A walk twice as deep takes four times as long, so most chains are as long as before E9.
    let deep = if number.is_multiple_of(4) { MAX_STATES } else { OLD.states };
    match number {
        0..=4 => with_total(&file_p(), fourth),
        5..=9 => one_state().with_fourth(fourth),
        10..=19 => {
            let penalty = random.pick(&[1, 900, 5_000, MAX_PENALTY]);
            at_limits(random, with_goal, penalty, fourth)
        }
        20..=24 => deep_chain(random, deep, 8, with_goal, fourth),
        28 => deepest(fourth),
        25..=29 => deep_chain(random, deep, 1, with_goal, fourth),
        30..=34 => deep_chain(random, 32, MAX_IN_BYTE, with_goal, fourth),
        35..=39 => dearest_row(fourth),
        _ => made(random),
    }
}

/// A file as it is, or, every other time where it passes, with any other tolerance.
fn with_any_tolerance(random: &mut Random, file: Vec<u8>) -> Vec<u8> {
    match Problem::read(&file).is_ok() && random.once_in(2) {
        true => with_tolerance(&file, random.between(1, MAX_TOLERANCE)),
        false => file,
    }
}

/// Compares the files of a seed.
fn compare(seed: u64, files: u64) -> ExitCode {
    let ties = TIES.iter().map(|&(name, least, _)| (name, least));
    let least: Vec<_> = LEAST.into_iter().chain(ties).collect();
    let tally = Tally::default().in_each_total(&least);
    let mut plain = Comparison::new(Kind::Plain, tally, LEAST_OF_FILES);
    let tally = Tally::asking(&LEAST_SHORT).in_each_total(&LEAST_FINISHING);
    let mut finishing = Comparison::new(Kind::Finishing, tally, LEAST_OF_FINISHING);
    compare_refused(&mut Random::new(seed), &mut plain);
    compare_refused(&mut Random::new(seed), &mut finishing);
    compare_limits(&mut Random::new(seed), &mut plain);
    compare_limits(&mut Random::new(seed), &mut finishing);
    compare_finished(&mut Random::new(seed), &mut finishing);
    for number in 0..files {
        let mut random = Random::of_file(seed, number);
        let draft = draft_of(&mut random, number);
        let broken = number >= FIRST_MADE && random.once_in(10);
        let file = if broken { damaged(&mut random, &draft) } else { draft.bytes() };
        let case = format!("seed {seed}, file {number}, {} bytes", file.len());
        plain.compare_file(&mut random, case.clone(), &file);
        if !number.is_multiple_of(SPARED) {
            let file = with_any_tolerance(&mut random, file);
            finishing.compare_file(&mut random, case, &file);
        }
    }
    close_all(&[("plain runs", &plain.tally), ("finishing runs", &finishing.tally)])
}

fn main() -> ExitCode {
    let (seed, files) = (argument(1, 1), argument(2, 10_500));
    let thread = std::thread::Builder::new().stack_size(STACK);
    let run = thread.spawn(move || compare(seed, files)).expect("a thread");
    run.join().expect("the comparison ends")
}
