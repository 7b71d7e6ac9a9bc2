//! Compares the product's follower with `follower.rs`: what openings and reports return, their
//! answers and the record, and holds that the tables stay as they were lent. It goes along shifts on
//! accepted plans in every total, where the record is held against the list of accepted reports as
//! well; over records made up freely; and over files and tables that the audit's questions refuse.
//!
//! `compare_following [seed] [files]`

use comparisons::audit::{pick_of, reached_states, Pick};
use comparisons::damage::damaged;
use comparisons::encode::Draft;
use comparisons::examples::{file_p, one_state, p_with_penalty, stick, with_total};
use comparisons::extremes::{about_limits, at_limits, deep_chain};
use comparisons::follower::{self, outcome_number, pick_at, reasons, Followed, Reason, Record};
use comparisons::harness::{answer_length, argument, noise, Tally};
use comparisons::library::{
    self, asked_of_follower, asked_of_lent, ANSWER, DONE, REFUSED, TOO_SHORT,
};
use comparisons::limits::*;
use comparisons::loads::LOADS;
use comparisons::made::made;
use comparisons::problem::{Outcome, Problem, FILE_QUESTIONS};
use comparisons::proposal::{change_pick, wrong_sticks, Proposal, WrongStick};
use comparisons::random::Random;
use comparisons::totals::{any_fourth, FOURTHS};
use std::process::ExitCode;

/// A file whose run takes more rounds than this is not followed.
const MOST_ROUNDS: u64 = 5_000;
/// The longest shift, in reports.
const MOST_REPORTS: usize = 60;
/// Reports tried once a shift has ended.
const AFTER_END: usize = 3;
/// Moves from which a shift is counted apart.
const MANY_MOVES: usize = 20;
/// Made-up records tried on each plan.
const RECORDS: usize = 12;
/// Reports from each of them, one after the other.
const REPORTS_EACH: usize = 3;
/// Changed tables tried on each file.
const CHANGES: usize = 4;
/// Openings and reports on each file that is wrong for a question.
const TIMES: usize = 5;
/// Outcomes that no row has.
const FAR_OUT: [u64; 6] = [255, 256, 65_536, 1 << 32, 1 << 63, u64::MAX];
/// How often each of the questions 15 to 22 must be met.
const LEAST_MET: u64 = 200;
/// How often each of the questions 1 to 11 must be met.
const LEAST_OF_FILES: u64 = 50;
/// How many there must be of other things, in each total its share.
const LEAST: [(&str, u64); 9] = [
    ("shifts", 5_000),
    ("shifts of 20 moves or more", 500),
    ("openings done", 6_500),
    ("reports done, by a row", 30_000),
    ("reports done, giving up", 4_500),
    ("openings refused", 8_000),
    ("reports refused by the audit's questions", 8_000),
    ("the audit's questions before a set mark", 2_000),
    ("answers lent too short", 12_000),
];
/// Why reports are refused, and how many must be for each reason.
const REASONS: [(Reason, &str, u64); 7] = [
    (Reason::Mark, "20, the mark is set", 25_000),
    (Reason::Goal, "20, the state is a goal", 13_000),
    (Reason::Moves, "21, the moves", 7_000),
    (Reason::Seconds, "21, the seconds", 5_500),
    (Reason::NoState, "22, no state of the file", 6_500),
    (Reason::NoPick, "22, no pick of its own", 8_500),
    (Reason::NoOutcome, "22, no such outcome", 7_500),
];
/// Two questions that both fail, the earlier being met, and how often that must be.
const ORDERS: [([u64; 2], &str, u64); 3] = [
    ([20, 21], "20 where 21 fails too", 8_000),
    ([20, 22], "20 where 22 fails too", 25_000),
    ([21, 22], "21 where 22 fails too", 7_000),
];

/// A call of the follower.
#[derive(Clone, Copy, Debug)]
enum Call {
    Open,
    Report(u64),
}

/// A file and tables for it.
struct Plan<'a> {
    file: &'a [u8],
    tables: &'a Proposal,
}

/// The product's call.
fn product(
    file: &[u8],
    tables: &mut Proposal,
    call: Call,
    record: &mut Record,
    answer: &mut [i64],
) -> u8 {
    let Proposal { values, picks } = tables;
    match call {
        Call::Open => library::open(file, values, picks, record, answer),
        Call::Report(outcome) => library::report(file, values, picks, outcome, record, answer),
    }
}

/// The paper's call.
fn paper(plan: &Plan, call: Call, record: &mut Record) -> Followed {
    let Proposal { values, picks } = plan.tables;
    match call {
        Call::Open => follower::open(plan.file, values, picks, record),
        Call::Report(outcome) => follower::report(plan.file, values, picks, outcome, record),
    }
}

/// Compares one call on a record, which is then as the paper asks. It is lent from between two others,
/// and the answer at any length from 0 to 5. Says whether the call is done.
fn compare(
    random: &mut Random,
    tally: &mut Tally,
    plan: &Plan,
    call: Call,
    record: &mut Record,
) -> bool {
    let length = answer_length(random);
    let before = [noisy_record(random), *record, noisy_record(random)];
    let (mut given, mut asked) = (before, before);
    let mut given_answer: Vec<i64> = noise(random, length);
    let (code, answer) = match length >= ANSWER {
        true => asked_of_follower(paper(plan, call, &mut asked[1]), &asked[1]),
        false => (TOO_SHORT, [0; ANSWER]),
    };
    let (asked_code, asked_answer) = asked_of_lent(code, answer, &given_answer);
    match asked_code {
        DONE => tally.count_on(plan.file, name_of_done(call, &asked[1])),
        REFUSED => count_refused(tally, plan, call, record, answer[0] as u64),
        _ => tally.count_on(plan.file, "answers lent too short"),
    }
    let mut tables = plan.tables.clone();
    let given_code = product(plan.file, &mut tables, call, &mut given[1], &mut given_answer);
    let case = tally.case.clone();
    tally.case = format!("{case}, {call:?}, {record:?}");
    tally.hold("the code", &given_code, &asked_code);
    tally.hold("the answer", &given_answer, &asked_answer);
    tally.hold("the record and those beside it", &given, &asked);
    tally.hold("the lent tables", &tables, plan.tables);
    tally.case = case;
    *record = asked[1];
    asked_code == DONE
}

/// What a call that is done is counted as, by the record that it leaves.
fn name_of_done(call: Call, left: &Record) -> &'static str {
    match call {
        Call::Open => "openings done",
        Call::Report(_) if left.mark == 0 => "reports done, by a row",
        Call::Report(_) => "reports done, giving up",
    }
}

/// Counts a refusal by its question, and a report's by whose question it is.
fn count_refused(tally: &mut Tally, plan: &Plan, call: Call, record: &Record, question: u64) {
    tally.meet(question, plan.file);
    match call {
        Call::Open => tally.count_on(plan.file, "openings refused"),
        Call::Report(outcome) if (20..=22).contains(&question) => {
            count_reasons(tally, plan, outcome, record);
        }
        Call::Report(_) => {
            tally.count_on(plan.file, "reports refused by the audit's questions");
            if record.mark != 0 {
                tally.count_on(plan.file, "the audit's questions before a set mark");
            }
        }
    }
}

/// Counts the reason of a report's refusal, and the later questions that fail too.
fn count_reasons(tally: &mut Tally, plan: &Plan, outcome: u64, record: &Record) {
    let problem = Problem::read(plan.file).expect("the audit's questions said yes");
    let hold = reasons(&problem, &plan.tables.picks, outcome, record);
    let fails = |question: u64| hold.iter().any(|reason| reason.question() == question);
    for (_, name, _) in REASONS.iter().filter(|(reason, ..)| hold[0] == *reason) {
        tally.count_on(plan.file, name);
    }
    for ([met, later], name, _) in ORDERS {
        if hold[0].question() == met && fails(later) {
            tally.count_on(plan.file, name);
        }
    }
}

/// A record of noise.
fn noisy_record(random: &mut Random) -> Record {
    let [state, moves, seconds, mark] = std::array::from_fn(|_| random.bits());
    Record { state, moves, seconds, mark }
}

/// A record made up freely: each number mostly in order, and otherwise at the end of its range or far
/// beyond it, also where fewer bits would make a state or a clear mark of it.
fn any_record(random: &mut Random, problem: &Problem) -> Record {
    let states = problem.states.len() as u64;
    let state = random.below(problem.states.len()) as u64;
    let goal = problem.goals.iter().position(|&goal| goal).map_or(state, |goal| goal as u64);
    let wide = random.pick(&[65_536, 1 << 32]);
    let far = [goal, goal, states, states + 1, 65_535, wide, wide + state, u64::MAX];
    let moves = [MAX_MOVES - 1, MAX_MOVES - 1, MAX_MOVES, MAX_MOVES + 1, 1 << 32, u64::MAX];
    let seconds = [MAX_SECONDS, MAX_SECONDS, MAX_SECONDS + 1, 1 << 48, u64::MAX];
    let marks = [1, 2, 256, 65_536, 1 << 32, u64::MAX];
    let (few_moves, few_seconds) = (random.below(100) as u64, random.below(10_000) as u64);
    let mut one_of = |usual: u64, ends: &[u64]| match random.once_in(4) {
        true => random.pick(ends),
        false => usual,
    };
    Record {
        state: one_of(state, &far),
        moves: one_of(few_moves, &moves),
        seconds: one_of(few_seconds, &seconds),
        mark: one_of(0, &marks),
    }
}

/// An outcome to report: mostly one that the pick has, rather to a state that has a row picked too;
/// sometimes the first that it has not, or one far out.
fn any_outcome(random: &mut Random, problem: &Problem, picks: &[u16], record: &Record) -> u64 {
    let pick = pick_at(problem, picks, record);
    match (random.below(12), pick) {
        (0, _) => pick.map_or(0, |pick| outcome_number(problem, pick)),
        (1, _) => random.pick(&FAR_OUT),
        (_, Some(Pick::Row(row))) => {
            let outcomes = &problem.outcomes[problem.rows[row].outcomes()];
            let goes_on = |&at: &usize| {
                let successor = usize::from(outcomes[at].successor);
                matches!(pick_of(problem, picks, successor), Pick::Row(_))
            };
            let drawn: [usize; 3] = std::array::from_fn(|_| random.below(outcomes.len()));
            drawn.into_iter().find(goes_on).unwrap_or(drawn[0]) as u64
        }
        _ => 0,
    }
}

/// "For every list of reports from opening, all on one file and plan, its state is the one that the
/// accepted reports lead to, its moves are their number, and its seconds the sum of their costs": the
/// record by the list of accepted outcomes, from the whole of it. The mark is set where the last of
/// them gave up.
fn by_list(problem: &Problem, picks: &[u16], accepted: &[u64]) -> Record {
    let row_at = |state: usize| problem.rows.get(usize::from(picks[state]));
    let mut way = vec![problem.start];
    for (at, &outcome) in accepted.iter().enumerate() {
        let outcomes = row_at(way[at]).map(|row| &problem.outcomes[row.outcomes()]);
        let successor = |of: &[Outcome]| usize::from(of[outcome as usize].successor);
        way.push(outcomes.map_or(way[at], successor));
    }
    let (&last, left) = way.split_last().expect("the start");
    let cost = |&state: &usize| row_at(state).map_or(problem.give_up_cost, |row| row.cost);
    let ticks: u64 = left.iter().map(cost).map(u64::from).sum();
    Record {
        state: last as u64,
        moves: accepted.len() as u64,
        seconds: ticks / u64::from(TICKS),
        mark: u64::from(left.last().is_some_and(|&state| row_at(state).is_none())),
    }
}

/// Compares a shift on an accepted plan, and holds its record against the list of accepted reports
/// after each.
fn compare_shift(random: &mut Random, tally: &mut Tally, plan: &Plan, problem: &Problem) {
    let picks = &plan.tables.picks;
    let mut record = noisy_record(random);
    // An opening whose answer is lent too short does nothing, and is tried again.
    let opened = (0..MOST_REPORTS).any(|_| compare(random, tally, plan, Call::Open, &mut record));
    assert!(opened, "an accepted plan is opened");
    let (mut accepted, mut after_end) = (Vec::new(), 0);
    for _ in 0..MOST_REPORTS {
        let outcome = any_outcome(random, problem, picks, &record);
        if compare(random, tally, plan, Call::Report(outcome), &mut record) {
            accepted.push(outcome);
        }
        tally.hold("the record of a list", &record, &by_list(problem, picks, &accepted));
        after_end += usize::from(record.mark != 0 || problem.goals[record.state as usize]);
        if after_end > AFTER_END {
            break;
        }
    }
    tally.count_on(plan.file, "shifts");
    if accepted.len() >= MANY_MOVES {
        tally.count_on(plan.file, "shifts of 20 moves or more");
    }
}

/// Compares reports on records made up freely, a few from each.
fn compare_made_up(random: &mut Random, tally: &mut Tally, plan: &Plan, problem: &Problem) {
    for _ in 0..RECORDS {
        let mut record = any_record(random, problem);
        for _ in 0..REPORTS_EACH {
            let outcome = any_outcome(random, problem, &plan.tables.picks, &record);
            compare(random, tally, plan, Call::Report(outcome), &mut record);
        }
    }
}

/// Compares an opening and a report on a record made up freely, drawn with the problem's own plan.
fn compare_both(
    random: &mut Random,
    tally: &mut Tally,
    plan: &Plan,
    problem: &Problem,
    own: &Proposal,
) {
    let mut record = any_record(random, problem);
    let outcome = any_outcome(random, problem, &own.picks, &record);
    compare(random, tally, plan, Call::Report(outcome), &mut record);
    compare(random, tally, plan, Call::Open, &mut record);
}

/// The tables with stray picks at states that the plan does not reach, and with picks of giving up, no
/// pick and a row beyond the states. The audit looks at none of these.
fn strayed(random: &mut Random, problem: &Problem, own: &Proposal) -> Proposal {
    let mut tables = own.clone();
    let reached = reached_states(problem, &own.picks);
    for state in (0..reached.len()).filter(|&state| !reached[state]) {
        change_pick(random, problem, &mut tables, state);
    }
    tables.picks.extend([GIVE_UP, random.pick(&[GIVE_UP, NO_PICK, 0])]);
    tables
}

/// Compares all that is called on a draft's file: shifts and made-up records on its plan, changed
/// tables, noise, and the file damaged.
fn compare_draft(random: &mut Random, tally: &mut Tally, draft: &Draft) {
    let file = &draft.bytes()[..];
    let problem = Problem::read(file).expect("whole");
    let (own, least_cost) = Proposal::of_run(&problem, MOST_ROUNDS);
    if least_cost.is_some() {
        let strayed = strayed(random, &problem, &own);
        compare_shift(random, tally, &Plan { file, tables: &own }, &problem);
        compare_shift(random, tally, &Plan { file, tables: &strayed }, &problem);
        compare_made_up(random, tally, &Plan { file, tables: &strayed }, &problem);
    }
    for _ in 0..CHANGES {
        let changed = own.changed(random, &problem);
        compare_both(random, tally, &Plan { file, tables: &changed }, &problem, &own);
    }
    let noisy = Proposal::noise(random, problem.states.len());
    compare_both(random, tally, &Plan { file, tables: &noisy }, &problem, &own);
    let broken = damaged(random, draft);
    compare_both(random, tally, &Plan { file: &broken, tables: &own }, &problem, &own);
}

/// Compares openings and reports on the stick with one thing wrong for each question, in each total, a
/// few times with the tables of its run.
fn compare_refused(random: &mut Random, tally: &mut Tally) {
    for WrongStick { case, file, problem, own } in wrong_sticks(MOST_ROUNDS) {
        tally.case = case;
        let plan = Plan { file: &file, tables: &own };
        (0..TIMES).for_each(|_| compare_both(random, tally, &plan, &problem, &own));
    }
}

/// The draft behind the file of a number: the examples, P giving up, those at the limits, chains, the
/// benchmark's loads, and made ones.
fn draft_of(random: &mut Random, number: u64) -> Draft {
    let with_goal = random.once_in(2);
    let fourth = FOURTHS[number as usize % FOURTHS.len()];
    match number {
        0..=9 => with_total(&file_p(), fourth),
        10..=19 => with_total(&p_with_penalty(100), fourth),
        20..=29 => with_total(&one_state(), fourth),
        30..=39 => with_total(&stick(), fourth),
        40..=42 => at_limits(random, with_goal, 5_000, fourth),
        43..=44 => about_limits(random, with_goal, 5_000, fourth),
        45..=49 => deep_chain(random, MAX_STATES, 8, with_goal, fourth),
        50..=69 => deep_chain(random, 32, MAX_IN_BYTE, with_goal, fourth),
        70..=109 => {
            let states = random.pick(&[16, 16, 64, 256]);
            LOADS[random.below(LOADS.len())].draft(random, states, fourth)
        }
        110..=509 => {
            let (states, outcomes) = (30 + random.below(60), 1 + random.below(20));
            let fourth = any_fourth(random);
            deep_chain(random, states, outcomes, true, fourth)
        }
        _ => made(random),
    }
}

fn main() -> ExitCode {
    let (seed, files) = (argument(1, 1), argument(2, 4_000));
    let by_reason = REASONS.iter().map(|&(_, name, least)| (name, least));
    let by_order = ORDERS.iter().map(|&(_, name, least)| (name, least));
    let least: Vec<_> = LEAST.into_iter().chain(by_reason).chain(by_order).collect();
    let tally = Tally::default().in_each_total(&least);
    let mut tally = tally.meeting(FILE_QUESTIONS, LEAST_OF_FILES).meeting(15..=22, LEAST_MET);
    compare_refused(&mut Random::new(seed), &mut tally);
    for number in 0..files {
        let mut random = Random::of_file(seed, number);
        let draft = draft_of(&mut random, number);
        tally.case = format!("seed {seed}, file {number}");
        tally.count("files");
        compare_draft(&mut random, &mut tally, &draft);
    }
    tally.close()
}
