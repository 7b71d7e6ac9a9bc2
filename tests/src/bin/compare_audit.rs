//! Compares the product's audit with `audit.rs`: verdict, place and excess, on files whole and
//! damaged, in every total, and on tables of many origins, and holds that the tables stay as they were
//! lent. Every solved run's own tables must be accepted with its C. Of files that are longer than what `plan`
//! holds it is the product's own run that leaves the tables, and the program `audit` is asked too.
//!
//! `compare_audit [audit] [seed] [files]`

use comparisons::audit::audit_file;
use comparisons::damage::damaged;
use comparisons::encode::Draft;
use comparisons::examples::{file_p, one_state, with_total};
use comparisons::extremes::{
    about_limits, at_limits, deep_chain, deepest, lengths_above, of_length,
};
use comparisons::harness::{argument, noise, Tally};
use comparisons::library::{
    self, asked_of_audit, asked_of_lent, asked_of_run, ACCEPTED, ANSWER, SOLVED,
};
use comparisons::limits::*;
use comparisons::listing::audit_line;
use comparisons::made::made;
use comparisons::problem::{Problem, FILE_QUESTIONS};
use comparisons::programs::{Folder, Program, Said};
use comparisons::proposal::{wrong_sticks, Proposal};
use comparisons::random::Random;
use comparisons::solver::{run, Kind, OwnedTables, KINDS};
use comparisons::table_files::{picks_bytes, values_bytes};
use comparisons::totals::{Fourth, FOURTHS};
use std::process::ExitCode;

/// A file whose run takes more rounds than this is audited with the tables that it has then.
const MOST_ROUNDS: u64 = 5_000;
/// Changed tables tried on each file.
const CHANGES: usize = 8;
/// Audits of each file that is wrong for a question.
const TIMES: usize = 5;
/// How often each of the questions 15 to 19 must be met.
const LEAST_MET: u64 = 200;
/// How often each of the questions 1 to 11 must be met.
const LEAST_OF_FILES: u64 = 50;
/// How many there must be of other things, in each total its share.
const LEAST: [(&str, u64); 4] = [
    ("accepted", 7_500),
    ("refused", 14_000),
    ("solved runs audited", 1_900),
    ("audits by the program", 60),
];

/// The product's audit, after which every entry of its tables is as lent, also beyond the states.
fn product(tally: &mut Tally, file: &[u8], proposal: &Proposal, answer: &mut [i64]) -> u8 {
    let mut lent = proposal.clone();
    let code = library::audit(file, &mut lent.values, &mut lent.picks, answer);
    tally.hold("the lent tables", &lent, proposal);
    code
}

/// The paper's audit: its code and its answer.
fn paper(file: &[u8], proposal: &Proposal) -> (u8, [i64; ANSWER]) {
    asked_of_audit(audit_file(file, &proposal.values, &proposal.picks))
}

/// Compares one audit, the answer lent at any length from 0 to 5.
fn compare(random: &mut Random, tally: &mut Tally, file: &[u8], proposal: &Proposal) {
    let (code, answer) = paper(file, proposal);
    tally.count("pairs of tables");
    match code {
        ACCEPTED => tally.count_on(file, "accepted"),
        _ => tally.meet(answer[0] as u64, file),
    }
    for length in [ANSWER, random.below(ANSWER + 3)] {
        let mut given: Vec<i64> = noise(random, length);
        let (asked_code, asked) = asked_of_lent(code, answer, &given);
        let given_code = product(tally, file, proposal, &mut given);
        tally.hold("the code", &given_code, &asked_code);
        tally.hold("the answer", &given, &asked);
    }
}

/// "Whenever a run of these rounds ends solved, the audit accepts that file with the values and
/// picks the run left, and gives the run's C."
fn compare_own(tally: &mut Tally, file: &[u8], proposal: &Proposal, least_cost: Option<u32>) {
    let Some(least_cost) = least_cost else {
        return;
    };
    let mut answer = [-1; ANSWER];
    let code = product(tally, file, proposal, &mut answer);
    tally.count_on(file, "solved runs audited");
    tally.hold("the code on a solved run", &code, &ACCEPTED);
    tally.hold("the answer on a solved run", &answer, &[i64::from(least_cost), 0, 0]);
}

/// Compares audits of a draft's own file: the run's tables, changed ones, and noise.
fn compare_draft(random: &mut Random, tally: &mut Tally, draft: &Draft) {
    let file = draft.bytes();
    let problem = Problem::read(&file).expect("whole");
    let (own, least_cost) = Proposal::of_run(&problem, MOST_ROUNDS);
    compare_own(tally, &file, &own, least_cost);
    compare(random, tally, &file, &own);
    for _ in 0..CHANGES {
        let proposal = own.changed(random, &problem);
        compare(random, tally, &file, &proposal);
    }
    let noisy = Proposal::noise(random, problem.states.len());
    compare(random, tally, &file, &noisy);
    let broken = damaged(random, draft);
    compare(random, tally, &broken, &own);
}

/// Compares audits of the stick with one thing wrong for each question, in each total, a few times with
/// tables of its run.
fn compare_refused(random: &mut Random, tally: &mut Tally) {
    for wrong in wrong_sticks(MOST_ROUNDS) {
        tally.case = wrong.case;
        (0..TIMES).for_each(|_| compare(random, tally, &wrong.file, &wrong.own));
    }
}

/// The product's run of a kind on a file, which must be solved as the paper has it. Gives what it leaves.
fn solved(tally: &mut Tally, kind: Kind, file: &[u8]) -> (Proposal, u32) {
    let problem = Problem::read(file).expect("whole");
    let [mut given, mut asked] = [0; 2].map(|_| OwnedTables::new(&problem));
    let mut answer = [0; ANSWER];
    let code = library::run(kind, file, PLAN_ROUNDS, given.lend(), &mut answer);
    let paper = run(kind, &problem, PLAN_ROUNDS, asked.lend()).answer;
    tally.hold("the run", &(code, answer), &asked_of_run(paper));
    tally.hold("whether it is solved", &code, &SOLVED);
    tally.hold("the run's tables", &given, &asked);
    let OwnedTables { values, picks, .. } = given;
    (Proposal { values, picks }, answer[2] as u32)
}

/// Holds the line of the program `audit` on a file and tables.
fn compare_program(
    tally: &mut Tally,
    audit: &Program,
    folder: &Folder,
    file: &[u8],
    proposal: &Proposal,
) {
    let Proposal { values, picks } = proposal;
    folder.put("file", Some(file));
    folder.put("values", Some(&values_bytes(values)));
    folder.put("picks", Some(&picks_bytes(picks)));
    let said = audit.run(folder, &["file", "values", "picks"], &[]);
    let line = audit_line(audit_file(file, values, picks));
    tally.count_on(file, "audits by the program");
    tally.hold("the program's line", &said, &Said::only(line));
}

/// Files that are longer than what `plan` holds, in a total: solved by the product's library, the tables
/// audited as they were left, and changed, by the library and by the program.
fn compare_long(tally: &mut Tally, audit: &Program, random: &mut Random, fourth: Fourth) {
    let folder = Folder::new("compare-audit");
    for (kind, length) in KINDS.into_iter().cycle().zip(lengths_above(fourth)) {
        tally.case = format!("a {kind:?} run on {length} bytes, fourth setting {fourth:?}");
        let file = of_length(random, length, true, 5_000, fourth).bytes();
        let (own, least_cost) = solved(tally, kind, &file);
        compare_own(tally, &file, &own, Some(least_cost));
        let problem = Problem::read(&file).expect("whole");
        let changed = own.changed(random, &problem);
        for proposal in [&own, &changed] {
            compare(random, tally, &file, proposal);
            compare_program(tally, audit, &folder, &file, proposal);
        }
    }
}

/// The draft behind the file of a number: the paper's, those at the limits, chains, and made ones.
fn draft_of(random: &mut Random, number: u64) -> Draft {
    let with_goal = random.once_in(2);
    let fourth = FOURTHS[number as usize % FOURTHS.len()];
    match number {
        0..=19 => with_total(&file_p(), fourth),
        20..=29 => one_state().with_fourth(fourth),
        30..=34 => at_limits(random, with_goal, 5_000, fourth),
        35..=39 => about_limits(random, with_goal, 5_000, fourth),
        40..=43 => deep_chain(random, MAX_STATES, 8, with_goal, fourth),
        44 => deepest(fourth),
        _ => made(random),
    }
}

fn main() -> ExitCode {
    let audit = Program::named(1, "audit");
    let (seed, files) = (argument(2, 1), argument(3, 4_000));
    let tally = Tally::default().in_each_total(&LEAST);
    let mut tally = tally.meeting(FILE_QUESTIONS, LEAST_OF_FILES).meeting(15..=19, LEAST_MET);
    compare_refused(&mut Random::new(seed), &mut tally);
    for fourth in FOURTHS {
        compare_long(&mut tally, &audit, &mut Random::new(seed), fourth);
    }
    for number in 0..files {
        let mut random = Random::of_file(seed, number);
        let draft = draft_of(&mut random, number);
        tally.case = format!("seed {seed}, file {number}");
        tally.count("files");
        compare_draft(&mut random, &mut tally, &draft);
    }
    tally.close()
}
