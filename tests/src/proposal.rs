//! The tables that an audit takes, values and picks: as a run leaves them, and changed in many ways.

use crate::damage::one_wrong_each;
use crate::examples::{stick, with_total};
use crate::harness::noise;
use crate::limits::*;
use crate::problem::Problem;
use crate::random::Random;
use crate::solver::{solve, Answer, OwnedTables};
use crate::totals::FOURTHS;

/// The tables that an audit takes.
#[derive(Clone, Debug, PartialEq)]
pub struct Proposal {
    pub values: Vec<u32>,
    pub picks: Vec<u16>,
}

impl Proposal {
    /// The tables that a run of at most so many rounds leaves, and its C where it is solved.
    pub fn of_run(problem: &Problem, rounds: u64) -> (Proposal, Option<u32>) {
        let mut tables = OwnedTables::new(problem);
        let run = solve(problem, rounds, tables.lend());
        let least_cost = match run.answer {
            Answer::Solved { least_cost, .. } => Some(least_cost),
            _ => None,
        };
        (Proposal { values: tables.values, picks: tables.picks }, least_cost)
    }

    /// Tables of noise.
    pub fn noise(random: &mut Random, states: usize) -> Proposal {
        Proposal { values: noise(random, states), picks: noise(random, states) }
    }

    /// These tables, changed in one to three ways.
    pub fn changed(&self, random: &mut Random, problem: &Problem) -> Proposal {
        let mut proposal = self.clone();
        for _ in 0..random.pick(&[1, 1, 1, 2, 3]) {
            // A change after one of the lengths would not find its entries.
            if proposal.values.len() == problem.states.len() {
                change(random, problem, &mut proposal);
            }
        }
        proposal
    }
}

/// The stick with one thing wrong, beside its problem while it was whole and the tables of its run.
pub struct WrongStick {
    /// What is wrong with it, in words.
    pub case: String,
    pub file: Vec<u8>,
    pub problem: Problem,
    pub own: Proposal,
}

/// The stick with one thing wrong for each question, in each total, with the tables that at most so many
/// rounds leave.
pub fn wrong_sticks(rounds: u64) -> Vec<WrongStick> {
    let mut sticks = Vec::new();
    for draft in FOURTHS.map(|fourth| with_total(&stick(), fourth)) {
        let problem = Problem::read(&draft.bytes()).expect("whole");
        let (own, _) = Proposal::of_run(&problem, rounds);
        sticks.extend(one_wrong_each(&draft).into_iter().map(|(refusal, file)| WrongStick {
            case: format!("the stick in {}, wrong for {refusal:?}", draft.total()),
            file,
            problem: problem.clone(),
            own: own.clone(),
        }));
    }
    sticks
}

/// Changes tables in one way.
fn change(random: &mut Random, problem: &Problem, proposal: &mut Proposal) {
    let state = random.below(problem.states.len());
    let state = random.pick(&[state, state, problem.start]);
    match random.below(12) {
        0 => shift(random, &mut proposal.values, state, 1),
        1..=2 => shift(random, &mut proposal.values, state, problem.tolerance),
        3 => lower_all(random, &mut proposal.values),
        4 => extreme_value(random, problem, proposal, state),
        5..=7 => change_pick(random, problem, proposal, state),
        8 => random_picks(random, problem, &mut proposal.picks),
        9 => change_lengths(random, proposal),
        10 => proposal.values.copy_from_slice(&problem.estimates),
        _ => {
            let extra = 1 + random.below(5);
            proposal.values.extend(noise::<u32>(random, extra));
            proposal.picks.extend(noise::<u16>(random, extra));
        }
    }
}

/// A value up or down, by at most so many ticks.
fn shift(random: &mut Random, values: &mut [u32], state: usize, most: u32) {
    let Some(value) = values.get_mut(state) else {
        return;
    };
    let by = random.pick(&[1, most, most.saturating_sub(1)]);
    *value = match random.once_in(2) {
        true => value.wrapping_add(by),
        false => value.saturating_sub(by),
    };
}

/// All values lower, down to 0: no row lies below them, and picks are too dear.
fn lower_all(random: &mut Random, values: &mut [u32]) {
    let (share, of) = random.pick(&[(0, 1), (1, 2), (999, 1_000)]);
    for value in values {
        *value = (u64::from(*value) * share / of) as u32;
    }
}

/// A value at 1000 × D or above it, or of another state, or a value other than 0 at a goal.
fn extreme_value(random: &mut Random, problem: &Problem, proposal: &mut Proposal, state: usize) {
    let most = problem.give_up_cost;
    let goal = (0..problem.goals.len()).find(|&state| problem.goals[state]);
    let at = if random.once_in(3) { goal.unwrap_or(state) } else { state };
    let another = random.below(most as usize) as u32;
    if let Some(value) = proposal.values.get_mut(at) {
        *value = random.pick(&[most, most, most - 1, most + 1, 1 << 31, u32::MAX, 1, another]);
    }
}

/// A pick of another row, of a row beyond the file, of giving up, or no pick.
pub fn change_pick(random: &mut Random, problem: &Problem, proposal: &mut Proposal, state: usize) {
    let rows = problem.states[state].rows();
    let own = rows.start + random.below(rows.len().max(1));
    let any = random.below(problem.rows.len() + 1);
    let beyond = problem.rows.len();
    let noisy = random.bits() as u16;
    let choices = [own as u16, own as u16, rows.end as u16, any as u16, beyond as u16];
    let other = [NO_PICK, GIVE_UP, noisy, rows.start.wrapping_sub(1) as u16];
    if let Some(pick) = proposal.picks.get_mut(state) {
        *pick = if random.once_in(2) { random.pick(&choices) } else { random.pick(&other) };
    }
}

/// Any own row, or giving up, at every state.
fn random_picks(random: &mut Random, problem: &Problem, picks: &mut [u16]) {
    for (state, pick) in problem.states.iter().zip(picks) {
        let rows = state.rows();
        let row = rows.start + random.below(rows.len().max(1));
        *pick = if rows.is_empty() || random.once_in(6) { GIVE_UP } else { row as u16 };
    }
}

/// Tables one entry short, or empty.
fn change_lengths(random: &mut Random, proposal: &mut Proposal) {
    let (values, picks) = (proposal.values.len(), proposal.picks.len());
    match random.below(4) {
        0 => proposal.values.truncate(values.saturating_sub(1)),
        1 => proposal.picks.truncate(picks.saturating_sub(1)),
        2 => proposal.values.clear(),
        _ => {
            proposal.values.truncate(values.saturating_sub(1));
            proposal.picks.truncate(picks.saturating_sub(1));
        }
    }
}
