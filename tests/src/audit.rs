//! The audit of document 01: questions 1 to 11, then 15 to 19, of a values table and a picks table
//! from any origin. It changes neither.

use crate::limits::GIVE_UP;
use crate::problem::Problem;
use crate::totals::by_total;

/// "Accepted, where questions 1 to 11 and 15 to 19 all say yes, carries C. The audit's refusals
/// carry an excess."
#[derive(Clone, Copy, Debug, PartialEq, Eq)]
pub enum Verdict {
    Accepted { least_cost: u32 },
    Refused { question: u64, place: u64, excess: i64 },
}

/// A refusal at a place counted from 0.
fn refused(question: u64, place: usize, excess: i64) -> Verdict {
    Verdict::Refused { question, place: place as u64, excess }
}

/// Reads a file and audits tables for it.
pub fn audit_file(file: &[u8], values: &[u32], picks: &[u16]) -> Verdict {
    match Problem::read(file) {
        Ok(problem) => audit(&problem, values, picks),
        Err(no) => Verdict::Refused { question: no.question, place: no.place, excess: 0 },
    }
}

/// Audits tables for a problem: questions 15 to 19 in order.
pub fn audit(problem: &Problem, values: &[u32], picks: &[u16]) -> Verdict {
    by_total!(problem.total, W => audit_in::<W>(problem, values, picks))
}

/// Audits tables for a problem whose weight total is W.
fn audit_in<const W: u32>(problem: &Problem, values: &[u32], picks: &[u16]) -> Verdict {
    let asked = ask_lengths(problem, values, picks)
        .or_else(|| ask_values(problem, values))
        .or_else(|| ask_rows::<W>(problem, values));
    if let Some(verdict) = asked {
        return verdict;
    }
    let reached = reached_states(problem, picks);
    ask_picks(problem, picks, &reached)
        .or_else(|| ask_closeness::<W>(problem, values, picks, &reached))
        .unwrap_or_else(|| Verdict::Accepted { least_cost: least_cost(problem, picks, &reached) })
}

/// "Are values and picks long enough? 15 (table)."
fn ask_lengths(problem: &Problem, values: &[u32], picks: &[u16]) -> Option<Verdict> {
    let lengths = [values.len(), picks.len()];
    let table = lengths.iter().position(|&length| length < problem.states.len())?;
    Some(refused(15, table, 0))
}

/// "Is V zero at goals, and at most 1000 × D elsewhere? 16 (state)."
fn ask_values(problem: &Problem, values: &[u32]) -> Option<Verdict> {
    let most = |state: usize| if problem.goals[state] { 0 } else { problem.give_up_cost };
    let state = (0..problem.states.len()).find(|&state| values[state] > most(state))?;
    Some(refused(16, state, 0))
}

/// "Is V at most every row value of its state? 17 (row)." The excess is V(s) minus row value. Every
/// row of every state is asked, picked or not, reached or not.
fn ask_rows<const W: u32>(problem: &Problem, values: &[u32]) -> Option<Verdict> {
    for (state, &value) in problem.states.iter().zip(values) {
        for row in state.rows() {
            let excess = i64::from(value) - i64::from(problem.row_value_in::<W>(row, values));
            if excess > 0 {
                return Some(refused(17, row, excess));
            }
        }
    }
    None
}

/// What a pick stands for at a state: "that state's row or 65,535", or neither.
#[derive(Clone, Copy, Debug, PartialEq, Eq)]
pub enum Pick {
    Row(usize),
    GiveUp,
    Neither,
}

/// The meaning of a state's pick.
pub fn pick_of(problem: &Problem, picks: &[u16], state: usize) -> Pick {
    let pick = usize::from(picks[state]);
    if problem.states[state].rows().contains(&pick) {
        return Pick::Row(pick);
    }
    match picks[state] {
        GIVE_UP => Pick::GiveUp,
        _ => Pick::Neither,
    }
}

/// "Reached states: the start, and successors of a reached state's picked row. A goal, or a state
/// whose pick is not one of its own rows, adds none."
pub fn reached_states(problem: &Problem, picks: &[u16]) -> Vec<bool> {
    let mut reached = vec![false; problem.states.len()];
    let mut ahead = vec![problem.start];
    reached[problem.start] = true;
    while let Some(state) = ahead.pop() {
        let Pick::Row(row) = pick_of(problem, picks, state) else {
            continue;
        };
        for outcome in &problem.outcomes[problem.rows[row].outcomes()] {
            let successor = usize::from(outcome.successor);
            if !reached[successor] {
                reached[successor] = true;
                ahead.push(successor);
            }
        }
    }
    reached
}

/// The reached states that are no goals, by state number.
fn asked_states<'a>(problem: &'a Problem, reached: &'a [bool]) -> impl Iterator<Item = usize> + 'a {
    (0..reached.len()).filter(|&state| reached[state] && !problem.goals[state])
}

/// "Is each reached pick that state's row or 65,535, goals aside? 18 (state)."
fn ask_picks(problem: &Problem, picks: &[u16], reached: &[bool]) -> Option<Verdict> {
    let state = asked_states(problem, reached)
        .find(|&state| pick_of(problem, picks, state) == Pick::Neither)?;
    Some(refused(18, state, 0))
}

/// "Is each reached pick's value at most V + e − 1, goals aside? 19 (state)." The excess is V(s)
/// minus the pick's value or 1000 × D.
fn ask_closeness<const W: u32>(
    problem: &Problem,
    values: &[u32],
    picks: &[u16],
    reached: &[bool],
) -> Option<Verdict> {
    for state in asked_states(problem, reached) {
        let value = match pick_of(problem, picks, state) {
            Pick::Row(row) => problem.row_value_in::<W>(row, values),
            _ => problem.give_up_cost,
        };
        let excess = i64::from(values[state]) - i64::from(value);
        if excess <= -i64::from(problem.tolerance) {
            return Some(refused(19, state, excess));
        }
    }
    None
}

/// "C is the least of 1000 × c or 1000 × D over the picks at reached states that aren't goals."
fn least_cost(problem: &Problem, picks: &[u16], reached: &[bool]) -> u32 {
    let costs = asked_states(problem, reached).map(|state| match pick_of(problem, picks, state) {
        Pick::Row(row) => problem.rows[row].cost,
        _ => problem.give_up_cost,
    });
    costs.min().expect("the start is reached and no goal")
}
