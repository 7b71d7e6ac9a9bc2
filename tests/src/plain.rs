//! The rounds of documents 01 and 02 once more, as plainly as the papers have them and with no
//! thought of speed, to hold the tuned solver against, and to count the ties that a run meets.

use crate::limits::*;
use crate::problem::Problem;
use crate::solver::{Answer, Kind, OwnedTables};

/// The ties that a run met, each kind counted.
#[derive(Clone, Copy, Debug, Default)]
pub struct Ties {
    /// Rows at exactly 1000 × D, evaluated while giving up was best.
    pub met: u64,
    /// Of these, rows that were worth so much under H.
    pub at_first: u64,
    /// Of these, rows that rose to it.
    pub risen: u64,
    /// Of these, rows picked before.
    pub at_pick: u64,
    /// Of these, other rows.
    pub at_others: u64,
    /// Of these, rows of a state that has several at exactly 1000 × D.
    pub of_several: u64,
    /// Backups whose pick stayed although an earlier row was worth the same.
    pub kept: u64,
}

impl Ties {
    /// Counts a row that was evaluated at exactly 1000 × D while giving up was best.
    fn meet(&mut self, problem: &Problem, values: &[u32], state: usize, row: usize, before: u16) {
        let tied = |&row: &usize| problem.row_value(row, values) == problem.give_up_cost;
        let first = problem.first_values[row] == problem.give_up_cost;
        let picked = usize::from(before) == row;
        self.met += 1;
        self.at_first += u64::from(first);
        self.risen += u64::from(!first);
        self.at_pick += u64::from(picked);
        self.at_others += u64::from(!picked);
        self.of_several += u64::from(problem.states[state].rows().filter(tied).count() > 1);
    }
}

/// Visiting a state: marks it, visits its picked row's outcomes in order, and lists it after them.
fn visit(
    problem: &Problem,
    picks: &[u16],
    state: usize,
    marks: &mut [bool],
    list: &mut Vec<usize>,
) {
    marks[state] = true;
    if problem.goals[state] {
        return;
    }
    if picks[state] < NO_PICK {
        for at in problem.rows[usize::from(picks[state])].outcomes() {
            let successor = usize::from(problem.outcomes[at].successor);
            if !marks[successor] {
                visit(problem, picks, successor, marks, list);
            }
        }
    }
    list.push(state);
}

/// The list of a walk. E9: "Each walk then begins with 2,048 marks, all clear."
pub fn walk(problem: &Problem, picks: &[u16]) -> Vec<usize> {
    let (mut marks, mut list) = ([false; MAX_STATES], Vec::new());
    visit(problem, picks, problem.start, &mut marks, &mut list);
    list
}

/// The rows of a state in the order a backup takes them: the one picked before, then the others.
fn taken_in_order(problem: &Problem, before: u16, state: usize) -> Vec<usize> {
    let mut rows: Vec<usize> = problem.states[state].rows().collect();
    if before < NO_PICK {
        rows.retain(|&row| row != usize::from(before));
        rows.insert(0, usize::from(before));
    }
    rows
}

/// One backup. Gives the evaluations made, and whether value and pick are as before.
pub fn back_up(
    problem: &Problem,
    tolerance: u32,
    tables: &mut OwnedTables,
    ties: &mut Ties,
    state: usize,
) -> (u64, bool) {
    let before = tables.picks[state];
    let (mut best, mut pick, mut evaluations) = (problem.give_up_cost, None, 0);
    for row in taken_in_order(problem, before, state) {
        let skipped = match pick {
            // "A row is skipped while giving up is best only if its remembered value is above
            // 1000 × D."
            None => tables.remembered[row] > problem.give_up_cost,
            // "A row whose remembered value is at least best is skipped."
            Some(_) => tables.remembered[row] >= best,
        };
        if skipped {
            continue;
        }
        let value = problem.row_value(row, &tables.values);
        evaluations += 1;
        tables.remembered[row] = value;
        let wins = match pick {
            // "A row whose value equals 1000 × D now beats giving up"
            None => value <= problem.give_up_cost,
            // "among rows the earlier pick and then row order still win"
            Some(_) => value < best,
        };
        if pick.is_none() && value == problem.give_up_cost {
            ties.meet(problem, &tables.values, state, row, before);
        }
        if wins {
            (best, pick) = (value, Some(row as u16));
        }
    }
    let pick = pick.unwrap_or(GIVE_UP);
    let earlier = problem.states[state].first_row.into()..usize::from(before);
    let same = |row| problem.row_value(row, &tables.values) == best;
    ties.kept += u64::from(pick == before && before < NO_PICK && earlier.into_iter().any(same));
    tables.picks[state] = pick;
    let rises = i64::from(best) - i64::from(tables.values[state]) >= i64::from(tolerance);
    if rises {
        tables.values[state] = best;
    }
    (evaluations, !rises && pick == before)
}

/// One round. Gives the list of its walk, the evaluations made, and whether it was quiet.
fn round(
    problem: &Problem,
    tolerance: u32,
    tables: &mut OwnedTables,
    ties: &mut Ties,
) -> (Vec<usize>, u64, bool) {
    let list = walk(problem, &tables.picks);
    tables.walk.fill(GIVE_UP);
    let (mut evaluations, mut quiet) = (0, true);
    for (at, &state) in list.iter().enumerate() {
        tables.walk[at] = state as u16;
        let (made, same) = back_up(problem, tolerance, tables, ties, state);
        evaluations += made;
        quiet &= same;
    }
    (list, evaluations, quiet)
}

/// The tables before the first round: "At first V = H, no state has a pick, and each row remembers its value
/// under H." The walk list is empty.
pub fn first_tables(problem: &Problem) -> OwnedTables {
    let states = problem.states.len();
    let rows = 0..problem.rows.len();
    OwnedTables {
        values: problem.estimates.clone(),
        picks: vec![NO_PICK; states],
        remembered: rows.map(|row| problem.row_value(row, &problem.estimates)).collect(),
        walk: vec![GIVE_UP; states],
    }
}

/// The run of a kind as the papers tell it.
pub fn told_run(
    kind: Kind,
    problem: &Problem,
    budget: u64,
    tables: &mut OwnedTables,
    ties: &mut Ties,
) -> Answer {
    *tables = first_tables(problem);
    let (mut tolerance, mut goes_on) = (problem.tolerance, kind == Kind::Finishing);
    let mut evaluations = 0;
    for rounds in 1..=budget {
        let (list, made, quiet) = round(problem, tolerance, tables, ties);
        evaluations += made;
        if quiet && goes_on {
            // "A finishing run goes on, after the quiet round that would end it, with tolerance 1"
            (tolerance, goes_on) = (FINISHING_TOLERANCE, false);
        } else if quiet {
            let cost = |&state: &usize| match tables.picks[state] {
                GIVE_UP => problem.give_up_cost,
                row => problem.rows[usize::from(row)].cost,
            };
            let least_cost = list.iter().map(cost).min().expect("the start is listed");
            return Answer::Solved { rounds, evaluations, least_cost };
        }
    }
    Answer::Spent { rounds: budget, evaluations }
}

#[cfg(test)]
mod tests {
    use super::*;
    use crate::extremes::at_limits;
    use crate::made::made;
    use crate::random::Random;
    use crate::solver::{run, KINDS};
    use crate::totals::FOURTHS;

    /// Makes runs of both kinds at a budget, each in both ways, and holds answers and tables against each
    /// other.
    fn compare(problem: &Problem, budget: u64) {
        for kind in KINDS {
            let (mut tuned, mut plain) = (OwnedTables::new(problem), OwnedTables::new(problem));
            let answer = run(kind, problem, budget, tuned.lend()).answer;
            let told = told_run(kind, problem, budget, &mut plain, &mut Ties::default());
            assert_eq!(answer, told, "{kind:?}");
            assert_eq!(tuned, plain, "{kind:?}");
        }
    }

    #[test]
    fn tuned_and_plain_runs_are_the_same() {
        let mut random = Random::new(5);
        for _ in 0..500 {
            let problem = Problem::read(&made(&mut random).bytes()).expect("whole");
            [0, 1, 2, 3, 7, 400].iter().for_each(|&budget| compare(&problem, budget));
        }
    }

    #[test]
    fn tuned_and_plain_runs_are_the_same_at_the_limits() {
        let mut random = Random::new(6);
        for fourth in FOURTHS {
            let file = at_limits(&mut random, true, 5_000, fourth).bytes();
            compare(&Problem::read(&file).expect("whole"), 100);
        }
    }
}
