//! Made-up problem files, whole ones: many shapes, from a seed, in all weight totals. Every draft made
//! here passes questions 1 to 11; `damage.rs` breaks them.

use crate::encode::Draft;
use crate::limits::*;
use crate::problem::Problem;
use crate::random::Random;
use crate::totals::any_fourth;

/// How a made problem's rows lead from state to state.
#[derive(Clone, Copy, Debug, PartialEq, Eq)]
pub enum Shape {
    /// Any state to any state, a few outcomes a row.
    Scattered,
    /// To the next state, and sometimes back to itself or to the start.
    Chain,
    /// To the next state, the last to the first.
    Ring,
    /// To states of the next layer.
    Layered,
    /// To the right or down on a grid, with slips in place and to the left.
    Grid,
    /// Up to 255 outcomes a row.
    Fan,
}

/// All shapes.
pub const SHAPES: [Shape; 6] =
    [Shape::Scattered, Shape::Chain, Shape::Ring, Shape::Layered, Shape::Grid, Shape::Fan];

/// A whole problem of any shape and size, most of them small, some with ties.
pub fn made(random: &mut Random) -> Draft {
    if random.once_in(6) {
        return tied(random);
    }
    let shape = random.pick(&SHAPES);
    let states = any_size(random);
    let mut draft = shaped(random, shape, states);
    estimate(random, &mut draft);
    draft
}

/// A number of states, mostly a few, sometimes as many as there may be.
fn any_size(random: &mut Random) -> usize {
    match random.below(100) {
        0..=64 => 1 + random.below(8),
        65..=89 => 9 + random.below(32),
        90..=98 => 41 + random.below(160),
        _ => 201 + random.below(MAX_STATES - 200),
    }
}

/// A problem of a shape, in any total, all H 0.
pub fn shaped(random: &mut Random, shape: Shape, states: usize) -> Draft {
    let goals = any_goals(random, states);
    let start = (0..).map(|_| random.below(states)).find(|&state| !goals[state]);
    let (start, tolerance) = (start.unwrap_or(0) as u32, any_tolerance(random));
    let mut draft = Draft::new(start, tolerance, any_penalty(random));
    draft = draft.with_fourth(any_fourth(random));
    let barren = random.pick(&[2, 5, 50, 1_000]);
    for (state, &goal) in goals.iter().enumerate() {
        if goal {
            draft.add_goal();
            continue;
        }
        draft.add_state();
        let rows = if random.once_in(barren) { 0 } else { any_row_number(random, states) };
        for _ in 0..rows {
            let successors = any_successors(random, shape, state, states);
            add_any_row(random, &mut draft, &successors);
        }
    }
    draft
}

/// Which states are goals: the last alone, none, some, or all but one. One at least is no goal.
fn any_goals(random: &mut Random, states: usize) -> Vec<bool> {
    let mut goals = vec![false; states];
    let spared = random.below(states);
    match random.below(8) {
        0 => {}
        1..=2 => goals.iter_mut().for_each(|goal| *goal = random.once_in(4)),
        3 if states < 6 => goals.iter_mut().for_each(|goal| *goal = true),
        _ => goals[states - 1] = true,
    }
    if goals.iter().all(|&goal| goal) {
        goals[spared] = false;
    }
    goals
}

/// A tolerance, the ends of its range often.
pub fn any_tolerance(random: &mut Random) -> u32 {
    match random.below(6) {
        0..=2 => 1,
        3 => MAX_TOLERANCE,
        4 => random.between(2, 20),
        _ => random.between(1, MAX_TOLERANCE),
    }
}

/// A penalty, the ends of its range sometimes.
fn any_penalty(random: &mut Random) -> u32 {
    match random.below(16) {
        0 => 1,
        1 => MAX_PENALTY,
        2 => random.between(1, MAX_PENALTY),
        3..=5 => random.between(1, 300),
        6..=9 => random.between(300, 5_000),
        _ => 5_000,
    }
}

/// A number of rows: a few, and as many as a byte can say now and then where states are few.
fn any_row_number(random: &mut Random, states: usize) -> usize {
    match random.below(200) {
        0 if states <= 16 => MAX_IN_BYTE,
        1..=20 => 0,
        21..=80 => 1,
        _ => 2 + random.below(3),
    }
}

/// The successors of a row of a state, repeats among them.
fn any_successors(random: &mut Random, shape: Shape, state: usize, states: usize) -> Vec<u16> {
    let last = states - 1;
    let next = (state + 1).min(last);
    let width = 1 + states.isqrt();
    let list = match shape {
        Shape::Scattered => {
            let outcomes = 1 + random.below(4);
            (0..outcomes).map(|_| random.below(states)).collect()
        }
        Shape::Chain => match random.below(6) {
            0 => vec![next, state],
            1 => vec![state, next],
            2 => vec![0, next, next],
            _ => vec![next],
        },
        Shape::Ring => match random.below(4) {
            0 => vec![(state + 1) % states, last],
            _ => vec![(state + 1) % states],
        },
        Shape::Layered => {
            let layer = (state / width + 1) * width;
            let outcomes = 1 + random.below(3);
            (0..outcomes).map(|_| (layer + random.below(width)).min(last)).collect()
        }
        Shape::Grid => {
            let step = random.pick(&[1, width]);
            vec![(state + step).min(last), state, state.saturating_sub(1)]
        }
        Shape::Fan => {
            let outcomes = 1 + random.pick(&[3, 15, 60, MAX_IN_BYTE - 1]);
            let outcomes = 1 + random.below(outcomes);
            (0..outcomes).map(|_| random.below(states)).collect()
        }
    };
    list.into_iter().map(|successor| successor as u16).collect()
}

/// Adds a row to the last state, with any cost and any weights, where the file has room for it. It has
/// no more outcomes than the total has units, since each weighs at least 1.
pub fn add_any_row(random: &mut Random, draft: &mut Draft, successors: &[u16]) {
    let successors = &successors[..successors.len().min(draft.total() as usize)];
    let outcomes = draft.outcomes.len() + successors.len();
    if draft.rows.len() < MAX_ROWS && outcomes <= MAX_OUTCOMES {
        add_row_to(random, draft, successors);
    }
}

/// Adds a row to the last state, with any cost and any weights.
pub fn add_row_to(random: &mut Random, draft: &mut Draft, successors: &[u16]) {
    let (kind, cost) = any_cost(random);
    let weights = any_weights(random, successors.len(), draft.total());
    let outcomes: Vec<(u16, u16)> = successors.iter().copied().zip(weights).collect();
    draft.add_row(kind, cost, &outcomes);
}

/// A cost of either kind, the ends of its range sometimes.
pub fn any_cost(random: &mut Random) -> (u8, u16) {
    match random.below(24) {
        0 => (KIND_SECONDS, 1),
        1 => (KIND_SECONDS, u16::MAX),
        2 => (KIND_SECONDS, random.between(1, 65_535) as u16),
        3 => (KIND_RATE, MIN_RATE),
        4 => (KIND_RATE, MAX_RATE),
        5..=9 => (KIND_RATE, random.between(10, 1_000) as u16),
        10..=12 => (KIND_SECONDS, random.between(1, 10) as u16),
        _ => (KIND_SECONDS, random.between(1, 600) as u16),
    }
}

/// So many weights that add to a total: nearly even, all 1 but one, or anything.
pub fn any_weights(random: &mut Random, outcomes: usize, total: u32) -> Vec<u16> {
    let total = total as usize;
    let mut weights = vec![1; outcomes];
    let mut rest = total - outcomes;
    match random.below(3) {
        0 => {
            weights.fill(total / outcomes);
            rest = total % outcomes;
        }
        1 => {}
        _ => {
            for weight in &mut weights {
                let share = random.below(rest + 1).min(random.below(total));
                *weight += share;
                rest -= share;
            }
        }
    }
    weights[random.below(outcomes)] += rest;
    weights.into_iter().map(|weight| weight as u16).collect()
}

/// Gives the states low estimates that question 11 lets pass: 0, or below the cheapest row, or what
/// a few sweeps from there reach. A sweep keeps each H at most its row values under H, since values
/// only rise.
pub fn estimate(random: &mut Random, draft: &mut Draft) {
    if random.once_in(2) {
        return;
    }
    let problem = Problem::read(&draft.bytes()).expect("whole");
    let tight = random.once_in(3);
    let mut table = vec![0; draft.states.len()];
    for state in (0..table.len()).filter(|&state| !problem.goals[state]) {
        let most = cheapest(&problem, state);
        table[state] = if tight { most } else { random.between(0, most) };
    }
    for _ in 0..random.pick(&[0, 0, 1, 2, 10]) {
        sweep(&problem, &mut table);
    }
    for (state, estimate) in draft.states.iter_mut().zip(table) {
        state.estimate = estimate;
    }
}

/// The least of 1000 × D and 1000 × c over a state's rows.
fn cheapest(problem: &Problem, state: usize) -> u32 {
    let costs = problem.states[state].rows().map(|row| problem.rows[row].cost);
    costs.fold(problem.give_up_cost, u32::min)
}

/// One Bellman backup of every state that is no goal, later ones seeing earlier changes.
fn sweep(problem: &Problem, table: &mut [u32]) {
    for state in (0..table.len()).filter(|&state| !problem.goals[state]) {
        let values = problem.states[state].rows().map(|row| problem.row_value(row, table));
        table[state] = values.fold(problem.give_up_cost, u32::min);
    }
}

/// A small problem with ties on purpose. Each state lies some seconds from the goal, the start as many
/// as the penalty has, and most rows cost just what they bring nearer. So row after row of the start
/// is worth exactly 1000 × D, at once or when the values behind it have risen. Some rows are dearer,
/// and some are cheap until their value rises.
pub fn tied(random: &mut Random) -> Draft {
    let penalty = random.between(2, 200);
    let goal = 1 + random.below(8);
    let mut seconds: Vec<u32> = (0..goal).map(|_| random.between(1, penalty)).collect();
    seconds[0] = penalty;
    seconds.push(0);
    let mut draft = Draft::new(0, any_tolerance(random), penalty);
    draft = draft.with_fourth(any_fourth(random));
    for state in 0..goal {
        draft.add_state();
        for _ in 0..1 + random.below(4) {
            add_tied_row(random, &mut draft, &seconds, state);
        }
    }
    draft.add_goal();
    estimate(random, &mut draft);
    draft
}

/// Adds a row that brings the last state, which is `state`, just as much nearer to the goal as it
/// costs; or a dearer one; or one that leads back and is cheap until its value rises.
fn add_tied_row(random: &mut Random, draft: &mut Draft, seconds: &[u32], state: usize) {
    let nearer: Vec<usize> =
        (0..seconds.len()).filter(|&other| seconds[other] < seconds[state]).collect();
    let (one, two) = (random.pick(&nearer), random.pick(&nearer));
    let all = draft.total() as u16;
    let half = all / 2;
    let cost = seconds[state] - seconds[one];
    let dearer = cost + random.between(1, 20);
    let mean = (seconds[one] + seconds[two]) / 2;
    let (cost, outcomes) = match random.below(6) {
        0 => (random.between(1, cost), vec![(state, all)]),
        1 => (dearer, vec![(one, all)]),
        2 if (seconds[one] + seconds[two]).is_multiple_of(2) => {
            (seconds[state] - mean, vec![(one, half), (two, half)])
        }
        3 => (cost, vec![(one, half), (one, half)]),
        _ => (cost, vec![(one, all)]),
    };
    let outcomes: Vec<(u16, u16)> =
        outcomes.into_iter().map(|(successor, weight)| (successor as u16, weight)).collect();
    draft.add_row(KIND_SECONDS, cost as u16, &outcomes);
}

#[cfg(test)]
mod tests {
    use super::*;
    use crate::totals::FOURTHS;

    #[test]
    fn made_files_are_whole_in_every_total() {
        let mut random = Random::new(1);
        let mut made_files = [0; FOURTHS.len()];
        for _ in 0..2_000 {
            let draft = made(&mut random);
            let problem = Problem::read(&draft.bytes()).expect("whole");
            let way = FOURTHS.iter().position(|&way| way == draft.settings.get(SETTINGS).copied());
            made_files[way.expect("a way to tell a total")] += 1;
            assert_eq!(problem.total, draft.total());
        }
        assert!(made_files.iter().all(|&count| count >= 200), "{made_files:?}");
    }

    #[test]
    fn weights_add_to_the_total() {
        let mut random = Random::new(3);
        for total in TOTALS {
            for outcomes in 1..=MAX_IN_BYTE.min(total as usize) {
                let weights = any_weights(&mut random, outcomes, total);
                assert!(weights.iter().all(|&weight| weight >= 1));
                assert_eq!(weights.iter().map(|&w| u32::from(w)).sum::<u32>(), total);
            }
        }
    }
}
