//! Made-up loads for the benchmarks: problems of a given number of states whose last state is the
//! goal, e 1, D 5,000, all H 0.

use crate::encode::Draft;
use crate::limits::{IN_FORCE, KIND_SECONDS, OLD, USUAL_TOTAL};
use crate::random::Random;
use crate::totals::Fourth;

/// The penalty of every load, in seconds.
const PENALTY: u32 = 5_000;
/// The dearest row of the first loads and of E11's, in seconds.
const DEAREST: u32 = 600;
/// The dearest row of a mesh, in seconds.
const DEAREST_STEP: u32 = 60;
/// What the rows of a state cost at least, in seconds, where costs are spread out: far apart, as at several
/// melt rates of one stick.
const SPREAD: [u32; 4] = [0, 40, 150, 500];
/// What comes to it, at most.
const SPREAD_MOST: u32 = 20;
/// Rows that each state of the first loads and of E11's has.
const ROWS: usize = 2;

/// A load's name, the rows of a state, and how one of them finds its successors and its cost.
pub struct Load {
    pub name: &'static str,
    rows: usize,
    successors: fn(&mut Random, Place) -> Vec<usize>,
    cost: fn(&mut Random, Place) -> u32,
}

/// Where a row stands: its number among the rows of its state, the state, and how many states there are.
#[derive(Clone, Copy)]
struct Place {
    row: usize,
    state: usize,
    states: usize,
}

/// The first loads of the benchmark.
pub const LOADS: [Load; 4] = [
    Load { name: "two rows, two outcomes", rows: ROWS, successors: scattered, cost: any_cost },
    Load { name: "layered", rows: ROWS, successors: layered, cost: any_cost },
    Load { name: "grid with slips", rows: ROWS, successors: grid, cost: any_cost },
    Load { name: "many outcomes", rows: ROWS, successors: many, cost: any_cost },
];

/// The loads with four rows a state, as many as the limits have room for at 1,024 states and at 2,048. A mesh
/// takes many short rounds: some 2,000 at 256 states, 10,000 at 1,024, and more at 2,048.
pub const LOADS_OF_FOUR_ROWS: [Load; 2] = [
    Load { name: "spread-out costs", rows: 4, successors: scattered, cost: spread_out },
    Load { name: "mesh", rows: 4, successors: mesh, cost: of_step },
];

/// All of them.
pub fn all_loads() -> impl Iterator<Item = &'static Load> {
    LOADS.iter().chain(&LOADS_OF_FOUR_ROWS)
}

impl Load {
    /// The load's file for a number of states and a way to tell the total.
    pub fn file(&self, random: &mut Random, states: usize, fourth: Fourth) -> Vec<u8> {
        self.draft(random, states, fourth).bytes()
    }

    /// So many of its files, those of a seed.
    pub fn files(&self, states: usize, fourth: Fourth, [seed, files]: [u64; 2]) -> Vec<Vec<u8>> {
        let file = |number| self.file(&mut Random::of_file(seed, number), states, fourth);
        (0..files).map(file).collect()
    }

    /// The draft behind one.
    pub fn draft(&self, random: &mut Random, states: usize, fourth: Fourth) -> Draft {
        let mut draft = Draft::new(0, 1, PENALTY).with_fourth(fourth);
        let total = draft.total() as usize;
        for state in 0..states - 1 {
            draft.add_state();
            for row in 0..self.rows {
                let place = Place { row, state, states };
                let successors = (self.successors)(random, place);
                let cost = (self.cost)(random, place) as u16;
                draft.add_row(KIND_SECONDS, cost, &weighted(random, &successors, total));
            }
        }
        draft.add_goal();
        draft
    }
}

/// Successors with weights that add to a total, each within what an even share leaves.
fn weighted(random: &mut Random, successors: &[usize], total: usize) -> Vec<(u16, u16)> {
    let mut rest = total;
    let mut outcomes = Vec::new();
    for (at, &successor) in successors.iter().enumerate() {
        let left = successors.len() - at;
        let weight = if left == 1 { rest } else { 1 + random.below((rest - left) * 2 / left) };
        rest -= weight;
        outcomes.push((successor as u16, weight as u16));
    }
    outcomes
}

/// Two successors among all states.
fn scattered(random: &mut Random, Place { states, .. }: Place) -> Vec<usize> {
    vec![random.below(states), random.below(states)]
}

/// Two successors in the next layer; layers are about as wide as they are many.
fn layered(random: &mut Random, Place { state, states, .. }: Place) -> Vec<usize> {
    let width = states.isqrt();
    let next = (state / width + 1) * width;
    (0..2).map(|_| (next + random.below(width)).min(states - 1)).collect()
}

/// Right or down on a square grid, with a slip in place and one to the left.
fn grid(random: &mut Random, Place { state, states, .. }: Place) -> Vec<usize> {
    let step = random.pick(&[1, states.isqrt()]);
    vec![(state + step).min(states - 1), state, state.saturating_sub(1)]
}

/// As many successors as the file has room for, at most 32. A load within the old states keeps to the old
/// outcomes, and so is what it was before E9.
fn many(random: &mut Random, Place { states, .. }: Place) -> Vec<usize> {
    let limits = if states <= OLD.states { OLD } else { IN_FORCE };
    let outcomes = (limits.outcomes / (ROWS * states)).min(32);
    (0..outcomes).map(|_| random.below(states)).collect()
}

/// A step on a square mesh, right, left, down or up by the row's number, with a slip in place. A step off
/// the mesh stays in place too.
fn mesh(_: &mut Random, Place { row, state, states }: Place) -> Vec<usize> {
    let width = states.isqrt();
    let column = state % width;
    let step = match row {
        0 if column + 1 < width => state + 1,
        1 if column > 0 => state - 1,
        2 => state + width,
        3 if state >= width => state - width,
        _ => state,
    };
    vec![if step < states { step } else { state }, state]
}

/// Up to the dearest row's seconds.
fn any_cost(random: &mut Random, _: Place) -> u32 {
    random.between(1, DEAREST)
}

/// Seconds that lie far from those of the state's other rows.
fn spread_out(random: &mut Random, Place { row, .. }: Place) -> u32 {
    SPREAD[row] + random.between(1, SPREAD_MOST)
}

/// Up to a minute.
fn of_step(random: &mut Random, _: Place) -> u32 {
    random.between(1, DEAREST_STEP)
}

/// The name of the load that E11 tells.
pub const BY_RULE: &str = "by E11's rule";

/// E11: "The generator steps a 32-bit x to (1,664,525 × x + 1,013,904,223) modulo 2^32".
struct Draws(u32);

impl Draws {
    /// "A draw below m steps and takes x × m / 2^32 rounded down."
    fn below(&mut self, limit: u32) -> u32 {
        self.0 = self.0.wrapping_mul(1_664_525).wrapping_add(1_013_904_223);
        ((u64::from(self.0) * u64::from(limit)) >> 32) as u32
    }
}

/// E11's problem of a starting number: "For N states, 2 to 1,024, state N − 1 is the only goal; settings
/// have count 3; the start is 0, H 0, e 1, D 5,000. Each other state has two rows. States are filled in
/// rising order, and a row draws in order: cost 1 + draw below 600, of kind 0, first successor below N,
/// first weight 1 + draw below 999, second successor below N; the second weight makes 1,000."
pub fn by_rule(states: usize, starting: u32) -> Draft {
    let (mut draws, total) = (Draws(starting), USUAL_TOTAL as u16);
    let mut draft = Draft::new(0, 1, PENALTY);
    for _ in 0..states - 1 {
        draft.add_state();
        for _ in 0..ROWS {
            let cost = 1 + draws.below(DEAREST) as u16;
            let first = draws.below(states as u32) as u16;
            let weight = 1 + draws.below(USUAL_TOTAL - 1) as u16;
            let second = draws.below(states as u32) as u16;
            draft.add_row(KIND_SECONDS, cost, &[(first, weight), (second, total - weight)]);
        }
    }
    draft.add_goal();
    draft
}

/// So many files of E11's rule, from a starting number on.
pub fn files_by_rule(states: usize, [starting, files]: [u64; 2]) -> Vec<Vec<u8>> {
    (starting..starting + files).map(|number| by_rule(states, number as u32).bytes()).collect()
}

#[cfg(test)]
mod tests {
    use super::*;
    use crate::problem::Problem;
    use crate::totals::FOURTHS;

    #[test]
    fn loads_are_whole() {
        let mut random = Random::new(4);
        for (load, fourth) in all_loads().flat_map(|load| FOURTHS.map(|fourth| (load, fourth))) {
            for states in [16, 64, 256, OLD.states, IN_FORCE.states] {
                let file = load.file(&mut random, states, fourth);
                let problem = Problem::read(&file);
                let rows = problem.map(|problem| problem.rows.len());
                assert_eq!(rows, Ok(load.rows * (states - 1)), "{}, {fourth:?}", load.name);
            }
        }
    }

    /// "Every made file is accepted".
    #[test]
    fn files_by_rule_are_whole() {
        for states in [2, 3, 16, 64, 256, 1_023, OLD.states] {
            for starting in [0, 1, 2, 3, u32::MAX] {
                assert!(Problem::read(&by_rule(states, starting).bytes()).is_ok());
            }
        }
    }

    /// From 1, x becomes 1,015,568,748, 1,586,005,467, 2,165,703,038 and 3,027,450,565, in 2^32 parts 0.2364,
    /// 0.3692, 0.5042 and 0.7048; then 217,083,232, 1,587,069,247, 3,327,581,586 and 2,388,811,721, which are
    /// 0.0505, 0.3695, 0.7747 and 0.5561.
    #[test]
    fn two_states_by_rule_are_those_drawn_by_hand() {
        let mut asked = Draft::new(0, 1, 5_000);
        asked.add_state();
        asked.add_row(KIND_SECONDS, 142, &[(0, 504), (1, 496)]);
        asked.add_row(KIND_SECONDS, 31, &[(0, 774), (1, 226)]);
        asked.add_goal();
        assert_eq!(by_rule(2, 1).bytes(), asked.bytes());
        assert_eq!(files_by_rule(2, [1, 3])[0], asked.bytes());
        assert_ne!(files_by_rule(2, [1, 3])[1], asked.bytes());
    }

    /// The middle of three by three leads to all four sides; the first corner has two of them.
    #[test]
    fn a_mesh_leads_to_its_sides() {
        let step = |state, row| mesh(&mut Random::new(1), Place { row, state, states: 9 });
        assert_eq!([0, 1, 2, 3].map(|row| step(4, row)[0]), [5, 3, 7, 1]);
        assert_eq!([0, 1, 2, 3].map(|row| step(0, row)[0]), [1, 0, 3, 0]);
        assert_eq!([0, 1, 2, 3].map(|row| step(5, row)[0]), [5, 4, 8, 2]);
        assert_eq!([0, 1, 2, 3].map(|row| step(7, row)[0]), [8, 6, 7, 4]);
        assert!((0..4).all(|row| step(4, row)[1] == 4));
    }
}
