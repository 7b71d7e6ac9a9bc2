//! How often a run meets what makes its rounds short: a round that needs no walk, since no pick changed
//! after the last one; a backup whose pick stays with one evaluation, which is the pick's; and a backup
//! of a state that gave up and stays so, with none.
//!
//! The rounds are those of `plain.rs`, but that a round which needs no walk takes the list of the last. What is
//! counted is how often a short way is open on a file, whoever runs it. That the library takes it shows in
//! time alone: it counts neither, and its answers and tables are the same by the long way.

use crate::limits::GIVE_UP;
use crate::plain::{back_up, first_tables, walk, Ties};
use crate::problem::Problem;
use crate::solver::OwnedTables;

/// What a run met.
#[derive(Clone, Copy, Debug, Default, PartialEq, Eq)]
pub struct ShortWays {
    pub rounds: u64,
    /// Of these, rounds before which no pick changed since the last walk.
    pub without_walk: u64,
    pub backups: u64,
    /// Of these, backups with exactly one evaluation whose pick stays.
    pub with_one: u64,
    /// Of these, backups with no evaluation, of states that gave up before and still do.
    pub given_up: u64,
    pub evaluations: u64,
}

impl ShortWays {
    /// The plain run on a problem: what it met, and the tables as it left them.
    pub fn of_run(problem: &Problem, budget: u64) -> (ShortWays, OwnedTables) {
        let (mut ways, mut tables) = (ShortWays::default(), first_tables(problem));
        let (mut list, mut turned, mut quiet) = (Vec::new(), true, false);
        while ways.rounds < budget && !quiet {
            match turned {
                true => list = walk(problem, &tables.picks),
                false => ways.without_walk += 1,
            }
            (turned, quiet) = ways.back_up_list(problem, &mut tables, &list);
            ways.rounds += 1;
        }
        tables.walk.iter_mut().zip(&list).for_each(|(entry, &state)| *entry = state as u16);
        (ways, tables)
    }

    /// Backs up the states of a list. Says whether a pick changed, and whether the round was quiet.
    fn back_up_list(
        &mut self,
        problem: &Problem,
        tables: &mut OwnedTables,
        list: &[usize],
    ) -> (bool, bool) {
        let (mut turned, mut quiet) = (false, true);
        for &state in list {
            let before = tables.picks[state];
            let ties = &mut Ties::default();
            let (made, same) = back_up(problem, problem.tolerance, tables, ties, state);
            let stays = tables.picks[state] == before;
            self.backups += 1;
            self.evaluations += made;
            self.with_one += u64::from(stays && made == 1);
            self.given_up += u64::from(stays && made == 0 && before == GIVE_UP);
            turned |= !stays;
            quiet &= same;
        }
        (turned, quiet)
    }

    /// Adds what another run met.
    pub fn add(&mut self, other: ShortWays) {
        self.rounds += other.rounds;
        self.without_walk += other.without_walk;
        self.backups += other.backups;
        self.with_one += other.with_one;
        self.given_up += other.given_up;
        self.evaluations += other.evaluations;
    }

    /// The share of rounds without a walk, in hundredths.
    pub fn percent_without_walk(&self) -> u64 {
        100 * self.without_walk / self.rounds.max(1)
    }

    /// The share of backups with one evaluation whose pick stays, in hundredths.
    pub fn percent_with_one(&self) -> u64 {
        100 * self.with_one / self.backups.max(1)
    }
}

#[cfg(test)]
mod tests {
    use super::*;
    use crate::encode::Draft;
    use crate::examples::{file_p, one_state};
    use crate::loads::{all_loads, files_by_rule, BY_RULE};
    use crate::made::made;
    use crate::random::Random;
    use crate::solver::{solve, Answer};

    /// The seed and the number of files of each load.
    const DRAWN: [u64; 2] = [1, 5];
    /// The rounds of a run.
    const BUDGET: u64 = 10_000;
    /// How many hundredths of the rounds of each load, at a size, need no walk at least, how many of the
    /// backups have one evaluation, and how many backups in all are of states that stay given up.
    const LEAST: [(usize, &str, [u64; 3]); 14] = [
        (16, "two rows, two outcomes", [60, 85, 0]),
        (16, "layered", [7, 50, 0]),
        (16, "grid with slips", [80, 85, 40]),
        (16, "many outcomes", [92, 88, 0]),
        (16, "spread-out costs", [70, 90, 0]),
        (16, "mesh", [43, 62, 0]),
        (16, BY_RULE, [47, 53, 5]),
        (256, "two rows, two outcomes", [30, 63, 1_200]),
        (256, "layered", [2, 54, 0]),
        (256, "grid with slips", [15, 25, 150]),
        (256, "many outcomes", [3, 14, 1_200]),
        (256, "spread-out costs", [30, 75, 0]),
        (256, "mesh", [2, 50, 0]),
        (256, BY_RULE, [33, 70, 650]),
    ];

    /// The files of the load with a name.
    fn files(name: &str, states: usize) -> Vec<Vec<u8>> {
        match all_loads().find(|load| load.name == name) {
            Some(load) => load.files(states, None, DRAWN),
            None => files_by_rule(states, DRAWN),
        }
    }

    /// What the plain run on a problem met, held against the tuned solver's counts and tables.
    fn held(problem: &Problem, budget: u64) -> ShortWays {
        let (ways, tables) = ShortWays::of_run(problem, budget);
        let mut asked = OwnedTables::new(problem);
        let (Answer::Solved { rounds, evaluations, .. } | Answer::Spent { rounds, evaluations }) =
            solve(problem, budget, asked.lend()).answer
        else {
            panic!("the tables are long enough and the budget is within its limit");
        };
        assert_eq!([ways.rounds, ways.evaluations], [rounds, evaluations]);
        assert_eq!(tables, asked);
        ways
    }

    #[test]
    fn the_counting_run_is_the_run_of_the_solver() {
        let mut random = Random::new(18);
        for _ in 0..300 {
            let problem = Problem::read(&made(&mut random).bytes()).expect("whole");
            for budget in [0, 1, 2, 3, 7, 400] {
                held(&problem, budget);
            }
        }
    }

    #[test]
    fn short_ways_are_open_on_every_load() {
        let loads = all_loads().map(|load| load.name).chain([BY_RULE]);
        assert!(loads.eq(LEAST[..7].iter().map(|&(_, name, _)| name)));
        for (states, name, least) in LEAST {
            let mut all = ShortWays::default();
            for file in files(name, states) {
                all.add(held(&Problem::read(&file).expect("whole"), BUDGET));
            }
            let met = [all.percent_without_walk(), all.percent_with_one(), all.given_up];
            let enough = met.iter().zip(least).all(|(&met, least)| met >= least);
            assert!(enough, "{states} states, {name}: {met:?} of {all:?}");
        }
    }

    /// P: the first round settles the start's pick, the second that of state 1, and so each needs a walk
    /// after it. The start's pick stays in the second, both in the third. Then one state with no rows, which
    /// gives up in the first round and stays so in the second.
    #[test]
    fn the_short_ways_of_the_examples_are_these() {
        let of = |draft: Draft| held(&Problem::read(&draft.bytes()).expect("whole"), BUDGET);
        let none = ShortWays::default();
        let asked = ShortWays { rounds: 3, backups: 5, with_one: 3, evaluations: 5, ..none };
        assert_eq!(of(file_p()), asked);
        assert_eq!(of(one_state()), ShortWays { rounds: 2, backups: 2, given_up: 1, ..none });
    }
}
