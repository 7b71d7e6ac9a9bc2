//! E8, finish to the tick: what is said of every finishing run that ends solved, in Rust, and files on
//! which it shows.

use crate::audit::{pick_of, Pick};
use crate::encode::Draft;
use crate::limits::*;
use crate::problem::Problem;
use crate::random::Random;
use crate::solver::OwnedTables;
use crate::totals::Fourth;

/// The states of a table's last walk, in its order.
fn walked<'a>(problem: &Problem, tables: &'a OwnedTables) -> impl Iterator<Item = usize> + 'a {
    let walk = &tables.walk[..problem.states.len()];
    walk.iter().take_while(|&&state| state != GIVE_UP).map(|&state| usize::from(state))
}

/// "Then the value at every walked state is exactly the pick's row value, or 1000 × D": the entries of the
/// last walk at which it is not, or which are no states.
pub fn inexact_states(problem: &Problem, tables: &OwnedTables) -> Vec<usize> {
    let OwnedTables { values, picks, .. } = tables;
    let is_exact = |state: usize| match pick_of(problem, picks, state) {
        Pick::Row(row) => values[state] == problem.row_value(row, values),
        Pick::GiveUp => values[state] == problem.give_up_cost,
        Pick::Neither => false,
    };
    let states = problem.states.len();
    walked(problem, tables).filter(|&state| state >= states || !is_exact(state)).collect()
}

/// The walked states that give up.
pub fn giving_up(problem: &Problem, tables: &OwnedTables) -> Vec<usize> {
    walked(problem, tables).filter(|&state| tables.picks[state] == GIVE_UP).collect()
}

/// "It ends within (B + 1) × (n + 1) + 1 rounds, B being the allowance computed with e = 1": the sum over
/// the n states that aren't goals of 1000 × D − H.
pub fn most_rounds(problem: &Problem) -> u64 {
    let open = (0..problem.states.len()).filter(|&state| !problem.goals[state]);
    let rise = |state: usize| u64::from(problem.give_up_cost - problem.estimates[state]);
    let (number, allowance) =
        open.fold((0, 0), |(number, sum), state| (number + 1, sum + rise(state)));
    (allowance + 1) * (number + 1) + 1
}

/// A file that passes, with another tolerance in its bytes: "under 1" is the file with 1 there.
pub fn with_tolerance(file: &[u8], tolerance: u32) -> Vec<u8> {
    let at = COUNT_BYTES + SETTING_BYTES;
    let mut other = file.to_vec();
    other[at..at + SETTING_BYTES].copy_from_slice(&tolerance.to_le_bytes());
    other
}

/// State 0 with one row of a second, which leads back to it at a weight and else to the goal.
pub fn slipping(tolerance: u32, back: u16) -> Draft {
    let mut draft = Draft::new(0, tolerance, 5_000);
    draft.add_state();
    draft.add_row(KIND_SECONDS, 1, &[(0, back), (1, USUAL_TOTAL as u16 - back)]);
    draft.add_goal();
    draft
}

/// A file whose tolerance is coarse: the plain run leaves 1,443 ticks at its start, and the finishing run
/// 1,498.
pub fn coarse() -> Draft {
    slipping(100, 333)
}

/// A file whose second part often changes the start's pick and the walk. Its first row leads back to it,
/// and comes tick by tick to a value that the tolerance lets it end under; its second row leads to another
/// state, and is worth something between.
pub fn wavering(random: &mut Random, fourth: Fourth) -> Draft {
    let tolerance = random.between(2, MAX_TOLERANCE);
    let mut draft = Draft::new(0, tolerance, 5_000).with_fourth(fourth);
    let total = draft.total();
    let back = random.between(total / 2, total * 9 / 10);
    let whole = TICKS * total / (total - back);
    let between = whole - random.between(1, tolerance.min(whole - TICKS));
    let (seconds, rest) = (between / TICKS, between % TICKS);
    let on = (rest * total / TICKS).clamp(1, total - 1);
    draft.add_state();
    draft.add_row(KIND_SECONDS, 1, &[(0, back as u16), (2, (total - back) as u16)]);
    draft.add_row(KIND_SECONDS, seconds as u16, &[(1, on as u16), (2, (total - on) as u16)]);
    draft.add_state();
    draft.add_row(KIND_SECONDS, 1, &[(2, total as u16)]);
    draft.add_goal();
    draft
}

/// A chain whose finishing run takes all the rounds that it may. No estimate can rise, so that a round
/// which is not quiet settles a pick: each state's row is worth just 1000 × D, and the walk comes to
/// another state a round. The last state has no row and gives up.
pub fn settling_chain(tolerance: u32, states: u16, fourth: Fourth) -> Draft {
    let penalty = 2;
    let mut draft = Draft::new(0, tolerance, penalty).with_fourth(fourth);
    let (goal, half) = (states, (draft.total() / 2) as u16);
    for state in 0..states {
        draft.add_state();
        if state + 1 < states {
            draft.add_row(KIND_SECONDS, 1, &[(state + 1, half), (goal, half)]);
        }
    }
    draft.states.iter_mut().for_each(|state| state.estimate = TICKS * penalty);
    draft.add_goal();
    draft
}

#[cfg(test)]
mod tests {
    use super::*;
    use crate::audit::{audit_file, Verdict};
    use crate::made::made;
    use crate::solver::{run, Answer, Kind, KINDS};
    use crate::totals::FOURTHS;

    /// A run of a kind on a problem, and its tables.
    fn run_within(kind: Kind, problem: &Problem, budget: u64) -> (Answer, OwnedTables) {
        let mut tables = OwnedTables::new(problem);
        (run(kind, problem, budget, tables.lend()).answer, tables)
    }

    /// Whether a run is solved, and after so many rounds.
    fn is_solved_after(answer: Answer, asked: u64) -> bool {
        matches!(answer, Answer::Solved { rounds, .. } if rounds == asked)
    }

    #[test]
    fn a_plain_value_is_seen_to_be_inexact() {
        let problem = Problem::read(&coarse().bytes()).expect("whole");
        let inexact = |kind| inexact_states(&problem, &run_within(kind, &problem, PLAN_ROUNDS).1);
        assert_eq!(inexact(Kind::Plain), [0]);
        assert!(inexact(Kind::Finishing).is_empty());
    }

    #[test]
    fn a_tolerance_is_changed_alone() {
        for fourth in FOURTHS {
            let draft = |tolerance| settling_chain(tolerance, 3, fourth).bytes();
            assert_eq!(with_tolerance(&draft(999), 1), draft(1));
            assert_eq!(with_tolerance(&draft(1), 256), draft(256));
        }
    }

    #[test]
    fn a_settling_chain_takes_all_its_rounds() {
        for fourth in FOURTHS {
            for states in 1..30 {
                let file = settling_chain(100, states, fourth).bytes();
                let problem = Problem::read(&file).expect("whole");
                let most = most_rounds(&problem);
                assert_eq!(most, u64::from(states) + 2);
                let after = |budget| run_within(Kind::Finishing, &problem, budget).0;
                assert!(is_solved_after(after(most), most), "{fourth:?}, {states}");
                assert!(matches!(after(most - 1), Answer::Spent { .. }));
            }
        }
    }

    #[test]
    fn a_wavering_pick_is_changed_often_by_the_second_part() {
        let mut random = Random::new(17);
        for fourth in FOURTHS {
            let mut changed = 0;
            for _ in 0..100 {
                let problem = Problem::read(&wavering(&mut random, fourth).bytes()).expect("whole");
                let [plain, whole] = KINDS.map(|kind| run_within(kind, &problem, PLAN_ROUNDS).1);
                changed += u32::from(plain.picks != whole.picks && plain.walk != whole.walk);
            }
            assert!(changed >= 20, "{fourth:?}: {changed}");
        }
    }

    /// P's allowance with e = 1 is twice 5,000,000.
    #[test]
    fn the_rounds_of_p_are_bounded() {
        let problem = Problem::read(&crate::examples::file_p().bytes()).expect("whole");
        assert_eq!(most_rounds(&problem), 10_000_001 * 3 + 1);
    }

    /// E8 whole, of the solver written apart: exact, accepted under both tolerances with the run's C, and
    /// within the bound.
    #[test]
    fn finished_runs_are_exact_and_accepted() {
        let mut random = Random::new(16);
        let mut solved = 0;
        for _ in 0..500 {
            let mut draft = made(&mut random);
            draft.settings[1] = random.between(1, MAX_TOLERANCE);
            let file = draft.bytes();
            let problem = Problem::read(&file).expect("whole");
            let (answer, tables) = run_within(Kind::Finishing, &problem, 2_000);
            let Answer::Solved { rounds, least_cost, .. } = answer else {
                continue;
            };
            solved += 1;
            assert!(rounds <= most_rounds(&problem));
            assert!(inexact_states(&problem, &tables).is_empty());
            for file in [&file, &with_tolerance(&file, FINISHING_TOLERANCE)] {
                let verdict = audit_file(file, &tables.values, &tables.picks);
                assert_eq!(verdict, Verdict::Accepted { least_cost });
            }
        }
        assert!(solved > 400, "{solved}");
    }
}
