//! Made-up problem files at the ends of what there can be: at the limits, with the deepest walk, with the
//! longest lines, and with runs that go on past the rounds of `plan`.

use crate::encode::{share, Draft};
use crate::limits::*;
use crate::made::{add_row_to, any_tolerance};
use crate::random::Random;
use crate::totals::{settings_of, Fourth};

/// A file with just so many states, rows and outcomes, the rows spread over the states, and the outcomes
/// over the rows, each as evenly as it goes; and a row added by what is given with the state's number and
/// the number of its outcomes. It may end with a goal, which has no rows.
fn laid_out(
    mut draft: Draft,
    counts: Counts,
    with_goal: bool,
    mut add_row: impl FnMut(&mut Draft, u16, usize),
) -> Draft {
    let others = counts.states - usize::from(with_goal);
    for state in 0..others {
        draft.add_state();
        for row in share(counts.rows, others, state) {
            let outcomes = share(counts.outcomes, counts.rows, row).len();
            add_row(&mut draft, state as u16, outcomes);
        }
    }
    if with_goal {
        draft.add_goal();
    }
    draft
}

/// A successor of a state: mostly one of the next, so that a goal at the end is not too far, or any state.
fn any_successor(random: &mut Random, state: u16, states: usize) -> u16 {
    let next = usize::from(state) + 1 + random.below(states.div_ceil(8));
    let any = random.below(states);
    random.pick(&[next, next, next, any]).min(states - 1) as u16
}

/// A file with just so many states, rows and outcomes, which lead mostly onwards. Where the counts are above
/// the limits it is whole in all else.
pub fn sized(
    random: &mut Random,
    counts: Counts,
    with_goal: bool,
    penalty: u32,
    fourth: Fourth,
) -> Draft {
    let draft = Draft::new(0, any_tolerance(random), penalty).with_fourth(fourth);
    laid_out(draft, counts, with_goal, |draft, state, outcomes| {
        let successor = |_| any_successor(random, state, counts.states);
        let successors: Vec<u16> = (0..outcomes).map(successor).collect();
        add_row_to(random, draft, &successors);
    })
}

/// A file at all three limits, two outcomes to a row.
pub fn at_limits(random: &mut Random, with_goal: bool, penalty: u32, fourth: Fourth) -> Draft {
    sized(random, IN_FORCE, with_goal, penalty, fourth)
}

/// A file with just so many bytes, an even number.
pub fn of_length(
    random: &mut Random,
    bytes: usize,
    with_goal: bool,
    penalty: u32,
    fourth: Fourth,
) -> Draft {
    sized(random, Counts::filling(bytes, settings_of(fourth)), with_goal, penalty, fourth)
}

/// A file at or around the limits, those of before E9 or those in force, within the latter.
pub fn about_limits(random: &mut Random, with_goal: bool, penalty: u32, fourth: Fourth) -> Draft {
    let mut around = [OLD.around(), IN_FORCE.around()].concat();
    around.retain(|counts| counts.beyond(&IN_FORCE).is_none());
    let counts = random.pick(&around);
    sized(random, counts, with_goal, penalty, fourth)
}

/// Lengths of files that are longer than what `plan` holds: just so, between, and the longest.
pub fn lengths_above(fourth: Fourth) -> [usize; 6] {
    let longest = IN_FORCE.bytes(settings_of(fourth));
    [PLAN_HOLDS + 2, PLAN_HOLDS + 4, 80_000, 100_000, longest - OUTCOME_BYTES, longest]
}

/// A chain on which the walk goes as deep as it gets: state after state, each reached by the last
/// outcome of the row before, whose other outcomes all lead to marked states. Ends in a goal, or in
/// a state without rows. A row has so many outcomes, or as many as the total has units.
pub fn deep_chain(
    random: &mut Random,
    states: usize,
    outcomes: usize,
    with_goal: bool,
    fourth: Fourth,
) -> Draft {
    let mut draft = Draft::new(0, any_tolerance(random), MAX_PENALTY).with_fourth(fourth);
    let outcomes = outcomes.min(draft.total() as usize);
    let back_weight = 1;
    let on_weight = draft.total() as u16 - back_weight * (outcomes as u16 - 1);
    for state in 0..states - 1 {
        draft.add_state();
        let mut row = vec![(state as u16, back_weight); outcomes];
        row[outcomes - 1] = (state as u16 + 1, on_weight);
        draft.add_row(KIND_SECONDS, random.between(1, 30) as u16, &row);
    }
    if with_goal {
        draft.add_goal();
    } else {
        draft.add_state();
    }
    draft
}

/// A chain with just so many states, rows and outcomes, each state reached by the last outcome of the rows
/// before, and the other outcomes leading back. Ends in a goal.
fn chain(counts: Counts, fourth: Fourth) -> Draft {
    let draft = Draft::new(0, 1, MAX_PENALTY).with_fourth(fourth);
    let all = draft.total() as u16;
    laid_out(draft, counts, true, |draft, state, outcomes| {
        let cost = 1 + u16::from(draft.states[usize::from(state)].rows);
        let mut row = vec![(state, 1); outcomes];
        row[outcomes - 1] = (state + 1, all - (outcomes as u16 - 1));
        draft.add_row(KIND_SECONDS, cost, &row);
    })
}

/// A chain at all three limits: the deepest walk in the largest file.
pub fn deepest(fourth: Fourth) -> Draft {
    chain(IN_FORCE, fourth)
}

/// A chain of as many bytes as `plan` holds: the deepest walk in the longest file that it takes.
pub fn deepest_held(fourth: Fourth) -> Draft {
    chain(Counts::filling(PLAN_HOLDS, settings_of(fourth)), fourth)
}

/// A file with the longest lines of `plan`: a chain as deep as it gets, in which every value has nine
/// digits, and all rows but those of the first states four. The rows above the last state lead back
/// with one unit of weight, so that most of them have a remainder.
pub fn long_lines(fourth: Fourth) -> Draft {
    let mut draft = Draft::new(0, 1, MAX_PENALTY).with_fourth(fourth);
    let all = draft.total() as u16;
    let last = MAX_STATES as u16 - 2;
    for state in 0..last {
        draft.add_state();
        let dear_rows = if state < 4 { MAX_IN_BYTE - 1 } else { 0 };
        (0..dear_rows).for_each(|_| draft.add_row(KIND_SECONDS, u16::MAX, &[(state, all)]));
        draft.add_row(KIND_SECONDS, 7, &[(state, 1), (state + 1, all - 1)]);
    }
    draft.add_state();
    draft.add_row(KIND_SECONDS, u16::MAX, &[(last, all / 2), (last + 1, all - all / 2)]);
    draft.add_goal();
    draft
}

/// E10: a file whose run evaluates the largest row value that there is: the row of the start, 65,535 s, leads
/// to a state without rows, which gives up.
pub fn dearest_row(fourth: Fourth) -> Draft {
    let mut draft = Draft::new(0, 1, MAX_PENALTY).with_fourth(fourth);
    let all = draft.total() as u16;
    draft.add_state();
    draft.add_row(KIND_SECONDS, u16::MAX, &[(1, all)]);
    draft.add_state();
    draft
}

/// Adds states, from state 0 on, which lead back to it but for a chance to go on, and go on from the
/// last of them about once in so many moves. Gives the next state's number.
fn add_loop(draft: &mut Draft, once_in: u32) -> u16 {
    let all = draft.total();
    let (mut state, mut left) = (0, once_in);
    while left > 1 {
        // One unit of weight goes on, or at the last state as many as are asked for.
        let on = (all / left).max(1);
        left = left * on / all;
        state += 1;
        draft.add_state();
        draft.add_row(KIND_SECONDS, 1, &[(0, (all - on) as u16), (state, on as u16)]);
    }
    state
}

/// A file whose run is still going after 1,000,000 rounds: a loop that is left about once in
/// 200,000 moves, at one second a move.
pub fn endless(fourth: Fourth) -> Draft {
    let mut draft = Draft::new(0, 1, MAX_PENALTY).with_fourth(fourth);
    add_loop(&mut draft, 200_000);
    draft.add_goal();
    draft
}

/// A file whose run is still going after 1,000,000 rounds and whose walk lists a dozen states: a loop
/// as above, left through one of ten states, each with a cost and a chance of its own.
pub fn endless_fan(random: &mut Random, fourth: Fourth) -> Draft {
    let mut draft = Draft::new(0, 1, MAX_PENALTY).with_fourth(fourth);
    let all = draft.total();
    let fan = add_loop(&mut draft, 1_000);
    let goal = fan + 11;
    let each = all / 100;
    let outcomes: Vec<(u16, u16)> = (fan + 1..goal).map(|state| (state, each as u16)).collect();
    draft.add_state();
    draft.add_row(KIND_SECONDS, 1, &[&[(0, (all - 10 * each) as u16)], &outcomes[..]].concat());
    for _ in fan + 1..goal {
        let (cost, on) = (random.between(1, 600) as u16, random.between(4 * each, 6 * each));
        draft.add_state();
        draft.add_row(KIND_SECONDS, cost, &[(0, (all - on) as u16), (goal, on as u16)]);
    }
    draft.add_goal();
    draft
}

#[cfg(test)]
mod tests {
    use super::*;
    use crate::encode::OutcomeItem;
    use crate::listing::{plan_lines, planned_at_any_length};
    use crate::problem::Problem;
    use crate::solver::Kind;
    use crate::totals::{total_of, FOURTHS};

    /// The counts of a file that passes.
    fn counts_of(file: &[u8]) -> Counts {
        Problem::read(file).expect("whole").counts()
    }

    #[test]
    fn files_are_as_large_as_they_are_asked_for() {
        let mut random = Random::new(2);
        for (with_goal, fourth) in FOURTHS.into_iter().flat_map(|f| [(false, f), (true, f)]) {
            let limits = at_limits(&mut random, with_goal, 5_000, fourth);
            assert_eq!(counts_of(&limits.bytes()), IN_FORCE);
            for counts in OLD.around() {
                let file = sized(&mut random, counts, with_goal, 5_000, fourth).bytes();
                assert_eq!(counts_of(&file), counts);
            }
            for bytes in [PLAN_HOLDS - 2, PLAN_HOLDS].into_iter().chain(lengths_above(fourth)) {
                let file = of_length(&mut random, bytes, with_goal, 5_000, fourth).bytes();
                assert_eq!(file.len(), bytes);
                assert!(Problem::read(&file).is_ok());
            }
            let chain = deep_chain(&mut random, MAX_STATES, 8, with_goal, fourth);
            assert!(Problem::read(&chain.bytes()).is_ok());
        }
    }

    /// Each state but the goal is walked to.
    #[test]
    fn the_deepest_files_are_as_large_as_they_may_be() {
        for fourth in FOURTHS {
            let files = [deepest(fourth), deepest_held(fourth)].map(|draft| draft.bytes());
            assert_eq!(counts_of(&files[0]), IN_FORCE);
            assert_eq!(files[1].len(), PLAN_HOLDS);
            for file in files {
                let lines = planned_at_any_length(Kind::Plain, &file).lines;
                assert_eq!(lines.lines().count(), MAX_STATES);
            }
        }
    }

    /// A value of nine digits, a row of four, and where W is 10,000 a remainder of four. From the middle on
    /// the state has four digits too.
    #[test]
    fn long_lines_have_the_most_digits() {
        let lines = plan_lines(&long_lines(Some(10_000)).bytes());
        let digits = |line: &str, place| line.split(' ').nth(place).map_or(0, str::len);
        let long = |line: &&str| [1, 2, 3].map(|place| digits(line, place)) == [9, 4, 4];
        assert_eq!(lines.lines().count(), MAX_STATES);
        assert!(lines.lines().filter(long).count() >= 1_600);
        assert!(lines.lines().filter(|line| long(line) && digits(line, 0) == 4).count() >= 800);
    }

    /// The loop of 1,000 is left once in 1,000 times 200 moves.
    #[test]
    fn endless_loops_are_whole_and_left_about_as_often() {
        let mut random = Random::new(7);
        for fourth in FOURTHS {
            let draft = endless(fourth);
            assert!(Problem::read(&draft.bytes()).is_ok());
            assert!(Problem::read(&endless_fan(&mut random, fourth).bytes()).is_ok());
            let chance = |on: &[OutcomeItem]| f64::from(on[1].weight);
            let all = f64::from(total_of(fourth));
            let chances: f64 = draft.outcomes.chunks(2).map(|row| chance(row) / all).product();
            assert!((195_000.0..=205_000.0).contains(&(1.0 / chances)), "{fourth:?}");
        }
    }
}
