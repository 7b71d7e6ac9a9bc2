//! Other files for one problem, and files that differ from it in one thing, to see which have equal
//! set forms.

use crate::encode::{Draft, OutcomeItem, RowItem};
use crate::limits::*;
use crate::problem::seconds_of;
use crate::random::Random;
use crate::totals::{in_total, total_of, FOURTHS};
use crate::wide::shuffle;

/// A change to a draft, by name. It leaves a draft alone that has no place for it.
pub struct Change {
    pub name: &'static str,
    pub make: fn(&mut Random, &mut Draft),
}

/// Changes that keep settings, estimates, goals, numbers of rows, row costs and total chances.
pub const SAME: [Change; 7] = [
    Change { name: "outcomes shuffled", make: shuffle_outcomes },
    Change { name: "outcomes split", make: split_outcomes },
    Change { name: "rows filled with repeats", make: fill_rows },
    Change { name: "repeats merged", make: merge_repeats },
    Change { name: "kinds changed", make: change_kinds },
    Change { name: "all of these", make: change_all },
    Change { name: OTHER_COUNT, make: change_count },
];

/// The one change that only files with the total 1,000 have a place for.
pub const OTHER_COUNT: &str = "the total by the other count";

/// Changes of one of them. What they make may be refused.
pub const DIFFERENT: [Change; 9] = [
    Change { name: "a unit of weight moved", make: move_weight },
    Change { name: "an estimate changed", make: change_estimate },
    Change { name: "a cost changed", make: change_cost },
    Change { name: "the start changed", make: change_start },
    Change { name: "the tolerance changed", make: change_tolerance },
    Change { name: "the penalty changed", make: change_penalty },
    Change { name: "a goal changed", make: change_goal },
    Change { name: "a row at the next state", make: hand_row_on },
    Change { name: "the total changed", make: change_total },
];

/// A row's outcomes.
type Outcomes = Vec<OutcomeItem>;

/// A draft's outcomes, row by row.
fn by_row(draft: &Draft) -> Vec<Outcomes> {
    let mut rest = &draft.outcomes[..];
    let mut next = |row: &RowItem| {
        let (outcomes, after) = rest.split_at(usize::from(row.outcomes));
        rest = after;
        outcomes.to_vec()
    };
    draft.rows.iter().map(&mut next).collect()
}

/// Gives a draft's rows these outcomes.
fn put_rows(draft: &mut Draft, rows: &[Outcomes]) {
    for (row, outcomes) in draft.rows.iter_mut().zip(rows) {
        row.outcomes = u8::try_from(outcomes.len()).expect("at most 255 outcomes");
    }
    draft.outcomes = rows.concat();
}

/// Each row's outcomes in any order.
fn shuffle_outcomes(random: &mut Random, draft: &mut Draft) {
    let mut rows = by_row(draft);
    rows.iter_mut().for_each(|outcomes| shuffle(random, outcomes));
    put_rows(draft, &rows);
}

/// Some outcomes as several to the same state, a few in each row.
fn split_outcomes(random: &mut Random, draft: &mut Draft) {
    split(random, draft, |random| random.pick(&[0, 1, 1, 2, 5]));
}

/// Outcomes as several to the same state, as many in some rows as there may be.
fn fill_rows(random: &mut Random, draft: &mut Draft) {
    split(random, draft, |random| random.pick(&[0, 0, MAX_IN_BYTE]));
}

/// Splits outcomes of each row so many times, as far as a row and the file have room: one of weight w
/// becomes two whose weights add to w, the second of them anywhere in the row.
fn split(random: &mut Random, draft: &mut Draft, times: fn(&mut Random) -> usize) {
    let mut rows = by_row(draft);
    let mut room = MAX_OUTCOMES - draft.outcomes.len();
    for outcomes in &mut rows {
        let most = room.min(MAX_IN_BYTE - outcomes.len());
        for _ in 0..times(random).min(most) {
            let (from, all) = (random.below(outcomes.len()), outcomes.len());
            let mut places = (0..all).map(|step| (from + step) % all);
            let Some(at) = places.find(|&at| outcomes[at].weight > 1) else {
                break;
            };
            let OutcomeItem { successor, weight } = outcomes[at];
            let part = random.between(1, u32::from(weight) - 1) as u16;
            outcomes[at].weight -= part;
            outcomes.insert(random.below(all + 1), OutcomeItem { successor, weight: part });
            room -= 1;
        }
    }
    put_rows(draft, &rows);
}

/// Repeats of a successor added to its first, or to its last.
fn merge_repeats(random: &mut Random, draft: &mut Draft) {
    let from_the_end = random.once_in(2);
    let mut rows = by_row(draft);
    for outcomes in &mut rows {
        let mut merged = Outcomes::new();
        if from_the_end {
            outcomes.reverse();
        }
        for &outcome in outcomes.iter() {
            match merged.iter_mut().find(|known| known.successor == outcome.successor) {
                Some(known) => known.weight += outcome.weight,
                None => merged.push(outcome),
            }
        }
        if from_the_end {
            merged.reverse();
        }
        *outcomes = merged;
    }
    put_rows(draft, &rows);
}

/// The lowest and the highest rate that cost so many seconds, if any do.
fn rates_of(seconds: u32) -> Option<(u16, u16)> {
    // Below ten seconds this is no rate, so what is divided by next is not 0.
    let least = u16::try_from(STICK / seconds).ok()?.max(MIN_RATE);
    let most = u16::try_from(STICK / (seconds - 1)).ok()?.min(MAX_RATE);
    let costs = |&rate: &u16| seconds_of(KIND_RATE, rate) == Some(seconds);
    Some(((least..=most).find(costs)?, (least..=most).rfind(costs)?))
}

/// Costs by rate in seconds, or by another rate of as many seconds; costs in seconds by rate, where
/// some rate costs as much. Most rows that can be changed are.
pub fn change_kinds(random: &mut Random, draft: &mut Draft) {
    for row in &mut draft.rows {
        let Some(seconds) = seconds_of(row.kind, row.cost) else {
            continue;
        };
        let rate = rates_of(seconds).map(|(lowest, highest)| random.pick(&[lowest, highest]));
        (row.kind, row.cost) = match (row.kind, rate, random.below(4)) {
            (KIND_RATE, Some(rate), 0) => (KIND_RATE, rate),
            (KIND_RATE, _, _) => (KIND_SECONDS, seconds as u16),
            (KIND_SECONDS, Some(rate), 1..) => (KIND_RATE, rate),
            _ => (row.kind, row.cost),
        };
    }
}

/// E7: "settings with the same W by either count are equal settings." A total of 1,000 by the count
/// that it is not told by.
fn change_count(_: &mut Random, draft: &mut Draft) {
    if draft.total() == USUAL_TOTAL {
        let fourth = (draft.settings.len() == SETTINGS).then_some(USUAL_TOTAL);
        *draft = draft.clone().with_fourth(fourth);
    }
}

/// Repeats merged, then split again, all shuffled, other kinds, and sometimes the other count.
fn change_all(random: &mut Random, draft: &mut Draft) {
    merge_repeats(random, draft);
    split_outcomes(random, draft);
    shuffle_outcomes(random, draft);
    change_kinds(random, draft);
    if random.once_in(2) {
        change_count(random, draft);
    }
}

/// One unit of weight from an outcome to another successor: one that the row has, or a new one.
fn move_weight(random: &mut Random, draft: &mut Draft) {
    let states = draft.states.len();
    if draft.rows.is_empty() || states == 1 {
        return;
    }
    let mut rows = by_row(draft);
    let number = random.below(rows.len());
    let outcomes = &mut rows[number];
    let from = random.below(outcomes.len());
    let others = outcomes.iter().map(|outcome| outcome.successor);
    let others: Vec<u16> = others.filter(|&other| other != outcomes[from].successor).collect();
    let any = random.below(states - 1) as u16;
    let any = any + u16::from(any >= outcomes[from].successor);
    let to = match others.is_empty() || random.once_in(2) {
        true => any,
        false => random.pick(&others),
    };
    let known = outcomes.iter().position(|outcome| outcome.successor == to);
    if outcomes[from].weight == 1 {
        // It has nothing else, so the outcome itself leads there.
        outcomes[from].successor = to;
    } else if let Some(known) = known {
        outcomes[from].weight -= 1;
        outcomes[known].weight += 1;
    } else if outcomes.len() < MAX_IN_BYTE && draft.outcomes.len() < MAX_OUTCOMES {
        outcomes[from].weight -= 1;
        let place = random.below(outcomes.len() + 1);
        outcomes.insert(place, OutcomeItem { successor: to, weight: 1 });
    }
    put_rows(draft, &rows);
}

/// Another number near one, or at random from 1 to a limit.
fn another(random: &mut Random, number: u32, limit: u32) -> u32 {
    let anywhere = random.between(1, limit);
    let near = [number.wrapping_sub(1), number.wrapping_add(1), anywhere];
    random.pick(&near)
}

/// One estimate a tick up or down, or anything.
fn change_estimate(random: &mut Random, draft: &mut Draft) {
    let most = TICKS * draft.settings[2];
    let number = random.below(draft.states.len());
    let state = &mut draft.states[number];
    state.estimate = another(random, state.estimate, most);
}

/// The cost of one row a second up or down, or anything; a cost by rate at another rate that costs
/// other seconds.
fn change_cost(random: &mut Random, draft: &mut Draft) {
    if draft.rows.is_empty() {
        return;
    }
    let number = random.below(draft.rows.len());
    let row = &mut draft.rows[number];
    let before = seconds_of(row.kind, row.cost);
    let (kind, limit) = match row.kind {
        KIND_RATE => (KIND_RATE, u32::from(MAX_RATE)),
        _ => (KIND_SECONDS, u32::from(u16::MAX)),
    };
    let cost = another(random, u32::from(row.cost), limit) as u16;
    if seconds_of(kind, cost) != before {
        row.cost = cost;
    }
}

/// Another start.
fn change_start(random: &mut Random, draft: &mut Draft) {
    draft.settings[0] = random.below(draft.states.len()) as u32;
}

/// Another tolerance.
fn change_tolerance(random: &mut Random, draft: &mut Draft) {
    draft.settings[1] = another(random, draft.settings[1], MAX_TOLERANCE);
}

/// Another penalty.
fn change_penalty(random: &mut Random, draft: &mut Draft) {
    draft.settings[2] = another(random, draft.settings[2], MAX_PENALTY);
}

/// Another total, with the rows' weights in proportion: the same chances, as far as they can be said in
/// the other total, and yet other settings.
fn change_total(random: &mut Random, draft: &mut Draft) {
    let mut others = FOURTHS.to_vec();
    others.retain(|&fourth| total_of(fourth) != draft.total());
    if let Some(other) = in_total(draft, random.pick(&others)) {
        *draft = other;
    }
}

/// A goal as a state without rows, or such a state as a goal.
fn change_goal(random: &mut Random, draft: &mut Draft) {
    let barren: Vec<usize> =
        (0..draft.states.len()).filter(|&state| draft.states[state].rows == 0).collect();
    if !barren.is_empty() {
        draft.states[random.pick(&barren)].goal ^= 1;
    }
}

/// A state's last row as the first of the next state: its number stays, and the rows at these two
/// states change.
fn hand_row_on(random: &mut Random, draft: &mut Draft) {
    let has_next = |&state: &usize| {
        let next = draft.states[state + 1];
        draft.states[state].rows > 0 && next.goal == 0 && usize::from(next.rows) < MAX_IN_BYTE
    };
    let able: Vec<usize> = (0..draft.states.len() - 1).filter(has_next).collect();
    if !able.is_empty() {
        let state = random.pick(&able);
        draft.states[state].rows -= 1;
        draft.states[state + 1].rows += 1;
    }
}

#[cfg(test)]
mod tests {
    use super::*;
    use crate::made::made;
    use crate::problem::Problem;
    use crate::set_form::Meaning;

    /// How often each change made another file that is accepted, on so many made files; and whether
    /// it then kept the meaning, which must be as said.
    fn made_by(changes: &[Change], keeps: bool) -> Vec<u64> {
        let mut random = Random::new(11);
        let mut made_files = vec![0; changes.len()];
        for _ in 0..400 {
            let draft = made(&mut random);
            let file = draft.bytes();
            let meaning = Meaning::of(&Problem::read(&file).expect("whole"));
            for (change, count) in changes.iter().zip(&mut made_files) {
                let mut changed = draft.clone();
                (change.make)(&mut random, &mut changed);
                let read = Problem::read(&changed.bytes());
                assert!(read.is_ok() || !keeps, "{}: {read:?}", change.name);
                if let (Ok(problem), true) = (read, changed.bytes() != file) {
                    assert_eq!(Meaning::of(&problem) == meaning, keeps, "{}", change.name);
                    *count += 1;
                }
            }
        }
        made_files
    }

    #[test]
    fn the_same_problem_is_written_in_other_ways() {
        let made_files = made_by(&SAME, true);
        assert!(made_files.iter().all(|&count| count >= 50), "{made_files:?}");
    }

    #[test]
    fn one_difference_makes_another_problem() {
        let made_files = made_by(&DIFFERENT, false);
        assert!(made_files.iter().all(|&count| count >= 50), "{made_files:?}");
    }

    #[test]
    fn rates_are_found_by_their_seconds() {
        assert_eq!(rates_of(600), Some((1_000, 1_000)));
        assert_eq!(rates_of(60_000), Some((10, 10)));
        for seconds in [1, 2, 10, 599, 59_999, 60_001, 65_535] {
            assert_eq!(rates_of(seconds), None);
        }
        for rate in MIN_RATE..=MAX_RATE {
            let seconds = seconds_of(KIND_RATE, rate).expect("a rate");
            let equal: Vec<u16> = (MIN_RATE..=MAX_RATE)
                .filter(|&other| seconds_of(KIND_RATE, other) == Some(seconds))
                .collect();
            assert_eq!(rates_of(seconds), Some((equal[0], equal[equal.len() - 1])));
        }
    }

    #[test]
    fn rows_are_filled_to_255() {
        let mut draft = Draft::new(0, 1, 1);
        draft.add_state();
        (0..40).for_each(|_| draft.add_row(KIND_SECONDS, 1, &[(0, 400), (1, 600)]));
        draft.add_goal();
        fill_rows(&mut Random::new(12), &mut draft);
        assert!(draft.rows.iter().any(|row| usize::from(row.outcomes) == MAX_IN_BYTE));
        assert!(Problem::read(&draft.bytes()).is_ok());
    }
}
