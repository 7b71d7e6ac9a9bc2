//! Damage to problem files, aimed so that every question from 1 to 11 is met at many places, and
//! untargeted damage to their bytes.

use crate::encode::Draft;
use crate::limits::*;
use crate::made::any_weights;
use crate::problem::{refused, Problem, Refusal};
use crate::random::Random;
use crate::totals::FOURTHS;

/// Fourth settings that are no total: beside one, and those of which some of the bits are one.
pub const NO_TOTALS: [u32; 24] = [
    0,
    1,
    99,
    101,
    999,
    1_001,
    4_095,
    4_097,
    9_999,
    10_001,
    65_535,
    65_536,
    65_536 + 100,
    65_536 + 1_000,
    65_536 + 4_096,
    65_536 + 10_000,
    100 << 16,
    1_000 << 16,
    4_096 << 16,
    10_000 << 16,
    (1 << 24) + 1_000,
    1 << 31,
    (1 << 31) + 1_000,
    u32::MAX,
];

/// A file made from a draft and then broken, mostly once, sometimes twice or more so that the order
/// of the questions matters. Some come out whole all the same.
pub fn damaged(random: &mut Random, draft: &Draft) -> Vec<u8> {
    let mut draft = draft.clone();
    let times = random.pick(&[1, 1, 1, 1, 2, 3]);
    let bytes_only = random.below(times + 1);
    for _ in bytes_only..times {
        damage_items(random, &mut draft);
    }
    let mut file = draft.bytes();
    for _ in 0..bytes_only {
        damage_bytes(random, &mut file, &draft);
    }
    file
}

/// Breaks one item, or adds one too many.
fn damage_items(random: &mut Random, draft: &mut Draft) {
    match random.below(12) {
        0 => damage_lengths(random, draft),
        1 => damage_setting(random, draft),
        2 => damage_state(random, draft),
        3 => start_at_goal(random, draft),
        4 => damage_row_number(random, draft),
        5..=6 => damage_row(random, draft),
        7 => damage_outcome_number(random, draft),
        8..=9 => damage_outcome(random, draft),
        10 => damage_total(random, draft),
        _ => raise_estimate(random, draft),
    }
}

/// Item counts at or past the ends of their ranges, which for some are those of before E9: questions 2, 7
/// and 9.
fn damage_lengths(random: &mut Random, draft: &mut Draft) {
    let limits = random.pick(&[OLD, IN_FORCE]);
    match random.below(8) {
        0 => draft.settings.truncate(SETTINGS - 1),
        1 => draft.settings.resize(MOST_SETTINGS + 1, USUAL_TOTAL),
        2 => draft.states.clear(),
        3 => repeat_to(&mut draft.states, limits.states + random.below(2)),
        4 => repeat_to(&mut draft.rows, limits.rows + random.below(2)),
        5 => repeat_to(&mut draft.outcomes, limits.outcomes + random.below(2)),
        6 => drop(draft.rows.pop()),
        _ => drop(draft.outcomes.pop()),
    }
}

/// Lengthens a list with its last item.
fn repeat_to<T: Copy>(items: &mut Vec<T>, length: usize) {
    if let Some(&last) = items.last() {
        items.resize(length, last);
    }
}

/// One of the first three settings at or past the ends of its range: question 4.
fn damage_setting(random: &mut Random, draft: &mut Draft) {
    let states = draft.states.len() as u32;
    let (setting, value) = match random.below(3) {
        0 => (0, random.pick(&[states, states + 1, 65_536, 1 << 31, u32::MAX])),
        1 => (1, random.pick(&[0, MAX_TOLERANCE, MAX_TOLERANCE + 1, 65_537, u32::MAX])),
        _ => (2, random.pick(&[0, 1, MAX_PENALTY, MAX_PENALTY + 1, 1 << 24, u32::MAX])),
    };
    if let Some(slot) = draft.settings.get_mut(setting) {
        *slot = value;
    }
}

/// A state against section 1: question 5.
fn damage_state(random: &mut Random, draft: &mut Draft) {
    if draft.states.is_empty() {
        return;
    }
    let most = TICKS.wrapping_mul(draft.settings.get(2).copied().unwrap_or(1));
    let number = random.below(draft.states.len());
    let state = &mut draft.states[number];
    match random.below(5) {
        0 => state.goal = random.pick(&[2, 3, 128, 255]),
        1 => state.goal ^= 1,
        2 => state.estimate = most.wrapping_add(random.below(2) as u32),
        3 => state.estimate = random.pick(&[1, u32::MAX]),
        _ => {
            state.goal = 1;
            (state.rows, state.estimate) = random.pick(&[(1, 0), (0, 1), (0, 0), (255, 9)]);
        }
    }
}

/// The start at a goal: question 6.
fn start_at_goal(random: &mut Random, draft: &mut Draft) {
    let goals: Vec<usize> =
        (0..draft.states.len()).filter(|&state| draft.states[state].goal == 1).collect();
    if !goals.is_empty() && !draft.settings.is_empty() {
        draft.settings[0] = random.pick(&goals) as u32;
    }
}

/// A state's number of rows off by a little: question 7, or other rows under the same numbers.
fn damage_row_number(random: &mut Random, draft: &mut Draft) {
    if draft.states.is_empty() {
        return;
    }
    let number = random.below(draft.states.len());
    let state = &mut draft.states[number];
    let by = random.pick(&[1, 255, 2, 128]);
    state.rows = state.rows.wrapping_add(by);
    if random.once_in(4) {
        let other = random.below(draft.states.len());
        let state = &mut draft.states[other];
        state.rows = state.rows.wrapping_sub(by);
    }
}

/// A row against section 2: question 8.
fn damage_row(random: &mut Random, draft: &mut Draft) {
    if draft.rows.is_empty() {
        return;
    }
    let number = random.below(draft.rows.len());
    let row = &mut draft.rows[number];
    match random.below(5) {
        0 => row.kind = random.pick(&[2, 3, 129, 255]),
        1 => row.kind ^= 1,
        2 => row.outcomes = 0,
        3 => (row.kind, row.cost) = (KIND_SECONDS, random.pick(&[0, 1, u16::MAX])),
        _ => {
            let rates = [0, 1, MIN_RATE - 1, MIN_RATE, MAX_RATE, MAX_RATE + 1, u16::MAX];
            (row.kind, row.cost) = (KIND_RATE, random.pick(&rates));
        }
    }
}

/// A row's number of outcomes off by a little: question 9, or question 10 where another row's
/// makes up for it.
fn damage_outcome_number(random: &mut Random, draft: &mut Draft) {
    if draft.rows.is_empty() {
        return;
    }
    let by = random.pick(&[1, 255, 2]);
    let number = random.below(draft.rows.len());
    let row = &mut draft.rows[number];
    row.outcomes = row.outcomes.wrapping_add(by);
    if random.once_in(3) {
        let other = random.below(draft.rows.len());
        let row = &mut draft.rows[other];
        row.outcomes = row.outcomes.wrapping_sub(by);
    }
}

/// An outcome against section 3: question 10. Shifted weights may still add to the total.
fn damage_outcome(random: &mut Random, draft: &mut Draft) {
    if draft.outcomes.is_empty() {
        return;
    }
    let states = draft.states.len() as u16;
    let (total, other) = (draft.total() as u16, random.pick(&TOTALS) as u16);
    let number = random.below(draft.outcomes.len());
    let next = (number + 1) % draft.outcomes.len();
    let outcome = &mut draft.outcomes[number];
    match random.below(6) {
        0 => outcome.successor = random.pick(&[states, states + 1, states - 1, u16::MAX, 256]),
        1 => {
            let weights = [0, 1, total, total.wrapping_add(1), other, other + 1, u16::MAX];
            outcome.weight = random.pick(&weights);
        }
        2 => outcome.weight = outcome.weight.wrapping_add(1),
        3 => outcome.weight = outcome.weight.wrapping_sub(1),
        4 => {
            outcome.weight = outcome.weight.wrapping_add(1);
            draft.outcomes[next].weight = draft.outcomes[next].weight.wrapping_sub(1);
        }
        _ => {
            let weight = std::mem::replace(&mut outcome.weight, 0);
            let total = draft.outcomes[next].weight.wrapping_add(weight);
            draft.outcomes[next].weight = total;
        }
    }
}

/// The fourth setting none of the totals: question 24. Or one of them, or none at all, where the rows
/// add to another; or one row that adds to another total than the file's: question 10.
fn damage_total(random: &mut Random, draft: &mut Draft) {
    match random.below(4) {
        0..=1 => *draft = draft.clone().with_fourth(Some(random.pick(&NO_TOTALS))),
        2 => *draft = draft.clone().with_fourth(random.pick(&FOURTHS)),
        _ => damage_row_total(random, draft),
    }
}

/// A row's weights, such that they add to any total.
fn damage_row_total(random: &mut Random, draft: &mut Draft) {
    if draft.rows.is_empty() {
        return;
    }
    let (row, total) = (random.below(draft.rows.len()), random.pick(&TOTALS));
    let first = draft.rows[..row].iter().map(|row| usize::from(row.outcomes)).sum::<usize>();
    let number = usize::from(draft.rows[row].outcomes);
    let Some(outcomes) = draft.outcomes.get_mut(first..first + number) else {
        return;
    };
    if (1..=total as usize).contains(&number) {
        for (outcome, weight) in outcomes.iter_mut().zip(any_weights(random, number, total)) {
            outcome.weight = weight;
        }
    }
}

/// H of a state at a row's value under H, or just above it: question 11.
fn raise_estimate(random: &mut Random, draft: &mut Draft) {
    let Ok(problem) = Problem::read(&draft.bytes()) else {
        return;
    };
    let with_rows: Vec<usize> = (0..problem.states.len())
        .filter(|&state| !problem.states[state].rows().is_empty())
        .collect();
    if with_rows.is_empty() {
        return;
    }
    let state = random.pick(&with_rows);
    let row = problem.states[state].rows().start + random.below(problem.states[state].rows().len());
    let raised = problem.first_values[row] + random.pick(&[0, 1, 1, 2, 1_000, 1_000_000]);
    draft.states[state].estimate = raised.min(problem.give_up_cost);
}

/// Damage to the bytes, whatever they mean.
fn damage_bytes(random: &mut Random, file: &mut Vec<u8>, draft: &Draft) {
    match random.below(8) {
        0..=1 => cut(random, file, draft),
        2 => file.truncate(random.below(file.len() + 1)),
        3 => lengthen(random, file),
        4..=5 => damage_count(random, file, draft),
        _ => change_bytes(random, file),
    }
}

/// Where each section's count stands in the draft's file, and where the file ends.
fn section_starts(draft: &Draft) -> [usize; 5] {
    let settings = COUNT_BYTES + SETTING_BYTES * draft.settings.len();
    let states = settings + COUNT_BYTES + STATE_BYTES * draft.states.len();
    let rows = states + COUNT_BYTES + ROW_BYTES * draft.rows.len();
    let outcomes = rows + COUNT_BYTES + OUTCOME_BYTES * draft.outcomes.len();
    [0, settings, states, rows, outcomes]
}

/// Cuts the file at or beside the edge of a section.
fn cut(random: &mut Random, file: &mut Vec<u8>, draft: &Draft) {
    let edge = random.pick(&section_starts(draft));
    let length = (edge + random.below(4)).saturating_sub(random.below(4));
    file.truncate(length);
}

/// Adds a few bytes, or many.
fn lengthen(random: &mut Random, file: &mut Vec<u8>) {
    let extra = random.pick(&[1, 1, 2, 4, 100]);
    for _ in 0..extra {
        file.push(random.bits() as u8);
    }
}

/// Changes a section's count: by one, or to an end of its range, or of that before E9, or past it.
fn damage_count(random: &mut Random, file: &mut [u8], draft: &Draft) {
    let section = random.below(4);
    let at = section_starts(draft)[section];
    let Some(count) = file.get_mut(at..at + COUNT_BYTES) else {
        return;
    };
    let old = u16::from_le_bytes([count[0], count[1]]);
    let limits = random.pick(&[OLD, IN_FORCE]);
    let most = [MOST_SETTINGS, limits.states, limits.rows, limits.outcomes][section] as u16;
    let by_one = [old.wrapping_add(1), old.wrapping_sub(1)];
    let new = random.pick(&[by_one[0], by_one[1], 0, most, most + 1, u16::MAX]);
    count.copy_from_slice(&new.to_le_bytes());
}

/// Changes one to three bytes.
fn change_bytes(random: &mut Random, file: &mut [u8]) {
    if file.is_empty() {
        return;
    }
    for _ in 0..1 + random.below(3) {
        let at = random.below(file.len());
        file[at] = random.bits() as u8;
    }
}

/// A file with one thing wrong for each of the questions 1 to 11, in the order in which they are put,
/// and the refusal of each. They are made from a whole file that begins with a state that has rows and
/// is the start, and ends with a goal. Of the first two questions it is the states' section that fails,
/// so that the file tells its total.
pub fn one_wrong_each(draft: &Draft) -> Vec<(Refusal, Vec<u8>)> {
    let (states, total) = (draft.states.len(), draft.total());
    let with = |change: fn(&mut Draft, u32)| {
        let mut draft = draft.clone();
        change(&mut draft, total);
        draft.bytes()
    };
    let cut = draft.bytes()[..section_starts(draft)[2] - 1].to_vec();
    let one_more = [&draft.bytes()[..], &[0]].concat();
    vec![
        (refused(1, 1), cut),
        (refused(2, 1), with(|draft, _| draft.states.clear())),
        (refused(3, 3), one_more),
        (refused(4, 2), with(|draft, _| draft.settings[2] = MAX_PENALTY + 1)),
        (refused(24, 3), with(|draft, total| *draft = draft.clone().with_fourth(Some(total + 1)))),
        (refused(5, 0), with(|draft, _| draft.states[0].goal = 2)),
        (
            refused(6, states - 1),
            with(|draft, _| draft.settings[0] = draft.states.len() as u32 - 1),
        ),
        (refused(7, 0), with(|draft, _| draft.states[0].rows += 1)),
        (refused(8, 0), with(|draft, _| draft.rows[0].kind = 2)),
        (refused(9, 0), with(|draft, _| draft.rows[0].outcomes += 1)),
        (refused(10, 0), with(|draft, total| draft.outcomes[0].weight = total as u16 + 1)),
        (refused(11, 0), with(|draft, _| draft.states[0].estimate = TICKS * draft.settings[2])),
    ]
}

#[cfg(test)]
mod tests {
    use super::*;
    use crate::examples::{file_p, stick, with_total};
    use crate::problem::FILE_QUESTIONS;
    use crate::totals::told_by;

    #[test]
    fn each_thing_wrong_meets_its_question() {
        for (way, fourth) in FOURTHS.into_iter().enumerate() {
            for draft in [file_p(), stick()] {
                let draft = with_total(&draft, fourth);
                let wrong = one_wrong_each(&draft);
                assert!(wrong.iter().map(|(refusal, _)| refusal.question).eq(FILE_QUESTIONS));
                for (refusal, file) in wrong {
                    assert_eq!(Problem::read(&file).err(), Some(refusal), "{fourth:?}");
                    let tells = refusal.question != 24;
                    assert_eq!(told_by(&file), tells.then_some(way), "{fourth:?}, {refusal:?}");
                }
            }
        }
    }

    #[test]
    fn no_total_is_let_pass() {
        for fourth in NO_TOTALS {
            let file = file_p().with_fourth(Some(fourth)).bytes();
            assert_eq!(Problem::read(&file).err(), Some(refused(24, 3)), "{fourth}");
        }
    }
}
