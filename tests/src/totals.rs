//! E7, chances in other totals: how a file tells its weight total, and work that branches on it once.

use crate::encode::Draft;
use crate::limits::*;
use crate::random::Random;

/// Work that is written once over a constant W and compiled for each of the totals, done for one of
/// them. A division by a constant takes a fraction of the time of any other, so what counts in time
/// branches on the total once and not at each row.
macro_rules! by_total {
    ($total:expr, $W:ident => $work:expr) => {{
        use $crate::limits::TOTALS;
        match TOTALS.iter().position(|&total| total == $total) {
            Some(0) => {
                const $W: u32 = TOTALS[0];
                $work
            }
            Some(1) => {
                const $W: u32 = TOTALS[1];
                $work
            }
            Some(2) => {
                const $W: u32 = TOTALS[2];
                $work
            }
            Some(3) => {
                const $W: u32 = TOTALS[3];
                $work
            }
            _ => unreachable!("question 24 lets no other total pass"),
        }
    }};
}
pub(crate) use by_total;

/// A file's fourth setting, or none where its settings have count 3.
pub type Fourth = Option<u32>;

/// The ways to tell a total: "Settings may have count 4, the fourth being the weight total W: 100, 1,000,
/// 4,096 or 10,000. With count 3, W is 1,000."
pub const FOURTHS: [Fourth; 1 + TOTALS.len()] =
    [None, Some(TOTALS[0]), Some(TOTALS[1]), Some(TOTALS[2]), Some(TOTALS[3])];

/// The total that is told so.
pub fn total_of(fourth: Fourth) -> u32 {
    fourth.unwrap_or(USUAL_TOTAL)
}

/// The count of the settings of a file that tells it so.
pub fn settings_of(fourth: Fourth) -> usize {
    SETTINGS + usize::from(fourth.is_some())
}

/// One of the ways: each total in about a quarter of the draws, 1,000 by either count.
pub fn any_fourth(random: &mut Random) -> Fourth {
    let total = random.pick(&TOTALS);
    let by_count = total == USUAL_TOTAL && random.once_in(2);
    (!by_count).then_some(total)
}

/// The way in which a file tells its total, as a place in `FOURTHS`. None where it tells none: its
/// settings are not all there, their count is neither 3 nor 4, or the fourth is none of the totals.
pub fn told_by(file: &[u8]) -> Option<usize> {
    let count = usize::from(u16::from_le_bytes(*file.first_chunk()?));
    let settings = file.get(COUNT_BYTES..COUNT_BYTES + SETTING_BYTES * count)?;
    let fourth = match count {
        SETTINGS => None,
        MOST_SETTINGS => Some(u32::from_le_bytes(*settings.last_chunk()?)),
        _ => return None,
    };
    FOURTHS.iter().position(|&way| way == fourth)
}

/// A whole draft with its total told in another way and its rows' weights in proportion to what they
/// were, each at least 1. None where a row has more outcomes than the new total has units.
pub fn in_total(draft: &Draft, fourth: Fourth) -> Option<Draft> {
    let mut other = draft.clone().with_fourth(fourth);
    let (old, new) = (draft.total(), other.total());
    if draft.rows.iter().any(|row| u32::from(row.outcomes) > new) {
        return None;
    }
    let mut rest = &mut other.outcomes[..];
    for row in &draft.rows {
        let (outcomes, after) = rest.split_at_mut(usize::from(row.outcomes));
        let mut weights: Vec<u32> = outcomes.iter().map(|item| item.weight.into()).collect();
        turn_weights(&mut weights, old, new);
        for (item, weight) in outcomes.iter_mut().zip(weights) {
            item.weight = weight as u16;
        }
        rest = after;
    }
    Some(other)
}

/// Turns weights that add to one total into weights that add to another, each in proportion, rounded
/// down and at least 1. What is left over, or lacking, is the largest's.
fn turn_weights(weights: &mut [u32], old: u32, new: u32) {
    weights.iter_mut().for_each(|weight| *weight = (*weight * new / old).max(1));
    loop {
        let sum: u32 = weights.iter().sum();
        let largest = weights.iter_mut().max().expect("a row has an outcome");
        match sum > new {
            true => *largest -= 1,
            false => {
                *largest += new - sum;
                return;
            }
        }
    }
}

#[cfg(test)]
mod tests {
    use super::*;
    use crate::examples::{file_p, with_total};
    use crate::made::made;
    use crate::problem::Problem;

    #[test]
    fn work_is_done_for_its_total() {
        for total in TOTALS {
            assert_eq!(by_total!(total, W => W), total);
        }
    }

    #[test]
    fn each_total_is_drawn_about_as_often() {
        let mut random = Random::new(14);
        let mut drawn = [0; FOURTHS.len()];
        for _ in 0..8_000 {
            let fourth = any_fourth(&mut random);
            drawn[FOURTHS.iter().position(|&way| way == fourth).expect("a way")] += 1;
        }
        for (fourth, count) in FOURTHS.into_iter().zip(drawn) {
            let about = if total_of(fourth) == USUAL_TOTAL { 1_000 } else { 2_000 };
            assert!((about - 200..about + 200).contains(&count), "{fourth:?}: {count}");
        }
    }

    #[test]
    fn a_file_tells_its_total() {
        for (way, fourth) in FOURTHS.into_iter().enumerate() {
            let file = with_total(&file_p(), fourth).bytes();
            let settings = COUNT_BYTES + SETTING_BYTES * file[0] as usize;
            for length in 0..=file.len() {
                let asked = (length >= settings).then_some(way);
                assert_eq!(told_by(&file[..length]), asked, "cut to {length} bytes");
            }
        }
        let with = |fourth| file_p().with_fourth(Some(fourth)).bytes();
        for fourth in [0, 99, 101, 999, 4_097, 65_536 + 100, 100 << 16, u32::MAX] {
            assert_eq!(told_by(&with(fourth)), None);
        }
        let mut draft = file_p();
        draft.settings.truncate(2);
        assert_eq!(told_by(&draft.bytes()), None);
        draft.settings.resize(5, USUAL_TOTAL);
        assert_eq!(told_by(&draft.bytes()), None);
    }

    /// P's chances of 900 and 100 in 1,000. In 4,096 they are 3,686.4 and 409.6.
    #[test]
    fn weights_are_turned_in_proportion() {
        let weights = |fourth| {
            let draft = with_total(&file_p(), fourth);
            draft.outcomes.iter().map(|outcome| outcome.weight).collect::<Vec<u16>>()
        };
        assert_eq!(weights(None), [900, 100, 1_000, 1_000]);
        assert_eq!(weights(Some(100)), [90, 10, 100, 100]);
        assert_eq!(weights(Some(4_096)), [3_687, 409, 4_096, 4_096]);
        assert_eq!(weights(Some(10_000)), [9_000, 1_000, 10_000, 10_000]);
        let mut weights = [4_950, 4_950, 50, 50];
        turn_weights(&mut weights, 10_000, 4);
        assert_eq!(weights, [1; 4]);
    }

    #[test]
    fn turned_files_have_rows_of_the_new_total() {
        let mut random = Random::new(15);
        let mut turned = 0;
        for _ in 0..500 {
            let mut draft = made(&mut random);
            draft.states.iter_mut().for_each(|state| state.estimate = 0);
            let fourth = random.pick(&FOURTHS);
            let widest = draft.rows.iter().map(|row| row.outcomes).max();
            let fits = u32::from(widest.unwrap_or(0)) <= total_of(fourth);
            let other = in_total(&draft, fourth);
            assert_eq!(other.is_some(), fits);
            if let Some(other) = other {
                let problem = Problem::read(&other.bytes()).expect("whole");
                assert_eq!(problem.total, total_of(fourth));
                turned += 1;
            }
        }
        assert!(turned > 450, "{turned}");
    }
}
