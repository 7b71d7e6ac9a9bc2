//! Files whose rows have as many outcomes as a byte can say, in several orders.

use crate::encode::{share, Draft};
use crate::limits::*;
use crate::made::{any_cost, any_weights};
use crate::random::Random;
use crate::totals::Fourth;

/// In which order a wide row's successors stand.
#[derive(Clone, Copy, Debug, PartialEq, Eq)]
pub enum Order {
    /// One state again and again.
    One,
    /// Different states, the number rising.
    Rising,
    /// Different states, the number falling.
    Falling,
    /// Different states, mixed.
    Mixed,
    /// Any states, repeats among them.
    Repeats,
}

/// All orders.
pub const ORDERS: [Order; 5] =
    [Order::One, Order::Rising, Order::Falling, Order::Mixed, Order::Repeats];

/// A file with 255 outcomes a row and as many rows as there is room for, then a row that fills the
/// last of the 16,384 outcomes. Where there are fewer than 255 states, a row has as many outcomes as
/// there are different states for it; and where the total is 100, no more than that.
pub fn wide(random: &mut Random, states: usize, order: Order, fourth: Fourth) -> Draft {
    let mut draft = Draft::new(0, 1, 5_000).with_fourth(fourth);
    let total = draft.total();
    let repeats = matches!(order, Order::One | Order::Repeats);
    let each = if repeats { MAX_IN_BYTE } else { MAX_IN_BYTE.min(states) }.min(total as usize);
    let rows = MAX_OUTCOMES.div_ceil(each).min(MAX_ROWS).min(MAX_IN_BYTE * (states - 1));
    for state in 0..states - 1 {
        draft.add_state();
        for _ in share(rows, states - 1, state) {
            let outcomes = each.min(MAX_OUTCOMES - draft.outcomes.len());
            let successors = successors(random, states, order, outcomes);
            let weights = any_weights(random, outcomes, total);
            let outcomes: Vec<(u16, u16)> = successors.into_iter().zip(weights).collect();
            let (kind, cost) = any_cost(random);
            draft.add_row(kind, cost, &outcomes);
        }
    }
    draft.add_goal();
    draft
}

/// So many successors of a row, in an order.
fn successors(random: &mut Random, states: usize, order: Order, outcomes: usize) -> Vec<u16> {
    let one = random.below(states) as u16;
    let mut different: Vec<u16> = (0..states as u16).collect();
    shuffle(random, &mut different);
    different.truncate(outcomes);
    match order {
        Order::One => return vec![one; outcomes],
        Order::Repeats => return (0..outcomes).map(|_| random.below(states) as u16).collect(),
        Order::Rising => different.sort_unstable(),
        Order::Falling => different.sort_unstable_by(|one, other| other.cmp(one)),
        Order::Mixed => {}
    }
    different
}

/// Puts a list in any order.
pub fn shuffle<T>(random: &mut Random, list: &mut [T]) {
    for at in (1..list.len()).rev() {
        list.swap(at, random.below(at + 1));
    }
}

#[cfg(test)]
mod tests {
    use super::*;
    use crate::problem::Problem;
    use crate::totals::FOURTHS;

    #[test]
    fn wide_files_are_whole_and_full() {
        let mut random = Random::new(5);
        for (order, fourth) in ORDERS.into_iter().flat_map(|o| FOURTHS.map(|fourth| (o, fourth))) {
            for states in [255, 256, MAX_STATES] {
                let draft = wide(&mut random, states, order, fourth);
                let (rows, each) = if draft.total() == 100 { (164, 100) } else { (65, 255) };
                assert!(Problem::read(&draft.bytes()).is_ok(), "{order:?}, {fourth:?}");
                assert_eq!(draft.outcomes.len(), MAX_OUTCOMES);
                assert_eq!(draft.rows.len(), rows);
                assert!(draft.rows[..rows - 1].iter().all(|row| row.outcomes == each));
            }
            for states in [2, 3, 40] {
                let draft = wide(&mut random, states, order, fourth);
                assert!(Problem::read(&draft.bytes()).is_ok(), "{order:?}, {fourth:?}");
            }
        }
    }

    #[test]
    fn falling_successors_fall() {
        let draft = wide(&mut Random::new(6), 300, Order::Falling, None);
        let fall =
            |row: &[crate::encode::OutcomeItem]| row.is_sorted_by(|a, b| a.successor > b.successor);
        assert!(draft.outcomes.chunks(MAX_IN_BYTE).all(fall));
    }
}
