//! Timing for the benchmarks: two sides by turns, in pairs, and the median of what was timed.

use std::hint::black_box;
use std::time::Instant;

/// Pairs of timings for each file.
const PAIRS: usize = 15;
/// What one timing should last, in seconds.
const LASTS: f64 = 0.000_5;

/// The seconds that `times` runs on what is lent last.
fn seconds<L, A>(times: usize, lent: &mut L, run: impl Fn(&mut L) -> A) -> f64 {
    let begin = Instant::now();
    for _ in 0..times {
        black_box(run(black_box(&mut *lent)));
    }
    begin.elapsed().as_secs_f64()
}

/// The middle of a list of numbers.
pub fn median(numbers: &[f64]) -> f64 {
    let mut numbers = numbers.to_vec();
    numbers.sort_by(f64::total_cmp);
    numbers[numbers.len() / 2]
}

/// What was timed of two sides, pair by pair.
#[derive(Default)]
pub struct Pairs {
    /// The first side's time over the second's.
    pub ratios: Vec<f64>,
    /// The seconds of a run of the first side.
    pub first: Vec<f64>,
    /// The seconds of a run of the second side.
    pub second: Vec<f64>,
}

impl Pairs {
    /// Times both sides on what is lent, by turns, the one that begins changing from pair to pair.
    pub fn time<L, A, B>(
        &mut self,
        lent: &mut L,
        first: impl Fn(&mut L) -> A,
        second: impl Fn(&mut L) -> B,
    ) {
        let once = seconds(1, lent, &second).max(1e-9);
        let times = (LASTS / once).ceil().max(1.0) as usize;
        for pair in 0..PAIRS {
            let before = (pair % 2 == 0).then(|| seconds(times, lent, &first));
            let of_second = seconds(times, lent, &second);
            let of_first = before.unwrap_or_else(|| seconds(times, lent, &first));
            self.ratios.push(of_first / of_second);
            self.first.push(of_first / times as f64);
            self.second.push(of_second / times as f64);
        }
    }

    /// Adds the pairs of another.
    pub fn extend(&mut self, other: Pairs) {
        self.ratios.extend(other.ratios);
        self.first.extend(other.first);
        self.second.extend(other.second);
    }
}

#[cfg(test)]
mod tests {
    use super::*;

    #[test]
    fn the_median_is_the_middle() {
        assert_eq!(median(&[3.0]), 3.0);
        assert_eq!(median(&[9.0, 1.0, 4.0]), 4.0);
        assert_eq!(median(&[8.0, 1.0, 4.0, 2.0]), 4.0);
    }

    /// The second side runs once, to see how long it takes, and then the pairs follow.
    #[test]
    fn sides_are_timed_by_turns() {
        let (mut pairs, mut order) = (Pairs::default(), Vec::<u8>::new());
        pairs.time(&mut order, |order| order.push(1), |order| order.push(2));
        for timed in [&pairs.ratios, &pairs.first, &pairs.second] {
            assert_eq!(timed.len(), PAIRS);
            assert!(timed.iter().all(|&number| number > 0.0));
        }
        let times = order.len() / (2 * PAIRS);
        let mut asked = vec![2];
        for pair in 0..PAIRS {
            for side in if pair % 2 == 0 { [1, 2] } else { [2, 1] } {
                asked.extend(vec![side; times]);
            }
        }
        assert!(order == asked);
    }

    #[test]
    fn pairs_are_added() {
        let some = |number: f64| Pairs {
            ratios: vec![number],
            first: vec![number + 1.0],
            second: vec![number + 2.0],
        };
        let mut pairs = some(1.0);
        pairs.extend(some(5.0));
        assert_eq!(pairs.ratios, [1.0, 5.0]);
        assert_eq!((pairs.first, pairs.second), (vec![2.0, 6.0], vec![3.0, 7.0]));
    }
}
