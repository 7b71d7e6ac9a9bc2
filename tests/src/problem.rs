//! The problem file of document 01, read from its bytes: questions 1 to 11 in order, each no with
//! the first place that fails, then decoded arrays. Since E7, "wherever a stretch of questions that
//! holds 4 is named, 24 belongs to it", here and in the other files too.

use crate::limits::*;
use crate::totals::by_total;
use std::ops::Range;

/// Questions 1 to 11 in the order in which they are put: 24 is "asked after the third" setting of 4.
pub const FILE_QUESTIONS: [u64; 12] = [1, 2, 3, 4, 24, 5, 6, 7, 8, 9, 10, 11];

/// "A no ends the call with the number and a place."
#[derive(Clone, Copy, Debug, PartialEq, Eq)]
pub struct Refusal {
    /// The number of the question.
    pub question: u64,
    /// Where it fails first: a section, setting, state, row or table.
    pub place: u64,
}

/// The refusal at a place counted from 0.
pub fn refused(question: u64, place: usize) -> Refusal {
    Refusal { question, place: place as u64 }
}

/// A state that is not a goal, or a goal, with its rows.
#[derive(Clone, Copy, Debug)]
pub struct State {
    /// The number of its first row in the file.
    pub first_row: u16,
    /// One past the number of its last row.
    pub end_row: u16,
}

impl State {
    /// The numbers of its rows.
    pub fn rows(&self) -> Range<usize> {
        usize::from(self.first_row)..usize::from(self.end_row)
    }
}

/// A row: its cost and where its outcomes stand.
#[derive(Clone, Copy, Debug)]
pub struct Row {
    /// 1000 × c, in ticks.
    pub cost: u32,
    /// The index of its first outcome.
    pub first_outcome: u16,
    /// One past the index of its last outcome.
    pub end_outcome: u16,
}

impl Row {
    /// The indices of its outcomes.
    pub fn outcomes(&self) -> Range<usize> {
        usize::from(self.first_outcome)..usize::from(self.end_outcome)
    }
}

/// "Successor state (16 bits), weight w (16 bits, 1 to 1,000)"; since E7, 1 to W.
#[derive(Clone, Copy, Debug)]
pub struct Outcome {
    pub successor: u16,
    pub weight: u16,
}

/// A file that questions 1 to 11 let pass, decoded.
#[derive(Clone, Debug)]
pub struct Problem {
    /// The start state.
    pub start: usize,
    /// The tolerance e, in ticks.
    pub tolerance: u32,
    /// 1000 × D, in ticks: what giving up costs.
    pub give_up_cost: u32,
    /// The weight total W.
    pub total: u32,
    /// H of each state, in ticks.
    pub estimates: Vec<u32>,
    /// Whether each state is a goal.
    pub goals: Vec<bool>,
    /// The states in order.
    pub states: Vec<State>,
    /// The rows of all states, in state order.
    pub rows: Vec<Row>,
    /// The outcomes of all rows, in row order.
    pub outcomes: Vec<Outcome>,
    /// Each row's value under H.
    pub first_values: Vec<u32>,
    /// Where the first row's bytes stand in the file.
    rows_offset: usize,
}

impl Problem {
    /// Reads a file, putting questions 1 to 11 in order.
    pub fn read(file: &[u8]) -> Result<Problem, Refusal> {
        Problem::read_within(&IN_FORCE, file)
    }

    /// Reads a file as one does who has these limits. E9: "An older reader meets a larger file with question
    /// 2."
    pub fn read_within(limits: &Counts, file: &[u8]) -> Result<Problem, Refusal> {
        let sections = cut_sections(limits, file)?;
        let items = |section: usize| &file[sections[section].clone()];
        let state_count = items(1).len() / STATE_BYTES;
        let [start, tolerance, penalty, total] = read_settings(items(0), state_count)?;
        let mut problem = Problem {
            start: start as usize,
            tolerance,
            give_up_cost: TICKS * penalty,
            total,
            estimates: Vec::with_capacity(state_count),
            goals: Vec::with_capacity(state_count),
            states: Vec::with_capacity(state_count),
            rows: Vec::with_capacity(items(2).len() / ROW_BYTES),
            outcomes: Vec::with_capacity(items(3).len() / OUTCOME_BYTES),
            first_values: Vec::with_capacity(items(2).len() / ROW_BYTES),
            rows_offset: sections[2].start,
        };
        problem.read_states(items(1), items(2).len() / ROW_BYTES)?;
        problem.read_rows(items(2), items(3).len() / OUTCOME_BYTES)?;
        by_total!(total, W => {
            problem.read_outcomes::<W>(items(3))?;
            problem.weigh_estimates::<W>()?;
        });
        Ok(problem)
    }

    /// How many states, rows and outcomes it has.
    pub fn counts(&self) -> Counts {
        let (states, rows) = (self.states.len(), self.rows.len());
        Counts { states, rows, outcomes: self.outcomes.len() }
    }

    /// "Does each state obey section 1? 5 (state). Is the start no goal? 6 (the start's state
    /// number). Do the states' row numbers add to the row count? 7 (0)."
    fn read_states(&mut self, items: &[u8], row_count: usize) -> Result<(), Refusal> {
        let mut rows_before = 0usize;
        for (number, item) in items.chunks_exact(STATE_BYTES).enumerate() {
            let estimate = u32::from_le_bytes([item[0], item[1], item[2], item[3]]);
            let (row_number, goal) = (item[4], item[5]);
            if !state_obeys(estimate, row_number, goal, self.give_up_cost) {
                return Err(refused(5, number));
            }
            let first_row = rows_before;
            rows_before += usize::from(row_number);
            self.estimates.push(estimate);
            self.goals.push(goal == 1);
            // The casts cut nothing where question 7 passes: the sum is then at most 8,192.
            self.states.push(State { first_row: first_row as u16, end_row: rows_before as u16 });
        }
        if self.goals[self.start] {
            return Err(refused(6, self.start));
        }
        if rows_before != row_count {
            return Err(refused(7, 0));
        }
        Ok(())
    }

    /// "Does each row obey section 2? 8 (row). Do their outcome numbers add to the outcome count?
    /// 9 (0)."
    fn read_rows(&mut self, items: &[u8], outcome_count: usize) -> Result<(), Refusal> {
        let mut outcomes_before = 0usize;
        for (number, item) in items.chunks_exact(ROW_BYTES).enumerate() {
            let (kind, outcome_number) = (item[0], item[1]);
            let cost_number = u16::from_le_bytes([item[2], item[3]]);
            let seconds = match seconds_of(kind, cost_number) {
                Some(seconds) if outcome_number > 0 => seconds,
                _ => return Err(refused(8, number)),
            };
            let first_outcome = outcomes_before;
            outcomes_before += usize::from(outcome_number);
            // The casts cut nothing where question 9 passes: the sum is then at most 16,384.
            self.rows.push(Row {
                cost: TICKS * seconds,
                first_outcome: first_outcome as u16,
                end_outcome: outcomes_before as u16,
            });
        }
        if outcomes_before != outcome_count {
            return Err(refused(9, 0));
        }
        Ok(())
    }

    /// "Are each row's successors states, its weights in range, its total 1,000? 10 (row)." Since E7
    /// "W replaces 1,000 in the weight range, the row total".
    fn read_outcomes<const W: u32>(&mut self, items: &[u8]) -> Result<(), Refusal> {
        self.outcomes.extend(items.chunks_exact(OUTCOME_BYTES).map(|item| Outcome {
            successor: u16::from_le_bytes([item[0], item[1]]),
            weight: u16::from_le_bytes([item[2], item[3]]),
        }));
        let state_count = self.states.len();
        for (number, row) in self.rows.iter().enumerate() {
            let mut total = 0;
            for outcome in &self.outcomes[row.outcomes()] {
                let weight = u32::from(outcome.weight);
                let in_range = (1..=W).contains(&weight);
                if usize::from(outcome.successor) >= state_count || !in_range {
                    return Err(refused(10, number));
                }
                total += weight;
            }
            if total != W {
                return Err(refused(10, number));
            }
        }
        Ok(())
    }

    /// "Is H of each row's state at most the row value under H? 11 (row)." Keeps the row values.
    fn weigh_estimates<const W: u32>(&mut self) -> Result<(), Refusal> {
        for (state, &estimate) in self.states.iter().zip(&self.estimates) {
            for row in state.rows() {
                let value = self.row_value_in::<W>(row, &self.estimates);
                if estimate > value {
                    return Err(refused(11, row));
                }
                self.first_values.push(value);
            }
        }
        Ok(())
    }

    /// The row value under a table: "1000 × c plus the sum of w × V(successor) divided by 1,000,
    /// rounded down once, after the sum." Since E7 W replaces 1,000 in the division.
    pub fn row_value(&self, row: usize, values: &[u32]) -> u32 {
        let row = &self.rows[row];
        row.cost + average(&self.outcomes[row.outcomes()], values, self.total)
    }

    /// The row value where the total is known to be W.
    #[inline(always)]
    pub fn row_value_in<const W: u32>(&self, row: usize, values: &[u32]) -> u32 {
        let row = &self.rows[row];
        row.cost + average(&self.outcomes[row.outcomes()], values, W)
    }

    /// E3: "The row value shall come with its remainder, 0 to 999, wherever it is computed." What
    /// rounding down takes away from it, in W-ths of a tick: since E7 "Remainders run below W". No
    /// round needs it, so it has a sum of its own.
    pub fn row_remainder(&self, row: usize, values: &[u32]) -> u32 {
        let sum = weighted_sum(&self.outcomes[self.rows[row].outcomes()], values);
        (sum % u64::from(self.total)) as u32
    }

    /// "Looking up a state gives back its rows as a stretch of the caller's bytes." None where the
    /// number is not a state.
    pub fn rows_of(&self, state: u64) -> Option<Range<usize>> {
        let rows = self.states.get(usize::try_from(state).ok()?)?.rows();
        Some(self.rows_offset + ROW_BYTES * rows.start..self.rows_offset + ROW_BYTES * rows.end)
    }
}

/// The stretch of a state's rows: "empty where the file is refused under questions 1 to 11 or the
/// number isn't a state."
pub fn lookup(file: &[u8], state: u64) -> &[u8] {
    let stretch = Problem::read(file).ok().and_then(|problem| problem.rows_of(state));
    stretch.map_or(&[], |stretch| &file[stretch])
}

/// The sum of w × V(successor) divided by W, rounded down once.
///
/// On an accepted file, under a table of values of at most 1000 × D, it is at most 400,000,000.
#[inline(always)]
pub fn average(outcomes: &[Outcome], values: &[u32], total: u32) -> u32 {
    (weighted_sum(outcomes, values) / u64::from(total)) as u32
}

/// The sum of w × V(successor).
#[inline(always)]
fn weighted_sum(outcomes: &[Outcome], values: &[u32]) -> u64 {
    let weighted = |outcome: &Outcome| {
        u64::from(outcome.weight) * u64::from(values[usize::from(outcome.successor)])
    };
    outcomes.iter().map(weighted).sum()
}

/// The seconds of a row: "Kind 0: c seconds, 1 to 65,535. Kind 1: melt rate r, 10 to 1,000; c is
/// 600,000 / r rounded up." None where the kind or the number is out of range.
pub fn seconds_of(kind: u8, number: u16) -> Option<u32> {
    match kind {
        KIND_SECONDS if number >= 1 => Some(u32::from(number)),
        KIND_RATE if (MIN_RATE..=MAX_RATE).contains(&number) => {
            Some(STICK.div_ceil(u32::from(number)))
        }
        _ => None,
    }
}

/// "A goal has no rows and H = 0. H is at most 1000 × D." The goal byte is 1 or 0.
fn state_obeys(estimate: u32, row_number: u8, goal: u8, give_up_cost: u32) -> bool {
    match goal {
        0 => estimate <= give_up_cost,
        1 => estimate == 0 && row_number == 0,
        _ => false,
    }
}

/// "Is the start below the state count, then e, then D in range? 4 (setting 0 to 2)." And since E7:
/// "24 when the fourth setting isn't one of these, asked after the third under place 3". "With count 3,
/// W is 1,000."
fn read_settings(items: &[u8], state_count: usize) -> Result<[u32; MOST_SETTINGS], Refusal> {
    let setting = |number: usize| {
        let at = SETTING_BYTES * number;
        u32::from_le_bytes([items[at], items[at + 1], items[at + 2], items[at + 3]])
    };
    let [start, tolerance, penalty] = [setting(0), setting(1), setting(2)];
    let total = match items.len() / SETTING_BYTES {
        MOST_SETTINGS => setting(SETTINGS),
        _ => USUAL_TOTAL,
    };
    if start >= state_count as u32 {
        return Err(refused(4, 0));
    }
    if !(1..=MAX_TOLERANCE).contains(&tolerance) {
        return Err(refused(4, 1));
    }
    if !(1..=MAX_PENALTY).contains(&penalty) {
        return Err(refused(4, 2));
    }
    if !TOTALS.contains(&total) {
        return Err(refused(24, 3));
    }
    Ok([start, tolerance, penalty, total])
}

/// The range of a section's count and the bytes of one of its items.
struct Section {
    least: usize,
    most: usize,
    item_bytes: usize,
}

/// "Four sections in this order, each after its 16-bit count", under limits.
fn sections_within(limits: &Counts) -> [Section; 4] {
    [
        Section { least: SETTINGS, most: MOST_SETTINGS, item_bytes: SETTING_BYTES },
        Section { least: 1, most: limits.states, item_bytes: STATE_BYTES },
        Section { least: 0, most: limits.rows, item_bytes: ROW_BYTES },
        Section { least: 0, most: limits.outcomes, item_bytes: OUTCOME_BYTES },
    ]
}

/// "Section by section: are count bytes there? 1. Is the count in range? 2. Are all items there? 1.
/// (Place: section.) Does the file end there? 3 (3)." Gives where each section's items stand.
fn cut_sections(limits: &Counts, file: &[u8]) -> Result<[Range<usize>; 4], Refusal> {
    let mut cut = [const { 0..0 }; 4];
    let mut at = 0;
    for (number, section) in sections_within(limits).iter().enumerate() {
        let first = at + COUNT_BYTES;
        let Some(count) = file.get(at..first) else {
            return Err(refused(1, number));
        };
        let count = usize::from(u16::from_le_bytes([count[0], count[1]]));
        if !(section.least..=section.most).contains(&count) {
            return Err(refused(2, number));
        }
        at = first + count * section.item_bytes;
        if at > file.len() {
            return Err(refused(1, number));
        }
        cut[number] = first..at;
    }
    if at != file.len() {
        return Err(refused(3, 3));
    }
    Ok(cut)
}

#[cfg(test)]
mod tests {
    use super::*;
    use crate::damage::damaged;
    use crate::extremes::sized;
    use crate::made::made;
    use crate::random::Random;
    use crate::totals::FOURTHS;

    /// The refusal of a file, if any, by a reader with limits.
    fn refusal(limits: &Counts, file: &[u8]) -> Option<Refusal> {
        Problem::read_within(limits, file).err()
    }

    /// Files around the limits of either reader: each meets question 2 in the section that is too long for
    /// it, the older one in every larger file.
    #[test]
    fn an_older_reader_meets_a_larger_file_with_question_2() {
        let mut random = Random::new(16);
        let around = OLD.around().into_iter().chain(IN_FORCE.around()).cycle();
        for (counts, fourth) in around.zip(FOURTHS.into_iter().cycle()).take(70) {
            let file = sized(&mut random, counts, true, 5_000, fourth).bytes();
            for limits in [OLD, IN_FORCE] {
                let asked = counts.beyond(&limits).map(|section| refused(2, section));
                assert_eq!(refusal(&limits, &file), asked, "{counts:?} within {limits:?}");
            }
        }
    }

    /// "every stored file within the old counts .. gives the same answer".
    #[test]
    fn files_within_the_old_counts_are_read_the_same() {
        let mut random = Random::new(17);
        let (mut within, mut larger) = (0, 0);
        for _ in 0..4_000 {
            let draft = made(&mut random);
            for file in [draft.bytes(), damaged(&mut random, &draft)] {
                let [old, new] = [OLD, IN_FORCE].map(|limits| refusal(&limits, &file));
                match old {
                    Some(Refusal { question: 2, .. }) if old != new => larger += 1,
                    _ => {
                        assert_eq!(old, new);
                        within += 1;
                    }
                }
            }
        }
        assert!(within > 7_000 && larger > 50, "{within}, {larger}");
    }
}
