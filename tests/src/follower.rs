//! The follower of request E2, "Following a plan through the shift", over the reader and the audit of
//! this folder.

use crate::audit::{audit, pick_of, Pick, Verdict};
use crate::limits::{MAX_MOVES, MAX_SECONDS, TICKS};
use crate::problem::Problem;

/// "The record of state, moves and seconds spent is lent and altered by each report." Its mark is 0
/// where it is clear and anything else where it is set. The product has the same four, in this order.
#[repr(C)]
#[derive(Clone, Copy, Debug, PartialEq, Eq)]
pub struct Record {
    pub state: u64,
    pub moves: u64,
    pub seconds: u64,
    pub mark: u64,
}

/// What an opening or a report says: done, or the question that says no.
#[derive(Clone, Copy, Debug, PartialEq, Eq)]
pub enum Followed {
    Done,
    Refused { question: u64, place: u64, excess: i64 },
}

/// "A follower is opened on a file and an accepted plan at the start state." "Opening starts with no
/// moves, no seconds and the mark clear."
pub fn open(file: &[u8], values: &[u32], picks: &[u16], record: &mut Record) -> Followed {
    match accepted(file, values, picks) {
        Ok(problem) => {
            *record = Record { state: problem.start as u64, moves: 0, seconds: 0, mark: 0 };
            Followed::Done
        }
        Err(refused) => refused,
    }
}

/// "Each report names which outcome of the picked row occurred, counted from 0." "A refused opening or
/// report alters nothing."
pub fn report(
    file: &[u8],
    values: &[u32],
    picks: &[u16],
    outcome: u64,
    record: &mut Record,
) -> Followed {
    let problem = match accepted(file, values, picks) {
        Ok(problem) => problem,
        Err(refused) => return refused,
    };
    match reasons(&problem, picks, outcome, record).first() {
        Some(reason) => Followed::Refused { question: reason.question(), place: 0, excess: 0 },
        None => {
            advance(&problem, picks, outcome, record);
            Followed::Done
        }
    }
}

/// "Opening and each report put the audit's questions first." The problem, where all say yes.
fn accepted(file: &[u8], values: &[u32], picks: &[u16]) -> Result<Problem, Followed> {
    let problem = Problem::read(file).map_err(|no| Followed::Refused {
        question: no.question,
        place: no.place,
        excess: 0,
    })?;
    match audit(&problem, values, picks) {
        Verdict::Accepted { .. } => Ok(problem),
        Verdict::Refused { question, place, excess } => {
            Err(Followed::Refused { question, place, excess })
        }
    }
}

/// Why a report on an accepted plan is refused.
#[derive(Clone, Copy, Debug, PartialEq, Eq)]
pub enum Reason {
    Mark,
    Goal,
    Moves,
    Seconds,
    NoState,
    NoPick,
    NoOutcome,
}

impl Reason {
    /// The question that it fails.
    pub fn question(self) -> u64 {
        match self {
            Reason::Mark | Reason::Goal => 20,
            Reason::Moves | Reason::Seconds => 21,
            Reason::NoState | Reason::NoPick | Reason::NoOutcome => 22,
        }
    }
}

/// "Then a report meets 20 when the mark is set or the record's state is a goal, 21 at a million moves
/// or more or above 400,000,000,000 seconds, and 22 when the record's state isn't in the file, has no
/// pick of its own, or its pick has no such outcome, in that order": the reasons that hold, in order.
pub fn reasons(problem: &Problem, picks: &[u16], outcome: u64, record: &Record) -> Vec<Reason> {
    let state = state_in_file(problem, record);
    let pick = pick_at(problem, picks, record);
    let all = [
        (Reason::Mark, record.mark != 0),
        (Reason::Goal, state.is_some_and(|state| problem.goals[state])),
        (Reason::Moves, record.moves >= MAX_MOVES),
        (Reason::Seconds, record.seconds > MAX_SECONDS),
        (Reason::NoState, state.is_none()),
        (Reason::NoPick, pick == Some(Pick::Neither)),
        (Reason::NoOutcome, pick.is_some_and(|pick| outcome >= outcome_number(problem, pick))),
    ];
    all.into_iter().filter(|&(_, holds)| holds).map(|(reason, _)| reason).collect()
}

/// The record's state, where it is in the file.
fn state_in_file(problem: &Problem, record: &Record) -> Option<usize> {
    usize::try_from(record.state).ok().filter(|&state| state < problem.states.len())
}

/// The pick at the record's state, where that is in the file.
pub fn pick_at(problem: &Problem, picks: &[u16], record: &Record) -> Option<Pick> {
    state_in_file(problem, record).map(|state| pick_of(problem, picks, state))
}

/// How many outcomes a pick has. "A state that gives up has outcome 0 only."
pub fn outcome_number(problem: &Problem, pick: Pick) -> u64 {
    match pick {
        Pick::Row(row) => problem.rows[row].outcomes().len() as u64,
        Pick::GiveUp => 1,
        Pick::Neither => 0,
    }
}

/// An accepted report. Under a picked row the record goes to the outcome's successor, and the row's
/// seconds are spent. Giving up "counts as a move, adds D, keeps the state, sets a mark in the record
/// and so ends it".
fn advance(problem: &Problem, picks: &[u16], outcome: u64, record: &mut Record) {
    record.moves += 1;
    match pick_of(problem, picks, record.state as usize) {
        Pick::Row(row) => {
            let row = &problem.rows[row];
            let outcome = &problem.outcomes[row.outcomes()][outcome as usize];
            record.seconds += u64::from(row.cost / TICKS);
            record.state = u64::from(outcome.successor);
        }
        _ => {
            record.seconds += u64::from(problem.give_up_cost / TICKS);
            record.mark = 1;
        }
    }
}

#[cfg(test)]
mod tests {
    use super::*;
    use crate::cases::run;
    use crate::encode::Draft;
    use crate::examples::{file_p, p_with_penalty};
    use crate::solver::OwnedTables;

    /// A refusal under 20, 21 or 22.
    fn refused(question: u64) -> Followed {
        Followed::Refused { question, place: 0, excess: 0 }
    }

    /// A shift on the plan of a draft's run.
    struct Shift {
        file: Vec<u8>,
        tables: OwnedTables,
        record: Record,
    }

    impl Shift {
        /// A shift whose record holds anything but an opened one, and is then opened.
        fn opened(draft: &Draft) -> Shift {
            let (file, (_, tables)) = (draft.bytes(), run(draft));
            let mut record = Record { state: 9, moves: MAX_MOVES, seconds: 9, mark: 9 };
            assert_eq!(open(&file, &tables.values, &tables.picks, &mut record), Followed::Done);
            assert_eq!(record, Record { state: 0, moves: 0, seconds: 0, mark: 0 });
            Shift { file, tables, record }
        }

        /// Holds that a report is done and leaves state, moves, seconds and mark.
        fn done(&mut self, outcome: u64, [state, moves, seconds, mark]: [u64; 4]) {
            assert_eq!(self.report(outcome), Followed::Done);
            assert_eq!(self.record, Record { state, moves, seconds, mark });
        }

        /// Holds that a report meets a question and alters nothing.
        fn meets(&mut self, outcome: u64, question: u64) {
            let before = self.record;
            assert_eq!(self.report(outcome), refused(question));
            assert_eq!(self.record, before);
        }

        fn report(&mut self, outcome: u64) -> Followed {
            let OwnedTables { values, picks, .. } = &self.tables;
            report(&self.file, values, picks, outcome, &mut self.record)
        }
    }

    #[test]
    fn p_is_followed_to_its_goal() {
        let mut shift = Shift::opened(&file_p());
        shift.meets(2, 22);
        shift.done(0, [1, 1, 100, 0]);
        shift.meets(1, 22);
        shift.done(0, [2, 2, 400, 0]);
        shift.meets(0, 20);
    }

    #[test]
    fn p_is_followed_to_its_goal_at_once() {
        let mut shift = Shift::opened(&file_p());
        shift.done(1, [2, 1, 100, 0]);
        shift.meets(0, 20);
    }

    #[test]
    fn giving_up_ends_a_shift() {
        let mut shift = Shift::opened(&p_with_penalty(100));
        shift.meets(1, 22);
        shift.done(0, [0, 1, 100, 1]);
        shift.meets(0, 20);
        shift.meets(1, 20);
    }

    /// "20 when the mark is set or the record's state is a goal": a number that is no state is no goal.
    #[test]
    fn a_set_mark_and_a_goal_meet_20() {
        let mut shift = Shift::opened(&file_p());
        for mark in [1, 2, 1 << 32, u64::MAX] {
            shift.record = Record { state: 9, moves: MAX_MOVES, seconds: 0, mark };
            shift.meets(9, 20);
        }
        shift.record = Record { state: 2, moves: MAX_MOVES, seconds: 0, mark: 0 };
        shift.meets(9, 20);
        shift.record.state = 3;
        shift.meets(9, 21);
    }

    /// "21 at a million moves or more or above 400,000,000,000 seconds".
    #[test]
    fn a_full_shift_meets_21() {
        let last = Record { state: 0, moves: 999_999, seconds: 400_000_000_000, mark: 0 };
        let mut shift = Shift::opened(&file_p());
        shift.record = last;
        shift.done(0, [1, 1_000_000, 400_000_000_100, 0]);
        shift.meets(9, 21);
        shift.record = Record { moves: 1_000_000, ..last };
        shift.meets(0, 21);
        shift.record = Record { seconds: 400_000_000_001, ..last };
        shift.meets(0, 21);
    }

    /// "22 when the record's state isn't in the file, has no pick of its own": state 1 is not reached
    /// where P gives up, and state 0's rows are not its own.
    #[test]
    fn a_state_without_a_pick_of_its_own_meets_22() {
        let mut shift = Shift::opened(&p_with_penalty(100));
        for (state, pick) in [(1, 65_534), (1, 0), (1, 3), (3, 2), (65_536, 2), (u64::MAX, 2)] {
            shift.tables.picks[1] = pick;
            shift.record.state = state;
            shift.meets(0, 22);
        }
        shift.tables.picks[1] = 2;
        shift.record.state = 1;
        shift.done(0, [2, 1, 300, 0]);
    }

    /// "Opening and each report put the audit's questions first." "A refused opening or report alters
    /// nothing."
    #[test]
    fn the_audits_questions_come_first() {
        let mut shift = Shift::opened(&file_p());
        shift.tables.values[0] += 1;
        let ended = Record { state: 9, moves: MAX_MOVES, seconds: 9, mark: 9 };
        shift.record = ended;
        let asked = Followed::Refused { question: 17, place: 0, excess: 1 };
        assert_eq!(shift.report(0), asked);
        let OwnedTables { values, picks, .. } = &shift.tables;
        assert_eq!(open(&shift.file, values, picks, &mut shift.record), asked);
        assert_eq!(open(&[], values, picks, &mut shift.record), refused(1));
        assert_eq!(shift.record, ended);
    }
}
