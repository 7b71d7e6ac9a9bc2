//! The product's C interface (`libcapi.a`), on slices, and what its functions return.
//!
//! The functions are inlined into the programs that call them, and only those ask for the archive:
//! `build.rs` names them.

use crate::audit::Verdict;
use crate::follower::{Followed, Record};
use crate::problem::Problem;
use crate::solver::{Answer, Kind, Tables};

/// Declares C functions with the arguments of the product's runs.
#[macro_export]
macro_rules! declare_runs {
    ($($name:ident),*) => {
        extern "C" {
            $(fn $name(
                file: *const u8,
                file_length: usize,
                budget: u64,
                values: *mut u32,
                values_length: usize,
                picks: *mut u16,
                picks_length: usize,
                remembered: *mut u32,
                remembered_length: usize,
                walk: *mut u16,
                walk_length: usize,
                answer: *mut u64,
                answer_length: usize,
            ) -> u8;)*
        }
    };
}
declare_runs!(cuulipso_solve, cuulipso_finish);

extern "C" {
    fn cuulipso_check(
        file: *const u8,
        file_length: usize,
        answer: *mut u64,
        answer_length: usize,
    ) -> u8;
    fn cuulipso_rows(
        file: *const u8,
        file_length: usize,
        state: u64,
        out: *mut u8,
        out_length: usize,
    ) -> u64;
    fn cuulipso_audit(
        file: *const u8,
        file_length: usize,
        values: *const u32,
        values_length: usize,
        picks: *const u16,
        picks_length: usize,
        answer: *mut i64,
        answer_length: usize,
    ) -> u8;
    fn cuulipso_open(
        file: *const u8,
        file_length: usize,
        values: *const u32,
        values_length: usize,
        picks: *const u16,
        picks_length: usize,
        record: *mut Record,
        answer: *mut i64,
        answer_length: usize,
    ) -> u8;
    fn cuulipso_report(
        file: *const u8,
        file_length: usize,
        values: *const u32,
        values_length: usize,
        picks: *const u16,
        picks_length: usize,
        outcome: u64,
        record: *mut Record,
        answer: *mut i64,
        answer_length: usize,
    ) -> u8;
    fn cuulipso_set_form(
        file: *const u8,
        file_length: usize,
        out: *mut u8,
        out_length: usize,
        answer: *mut u64,
        answer_length: usize,
    ) -> u8;
}

/// The entries that an answer needs.
pub const ANSWER: usize = 3;

/// The code of a file, a run, an audit, an opening, a report or a set form that is refused.
pub const REFUSED: u8 = 0;
/// The code of a solved run.
pub const SOLVED: u8 = 1;
/// The code of a spent run.
pub const SPENT: u8 = 2;
/// The code of a file that passes.
pub const PASSED: u8 = 3;
/// The code of an audit that accepts.
pub const ACCEPTED: u8 = 3;
/// The code of an opening or a report that is done.
pub const DONE: u8 = 3;
/// The code of a set form that is written.
pub const WRITTEN: u8 = 3;
/// The code of an answer lent too short.
pub const TOO_SHORT: u8 = 4;

/// The product's check of a file.
#[inline]
pub fn check(file: &[u8], answer: &mut [u64]) -> u8 {
    // SAFETY: each pointer stands with its slice's own length, here and below.
    unsafe { cuulipso_check(file.as_ptr(), file.len(), answer.as_mut_ptr(), answer.len()) }
}

/// The product's lookup of a state's rows.
#[inline]
pub fn rows(file: &[u8], state: u64, out: &mut [u8]) -> u64 {
    unsafe { cuulipso_rows(file.as_ptr(), file.len(), state, out.as_mut_ptr(), out.len()) }
}

/// The product's plain run.
#[inline]
pub fn solve(file: &[u8], budget: u64, tables: Tables, answer: &mut [u64]) -> u8 {
    run(Kind::Plain, file, budget, tables, answer)
}

/// The product's run of a kind.
#[inline]
pub fn run(kind: Kind, file: &[u8], budget: u64, tables: Tables, answer: &mut [u64]) -> u8 {
    let function = match kind {
        Kind::Plain => cuulipso_solve,
        Kind::Finishing => cuulipso_finish,
    };
    run_by(function, file, budget, tables, answer)
}

/// A C function with the arguments of the product's runs.
pub type RunFunction = unsafe extern "C" fn(
    file: *const u8,
    file_length: usize,
    budget: u64,
    values: *mut u32,
    values_length: usize,
    picks: *mut u16,
    picks_length: usize,
    remembered: *mut u32,
    remembered_length: usize,
    walk: *mut u16,
    walk_length: usize,
    answer: *mut u64,
    answer_length: usize,
) -> u8;

/// The run of such a function, which keeps to the lengths that it is given.
#[inline]
pub fn run_by(
    function: RunFunction,
    file: &[u8],
    budget: u64,
    tables: Tables,
    answer: &mut [u64],
) -> u8 {
    let Tables { values, picks, remembered, walk } = tables;
    unsafe {
        function(
            file.as_ptr(),
            file.len(),
            budget,
            values.as_mut_ptr(),
            values.len(),
            picks.as_mut_ptr(),
            picks.len(),
            remembered.as_mut_ptr(),
            remembered.len(),
            walk.as_mut_ptr(),
            walk.len(),
            answer.as_mut_ptr(),
            answer.len(),
        )
    }
}

/// The product's audit. Its tables are lent so that they could be written, by which a comparison sees
/// whether they were.
#[inline]
pub fn audit(file: &[u8], values: &mut [u32], picks: &mut [u16], answer: &mut [i64]) -> u8 {
    unsafe {
        cuulipso_audit(
            file.as_ptr(),
            file.len(),
            values.as_mut_ptr(),
            values.len(),
            picks.as_mut_ptr(),
            picks.len(),
            answer.as_mut_ptr(),
            answer.len(),
        )
    }
}

/// The product's opening of a follower. Its tables are lent as those of an audit are.
#[inline]
pub fn open(
    file: &[u8],
    values: &mut [u32],
    picks: &mut [u16],
    record: &mut Record,
    answer: &mut [i64],
) -> u8 {
    unsafe {
        cuulipso_open(
            file.as_ptr(),
            file.len(),
            values.as_mut_ptr(),
            values.len(),
            picks.as_mut_ptr(),
            picks.len(),
            record,
            answer.as_mut_ptr(),
            answer.len(),
        )
    }
}

/// The product's report of an outcome.
#[inline]
pub fn report(
    file: &[u8],
    values: &mut [u32],
    picks: &mut [u16],
    outcome: u64,
    record: &mut Record,
    answer: &mut [i64],
) -> u8 {
    unsafe {
        cuulipso_report(
            file.as_ptr(),
            file.len(),
            values.as_mut_ptr(),
            values.len(),
            picks.as_mut_ptr(),
            picks.len(),
            outcome,
            record,
            answer.as_mut_ptr(),
            answer.len(),
        )
    }
}

/// The product's set form of a file, written at the front of what is lent.
#[inline]
pub fn set_form(file: &[u8], out: &mut [u8], answer: &mut [u64]) -> u8 {
    unsafe {
        cuulipso_set_form(
            file.as_ptr(),
            file.len(),
            out.as_mut_ptr(),
            out.len(),
            answer.as_mut_ptr(),
            answer.len(),
        )
    }
}

/// The code and the answer that the paper asks of a check.
pub fn asked_of_check(file: &[u8]) -> (u8, [u64; ANSWER]) {
    match Problem::read(file) {
        Ok(_) => (PASSED, [0, 0, 0]),
        Err(refusal) => (REFUSED, [refusal.question, refusal.place, 0]),
    }
}

/// The code and the answer that the paper asks of a run.
pub fn asked_of_run(answer: Answer) -> (u8, [u64; ANSWER]) {
    match answer {
        Answer::Solved { rounds, evaluations, least_cost } => {
            (SOLVED, [rounds, evaluations, u64::from(least_cost)])
        }
        Answer::Spent { rounds, evaluations } => (SPENT, [rounds, evaluations, 0]),
        Answer::Refused(refusal) => (REFUSED, [refusal.question, refusal.place, 0]),
    }
}

/// The code and the answer that the paper asks of an audit.
pub fn asked_of_audit(verdict: Verdict) -> (u8, [i64; ANSWER]) {
    match verdict {
        Verdict::Accepted { least_cost } => (ACCEPTED, [i64::from(least_cost), 0, 0]),
        Verdict::Refused { question, place, excess } => {
            (REFUSED, [question as i64, place as i64, excess])
        }
    }
}

/// The code and the answer that the paper asks of an opening or a report which leaves a record.
pub fn asked_of_follower(followed: Followed, record: &Record) -> (u8, [i64; ANSWER]) {
    match followed {
        Followed::Done => (DONE, [record.state, record.moves, record.seconds].map(|n| n as i64)),
        Followed::Refused { question, place, excess } => {
            (REFUSED, [question as i64, place as i64, excess])
        }
    }
}

/// What a call that asks for a code and an answer leaves where an answer is lent: the code, and the
/// entries. One lent too short stays as it is.
pub fn asked_of_lent<T: Copy>(code: u8, answer: [T; ANSWER], lent: &[T]) -> (u8, Vec<T>) {
    let mut entries = lent.to_vec();
    match entries.get_mut(..ANSWER) {
        Some(front) => front.copy_from_slice(&answer),
        None => return (TOO_SHORT, entries),
    }
    (code, entries)
}
