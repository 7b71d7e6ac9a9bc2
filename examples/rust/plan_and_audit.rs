//! Checks, solves and audits a problem file through the C interface, and prints what it got.
//!
//!     rustc -O examples/rust/plan_and_audit.rs -C link-arg=crates/capi/out/libcapi.a
//!     ./plan_and_audit examples/P

use std::process::ExitCode;

extern "C" {
    fn cuulipso_check(
        file: *const u8,
        file_length: usize,
        answer: *mut u64,
        answer_length: usize,
    ) -> u8;
    fn cuulipso_solve(
        file: *const u8,
        file_length: usize,
        budget: u64,
        values: *mut u32,
        values_length: usize,
        picks: *mut u16,
        picks_length: usize,
        remembered: *mut u32,
        remembered_length: usize,
        walk: *mut u16,
        walk_length: usize,
        answer: *mut u64,
        answer_length: usize,
    ) -> u8;
    fn cuulipso_audit(
        file: *const u8,
        file_length: usize,
        values: *const u32,
        values_length: usize,
        picks: *const u16,
        picks_length: usize,
        answer: *mut i64,
        answer_length: usize,
    ) -> u8;
}

/// What the functions return; README.md has all of them.
const REFUSED: u8 = 0;
const SOLVED: u8 = 1;
const ACCEPTED: u8 = 3;
/// A pick of giving up, and the mark of an unused entry of a walk list.
const GIVE_UP: u16 = 65_535;
const NO_STATE: u16 = 65_535;
const ROUNDS: u64 = 1_000_000;

/// Tables that are always long enough.
struct Tables {
    values: [u32; 2_048],
    picks: [u16; 2_048],
    remembered: [u32; 8_192],
    walk: [u16; 2_048],
}

/// Puts questions 1 to 11; the question and place where one fails.
fn check(file: &[u8]) -> Result<(), [u64; 3]> {
    let mut answer = [0; 3];
    // SAFETY: each pointer stands with its table's own length, here and below.
    let code =
        unsafe { cuulipso_check(file.as_ptr(), file.len(), answer.as_mut_ptr(), answer.len()) };
    if code == REFUSED {
        Err(answer)
    } else {
        Ok(())
    }
}

/// Solves a file that passed: the code, and rounds, evaluations and C.
fn solve(file: &[u8], tables: &mut Tables) -> (u8, [u64; 3]) {
    let Tables { values, picks, remembered, walk } = tables;
    let mut answer = [0; 3];
    let code = unsafe {
        cuulipso_solve(
            file.as_ptr(),
            file.len(),
            ROUNDS,
            values.as_mut_ptr(),
            values.len(),
            picks.as_mut_ptr(),
            picks.len(),
            remembered.as_mut_ptr(),
            remembered.len(),
            walk.as_mut_ptr(),
            walk.len(),
            answer.as_mut_ptr(),
            answer.len(),
        )
    };
    (code, answer)
}

/// Audits the tables as they stand: C, or question, place and excess.
fn audit(file: &[u8], tables: &Tables) -> Result<i64, [i64; 3]> {
    let Tables { values, picks, .. } = tables;
    let mut answer = [0; 3];
    let code = unsafe {
        cuulipso_audit(
            file.as_ptr(),
            file.len(),
            values.as_ptr(),
            values.len(),
            picks.as_ptr(),
            picks.len(),
            answer.as_mut_ptr(),
            answer.len(),
        )
    };
    if code == ACCEPTED {
        Ok(answer[0])
    } else {
        Err(answer)
    }
}

/// Prints the states of the last walk, in the order of the walk.
fn print_states(tables: &Tables) {
    for &state in tables.walk.iter().take_while(|&&state| state != NO_STATE) {
        let value = tables.values[usize::from(state)];
        match tables.picks[usize::from(state)] {
            GIVE_UP => println!("state {state}: {value} ticks, give up"),
            row => println!("state {state}: {value} ticks, row {row}"),
        }
    }
}

fn print_audit(file: &[u8], tables: &Tables) {
    match audit(file, tables) {
        Ok(least) => println!("audit: accepted, C {least}"),
        Err([question, place, excess]) => {
            println!("audit: refused, question {question}, place {place}, excess {excess}")
        }
    }
}

fn main() -> ExitCode {
    let Some(file) = std::env::args().nth(1).and_then(|name| std::fs::read(name).ok()) else {
        eprintln!("plan_and_audit: give the name of a problem file");
        return ExitCode::FAILURE;
    };
    if let Err([question, place, _]) = check(&file) {
        println!("check: refused, question {question}, place {place}");
        return ExitCode::SUCCESS;
    }
    println!("check: passed");
    let mut tables = Tables {
        values: [0; 2_048],
        picks: [0; 2_048],
        remembered: [0; 8_192],
        walk: [NO_STATE; 2_048],
    };
    let (code, [rounds, evaluations, least]) = solve(&file, &mut tables);
    let word = if code == SOLVED { "solved" } else { "spent" };
    println!("solve: {word}, {rounds} rounds, {evaluations} evaluations, C {least}");
    print_states(&tables);
    print_audit(&file, &tables);
    tables.values[0] += 1;
    println!("with the value of state 0 a tick higher:");
    print_audit(&file, &tables);
    ExitCode::SUCCESS
}
