//! What the programs write: the lines of `plan` (document 01's "Melt-room cases") with question 25, which
//! it alone asks, and the line of `audit`.

use crate::audit::Verdict;
use crate::limits::{GIVE_UP, PLAN_HOLDS, PLAN_ROUNDS};
use crate::problem::{refused, Problem, Refusal};
use crate::solver::{run, Answer, Kind, OwnedTables};
use std::fmt::Write;

/// The question that `plan` alone asks.
pub const TOO_LONG: u64 = 25;

/// What a run of `plan` leaves: its lines, and its tables unless the file is refused.
pub struct Planned {
    pub lines: String,
    pub tables: Option<OwnedTables>,
}

/// The run of `plan` on a file.
pub fn planned(file: &[u8]) -> Planned {
    planned_by(Kind::Plain, file)
}

/// The run of `plan` on a file by a kind of run: `--finish` asks for the finishing one.
pub fn planned_by(kind: Kind, file: &[u8]) -> Planned {
    match too_long(file) {
        Some(refusal) => Planned { lines: refusal_line(refusal), tables: None },
        None => planned_at_any_length(kind, file),
    }
}

/// E9: "25 when the standard input of `plan` is longer than 65,536 bytes, before question 1, place 0."
fn too_long(input: &[u8]) -> Option<Refusal> {
    (input.len() > PLAN_HOLDS).then(|| refused(TOO_LONG, 0))
}

/// The run of `plan` on a file of any length.
pub fn planned_at_any_length(kind: Kind, file: &[u8]) -> Planned {
    planned_within(kind, file, PLAN_ROUNDS)
}

/// The run on a file of any length, were it to have so many rounds.
pub fn planned_within(kind: Kind, file: &[u8], rounds: u64) -> Planned {
    let refused = |refusal| Planned { lines: refusal_line(refusal), tables: None };
    let problem = match Problem::read(file) {
        Ok(problem) => problem,
        Err(refusal) => return refused(refusal),
    };
    let mut tables = OwnedTables::new(&problem);
    let head = match run(kind, &problem, rounds, tables.lend()).answer {
        Answer::Solved { rounds, evaluations, least_cost } => {
            format!("solved {rounds} {evaluations} {least_cost}\n")
        }
        Answer::Spent { rounds, evaluations } => format!("spent {rounds} {evaluations}\n"),
        Answer::Refused(refusal) => return refused(refusal),
    };
    Planned { lines: head + &state_lines(&problem, &tables), tables: Some(tables) }
}

/// Whether runs of both kinds on a file are refused or end within so many rounds: where the finishing run
/// ends, the plain one did before.
pub fn ends_within(file: &[u8], rounds: u64) -> bool {
    let Ok(problem) = Problem::read(file) else {
        return true;
    };
    let run = run(Kind::Finishing, &problem, rounds, OwnedTables::new(&problem).lend());
    !matches!(run.answer, Answer::Spent { .. })
}

/// All that `plan` writes on standard output.
pub fn plan_lines(file: &[u8]) -> String {
    planned(file).lines
}

/// How many state lines of `plan` end with a remainder of at least so much.
pub fn remainders_from(least: u32, lines: &str) -> u64 {
    let remainder = |line: &str| line.rsplit(' ').next().and_then(|word| word.parse().ok());
    let remainders = lines.lines().skip(1).filter_map(remainder);
    remainders.filter(|&remainder: &u32| remainder >= least).count() as u64
}

/// The line of `audit`: `accepted` C, or `refused` number place excess.
pub fn audit_line(verdict: Verdict) -> String {
    match verdict {
        Verdict::Accepted { least_cost } => format!("accepted {least_cost}\n"),
        Verdict::Refused { question, place, excess } => {
            format!("refused {question} {place} {excess}\n")
        }
    }
}

/// "A refusal prints `refused` number place."
fn refusal_line(refusal: Refusal) -> String {
    format!("refused {} {}\n", refusal.question, refusal.place)
}

/// "For each state of the last walk, by state number: state, value, row or `give`." And since E3:
/// "Each state line of `plan` ends with the remainder of its pick under the final values, 0 for
/// `give`." Since E7 "Remainders run below W".
fn state_lines(problem: &Problem, tables: &OwnedTables) -> String {
    let mut walked: Vec<u16> = tables.walk.iter().copied().filter(|&s| s != GIVE_UP).collect();
    walked.sort_unstable();
    let mut lines = String::new();
    for state in walked.into_iter().map(usize::from) {
        let value = tables.values[state];
        let line = match tables.picks[state] {
            GIVE_UP => writeln!(lines, "{state} {value} give 0"),
            row => {
                let remainder = problem.row_remainder(usize::from(row), &tables.values);
                writeln!(lines, "{state} {value} {row} {remainder}")
            }
        };
        line.expect("a string takes every line");
    }
    lines
}

#[cfg(test)]
mod tests {
    use super::*;
    use crate::audit::audit_file;
    use crate::extremes::of_length;
    use crate::random::Random;
    use crate::solver::KINDS;
    use crate::totals::FOURTHS;

    /// "`plan` holds 65,536 bytes; a file above that goes to the library": the last file that it holds, that
    /// file and a byte more, which question 3 refuses elsewhere, and the next longer files, which pass elsewhere.
    #[test]
    fn plan_refuses_what_it_does_not_hold_before_all_else() {
        let mut random = Random::new(18);
        for (kind, fourth) in KINDS.into_iter().flat_map(|kind| FOURTHS.map(|f| (kind, f))) {
            let mut file_of = |bytes| of_length(&mut random, bytes, true, 5_000, fourth).bytes();
            let held = file_of(PLAN_HOLDS);
            assert!(planned_by(kind, &held).lines.starts_with("solved "));
            let more = [&held[..], &[0]].concat();
            assert_eq!(planned_by(kind, &more).lines, "refused 25 0\n");
            assert_eq!(planned_at_any_length(kind, &more).lines, "refused 3 3\n");
            assert_eq!(audit_line(audit_file(&more, &[], &[])), "refused 3 3 0\n");
            for file in [file_of(PLAN_HOLDS + 2), file_of(PLAN_HOLDS + 4)] {
                let refused = planned_by(kind, &file);
                assert_eq!((refused.lines.as_str(), refused.tables), ("refused 25 0\n", None));
                assert!(planned_at_any_length(kind, &file).lines.starts_with("solved "));
            }
        }
        assert_eq!(plan_lines(&[0; PLAN_HOLDS]), "refused 2 0\n");
        assert_eq!(plan_lines(&[0; PLAN_HOLDS + 1]), "refused 25 0\n");
    }
}
