//! Compares the day of the programs, end to end, with the solver and the audit written apart: `plan
//! VALUES PICKS` prints and writes the run, `audit FILE VALUES PICKS` prints the verdict on what was
//! written, on values a tick higher, and on tables damaged in many ways; in every total. So too `plan
//! --finish VALUES PICKS`, whose tables are accepted under the file's tolerance and under 1. Of a file that
//! `plan` does not hold, `audit` prints the verdict all the same. And both say of the files of `stored.rs`
//! what they said before E9.
//!
//! `compare_programs [plan] [audit] [seed] [files]`

use comparisons::audit::{audit_file, Verdict};
use comparisons::damage::{damaged, one_wrong_each};
use comparisons::encode::Draft;
use comparisons::examples::{file_p, one_state, stick, with_total};
use comparisons::extremes::{
    about_limits, at_limits, deep_chain, endless, lengths_above, of_length,
};
use comparisons::finishing::{coarse, with_tolerance};
use comparisons::harness::{argument, noise, Tally};
use comparisons::limits::*;
use comparisons::listing::{
    audit_line, ends_within, planned, planned_at_any_length, planned_by, remainders_from, Planned,
};
use comparisons::made::made;
use comparisons::problem::FILE_QUESTIONS;
use comparisons::programs::{kind_words, taken, Folder, Program, Said};
use comparisons::random::Random;
use comparisons::solver::{Kind, OwnedTables, KINDS};
use comparisons::stored::{Stored, StoredTables};
use comparisons::table_files::{picks_bytes, picks_of, values_bytes, values_of};
use comparisons::totals::{Fourth, FOURTHS};
use std::process::ExitCode;

/// A made file whose run takes more rounds than this is left out.
const MOST_ROUNDS: u64 = 20_000;
/// The number of the first made file.
const FIRST_MADE: u64 = 25;
/// Damaged tables tried on each file.
const DAMAGES: usize = 6;
/// How often each of the questions 15 to 19 must be met.
const LEAST_MET: u64 = 20;
/// How often each of the questions 1 to 11 must be met.
const LEAST_OF_FILES: u64 = 5;
/// How many there must be of each answer, and of remainders above 0 in a plan's lines, in each total its
/// share; `refused` are the audits that refuse.
const LEAST: [(&str, u64); 11] = [
    ("names of other files, refused", 240),
    ("plans, solved", 120),
    ("plans, spent", 5),
    ("plans, refused", 25),
    ("remainders above 0, solved", 900),
    ("remainders above 0, spent", 2),
    ("finished plans, solved", 120),
    ("finished plans, refused", 25),
    ("finished to other tables", 10),
    ("audits, accepted", 750),
    ("refused", 500),
];
/// How many finishing runs must be spent, and how many there must be of what E9 asks for.
const LEAST_SPENT: (&str, u64) = ("finished plans, spent", 1);
const LEAST_LONG: (&str, u64) = ("files above 65,536 bytes, audited", 30);
const LEAST_STORED: (&str, u64) = ("stored files", 14);
/// Files and tables far longer than any that could be meant, in bytes.
const VERY_LONG: usize = 5_000_000;
/// Lengths of files that are cut or hold more than they should: about what `plan` holds, about the longest
/// file, and far above.
const FILE_LENGTHS: [usize; 7] = [
    PLAN_HOLDS - 1,
    PLAN_HOLDS,
    PLAN_HOLDS + 1,
    LONGEST_FILE - 1,
    LONGEST_FILE,
    LONGEST_FILE + 1,
    VERY_LONG,
];
/// The names of the tables in the folder.
const NAMES: [&str; 2] = ["values", "picks"];

/// The bytes of the two table files.
type Tables = [Vec<u8>; 2];
/// What stands under a name, if anything.
type Old = Option<Vec<u8>>;

/// What a comparison needs: the programs, a folder for their files, and the count of differences.
struct Day {
    plan: Program,
    audit: Program,
    folder: Folder,
    tally: Tally,
}

impl Day {
    /// Runs `plan` on a file by a kind of run, with the names of the tables.
    fn run_plan(&self, kind: Kind, file: &[u8]) -> Said {
        self.plan.run(&self.folder, &[kind_words(kind), &NAMES].concat(), file)
    }

    /// Plans a file with names, which may hold something before: where there are tables, old ones of the
    /// same lengths. Gives what the paper asks for.
    fn plan(
        &mut self,
        kind: Kind,
        file: &[u8],
        mut before: impl FnMut(Option<usize>) -> Old,
    ) -> Planned {
        let asked = planned_by(kind, file);
        let lengths = match &asked.tables {
            Some(tables) => [Some(4 * tables.values.len()), Some(2 * tables.picks.len())],
            None => [None, None],
        };
        let before = lengths.map(&mut before);
        for (name, bytes) in NAMES.iter().zip(&before) {
            self.folder.put(name, bytes.as_deref());
        }
        let said = self.run_plan(kind, file);
        let lines = Said::only(asked.lines.clone());
        self.tally.hold("plan's lines", &said, &lines);
        let after = match &asked.tables {
            Some(tables) => [Some(values_bytes(&tables.values)), Some(picks_bytes(&tables.picks))],
            None => before,
        };
        self.tally.hold("the tables", &NAMES.map(|name| self.folder.get(name)), &after);
        let mut others = self.folder.names();
        others.retain(|name| name != "file" && !NAMES.contains(&name.as_str()));
        self.tally.hold("what else is left", &others, &vec![]);
        asked
    }

    /// Plans a file that passes over one name that holds something of another length: it stays, and
    /// there is no plan.
    fn plan_over_another(&mut self, random: &mut Random, kind: Kind, file: &[u8], tables: &Tables) {
        let mut before = tables.clone();
        let at = random.below(2);
        before[at] = any_bytes(random);
        if before[at].len() == tables[at].len() {
            return;
        }
        self.tally.count_on(file, "names of other files, refused");
        for (name, bytes) in NAMES.iter().zip(&before) {
            self.folder.put(name, Some(bytes));
        }
        let said = self.run_plan(kind, file);
        self.tally.hold("plan's lines", said.output.as_str(), "");
        self.tally.hold("the message", said.messages.as_str(), &taken(NAMES[at], tables[at].len()));
        let after = NAMES.map(|name| self.folder.get(name).unwrap_or_default());
        self.tally.hold("the tables", &after, &before);
    }

    /// Audits tables for the file that stands in the folder.
    fn audit(&mut self, file: &[u8], tables: &Tables) -> Verdict {
        for (name, bytes) in NAMES.iter().zip(tables) {
            self.folder.put(name, Some(bytes));
        }
        let verdict = audit_file(file, &values_of(&tables[0]), &picks_of(&tables[1]));
        match verdict {
            Verdict::Accepted { .. } => self.tally.count_on(file, "audits, accepted"),
            Verdict::Refused { question, .. } => self.tally.meet(question, file),
        }
        let said = self.audit.run(&self.folder, &["file", NAMES[0], NAMES[1]], &[]);
        let line = Said::only(audit_line(verdict));
        self.tally.hold("audit's line", &said, &line);
        verdict
    }

    /// The tables as they stand under their names.
    fn written(&self) -> Tables {
        NAMES.map(|name| self.folder.get(name).unwrap_or_default())
    }

    /// Audits the tables of a solved run: they are accepted, with the C that its first line ends with.
    fn audit_solved(&mut self, file: &[u8], tables: &Tables, solved: &str) {
        let least_cost = solved.rsplit(' ').next().unwrap_or_default();
        let verdict = self.audit(file, tables);
        let asked = format!("accepted {least_cost}\n");
        self.tally.hold("the verdict on a solved run", &audit_line(verdict), &asked);
    }

    /// The day of a file, with a plain run and with one that finishes.
    fn compare(&mut self, random: &mut Random, case: &str, file: &[u8]) {
        self.compare_plain(random, case, file);
        self.compare_finished(random, case, file);
    }

    /// The day of a file: planned over old tables or none, audited as written, a tick higher, and
    /// with damage.
    fn compare_plain(&mut self, random: &mut Random, case: &str, file: &[u8]) {
        self.tally.case = case.into();
        self.folder.put("file", Some(file));
        let before = |length| random.once_in(2).then(|| any_of(random, length));
        let Planned { lines, tables: Some(tables) } = self.plan(Kind::Plain, file, before) else {
            self.tally.count_on(file, "plans, refused");
            self.audit(file, &[any_bytes(random), any_bytes(random)]);
            return;
        };
        let written = self.written();
        self.plan_over_another(random, Kind::Plain, file, &written);
        let remainders = remainders_from(1, &lines);
        if let Some(solved) = solved_line(&lines) {
            self.tally.count_on(file, "plans, solved");
            self.tally.count_all_on(file, "remainders above 0, solved", remainders);
            self.audit_solved(file, &written, solved);
        } else {
            self.tally.count_on(file, "plans, spent");
            self.tally.count_all_on(file, "remainders above 0, spent", remainders);
            self.audit(file, &written);
        }
        self.raise_a_tick(random, file, &tables);
        for _ in 0..DAMAGES {
            let tables = damaged_tables(random, &tables);
            self.audit(file, &tables);
        }
    }

    /// The finishing run of a file: planned over old tables or none, and audited as written, under the
    /// file's tolerance and under 1.
    fn compare_finished(&mut self, random: &mut Random, case: &str, file: &[u8]) {
        self.tally.case = format!("{case}, to the tick");
        self.folder.put("file", Some(file));
        let before = |length| random.once_in(2).then(|| any_of(random, length));
        let Planned { lines, tables: Some(tables) } = self.plan(Kind::Finishing, file, before)
        else {
            self.tally.count_on(file, "finished plans, refused");
            return;
        };
        let written = self.written();
        self.plan_over_another(random, Kind::Finishing, file, &written);
        let Some(solved) = solved_line(&lines) else {
            self.tally.count_on(file, LEAST_SPENT.0);
            return;
        };
        self.tally.count_on(file, "finished plans, solved");
        if planned(file).tables.is_some_and(|plain| plain.values != tables.values) {
            self.tally.count_on(file, "finished to other tables");
        }
        self.audit_solved(file, &written, solved);
        let under_1 = with_tolerance(file, FINISHING_TOLERANCE);
        self.folder.put("file", Some(&under_1));
        self.audit_solved(&under_1, &written, solved);
    }

    /// One value a tick higher: at the start of the table, and at any state.
    fn raise_a_tick(&mut self, random: &mut Random, file: &[u8], tables: &OwnedTables) {
        for state in [0, random.below(tables.values.len())] {
            let mut values = tables.values.clone();
            values[state] += 1;
            let verdict = self.audit(file, &[values_bytes(&values), picks_bytes(&tables.picks)]);
            match verdict {
                Verdict::Accepted { .. } => self.tally.count("a tick higher, accepted"),
                Verdict::Refused { .. } => self.tally.count("a tick higher, refused"),
            }
        }
    }

    /// The paper's own words: P's tables pass, and with V(0) 370,001 they meet 17, row 0, excess 1.
    fn compare_p(&mut self) {
        self.hold_lines(Kind::Plain, &file_p(), "solved 3 5 100000\n0 370000 0 0\n1 300000 2 0\n");
        for (value, asked) in [
            (370_000, "accepted 100000\n"),
            (370_001, "refused 17 0 1\n"),
            (369_999, "refused 19 0 -1\n"),
        ] {
            self.folder.put(NAMES[0], Some(&values_bytes(&[value, 300_000, 0])));
            self.hold_verdict(&file_p(), asked);
        }
        let finished = "solved 4 7 100000\n0 370000 0 0\n1 300000 2 0\n";
        self.hold_lines(Kind::Finishing, &file_p(), finished);
    }

    /// A coarse tolerance: the plain run's table is refused under 1, and the finishing run's accepted.
    fn compare_coarse(&mut self) {
        let mut under_1 = coarse();
        under_1.settings[1] = FINISHING_TOLERANCE;
        for (kind, lines, verdict) in [
            (Kind::Plain, "solved 4 4 1000\n0 1443 0 519\n", "refused 19 0 -37\n"),
            (Kind::Finishing, "solved 9 9 1000\n0 1498 0 834\n", "accepted 1000\n"),
        ] {
            self.clear();
            self.hold_lines(kind, &coarse(), lines);
            self.hold_verdict(&coarse(), "accepted 1000\n");
            self.hold_verdict(&under_1, verdict);
        }
        self.clear();
    }

    /// Takes the tables away.
    fn clear(&self) {
        NAMES.iter().for_each(|name| self.folder.put(name, None));
    }

    /// Holds that `plan` prints so of a draft.
    fn hold_lines(&mut self, kind: Kind, draft: &Draft, asked: &str) {
        self.tally.case = format!("a {kind:?} run in the paper's words");
        let lines = self.run_plan(kind, &draft.bytes()).output;
        self.tally.hold("plan", lines.as_str(), asked);
    }

    /// Holds that `audit` prints so of a draft and the tables that stand in the folder.
    fn hold_verdict(&mut self, draft: &Draft, asked: &str) {
        self.folder.put("file", Some(&draft.bytes()));
        let line = self.audit.run(&self.folder, &["file", NAMES[0], NAMES[1]], &[]).output;
        self.tally.hold("audit", line.as_str(), asked);
    }

    /// Inputs about what `plan` holds and about the longest file, far longer ones than could be meant, and
    /// empty ones.
    fn compare_lengths(&mut self, random: &mut Random) {
        for (case, draft) in [
            ("P", file_p()),
            ("held", of_length(random, PLAN_HOLDS, true, 5_000, None)),
            ("limits", at_limits(random, true, 5_000, Some(10_000))),
        ] {
            let file = draft.bytes();
            let tables = planned_at_any_length(Kind::Plain, &file).tables.expect("not refused");
            let tables = [values_bytes(&tables.values), picks_bytes(&tables.picks)];
            self.compare_long_tables(case, &file, &tables);
            for length in FILE_LENGTHS {
                self.tally.case = format!("{case}, the file with {length} bytes");
                let mut long = file.clone();
                long.resize(length, 0);
                self.folder.put("file", Some(&long));
                self.audit(&long, &tables);
                for kind in KINDS {
                    self.plan(kind, &long, |_| None);
                    self.clear();
                }
            }
        }
        for (case, file) in [("empty", vec![]), ("noise", noise(random, VERY_LONG))] {
            self.compare(random, case, &file);
        }
    }

    /// Files above what `plan` holds, in a total: whatever stands under the names stays, and the run's tables,
    /// which the solver written apart makes, are audited as those of any file are.
    fn compare_long_files(&mut self, random: &mut Random, fourth: Fourth) {
        for (kind, length) in KINDS.into_iter().cycle().zip(lengths_above(fourth)) {
            let file = of_length(random, length, true, 5_000, fourth).bytes();
            self.tally.case = format!("a {kind:?} run on {length} bytes, {fourth:?}");
            self.tally.count_on(&file, LEAST_LONG.0);
            self.folder.put("file", Some(&file));
            let before = |length| random.once_in(2).then(|| any_of(random, length));
            self.plan(kind, &file, before);
            let Planned { lines, tables } = planned_at_any_length(kind, &file);
            let tables = tables.expect("not refused");
            let solved = solved_line(&lines).expect("solved");
            let written = [values_bytes(&tables.values), picks_bytes(&tables.picks)];
            self.audit_solved(&file, &written, solved);
            self.raise_a_tick(random, &file, &tables);
            let tables = damaged_tables(random, &tables);
            self.audit(&file, &tables);
        }
    }

    /// A file from before E9: what the programs print and write of it is what they did then.
    fn compare_stored(&mut self, stored: &Stored) {
        self.tally.case = format!("the stored file {}", stored.name());
        self.tally.count(LEAST_STORED.0);
        self.clear();
        let file = stored.file();
        let finished = self.plan.run(&self.folder, kind_words(Kind::Finishing), &file);
        self.tally.hold("what is finished", &finished, &Said::only(stored.lines(Kind::Finishing)));
        let planned = self.run_plan(Kind::Plain, &file);
        self.tally.hold("what is planned", &planned, &Said::only(stored.lines(Kind::Plain)));
        let given = NAMES.map(|name| self.folder.get(name));
        let Some(StoredTables { tables, line }) = stored.tables() else {
            self.tally.hold("the tables", &given, &[None, None]);
            return;
        };
        self.tally.hold("the tables", &given, &tables.map(Some));
        self.folder.put("file", Some(&file));
        let audited = self.audit.run(&self.folder, &["file", NAMES[0], NAMES[1]], &[]);
        self.tally.hold("what is audited", &audited, &Said::only(line));
    }

    /// The examples in each total, and a run that is spent; and the stick with one thing wrong for each
    /// question of the file.
    fn compare_totals(&mut self, random: &mut Random) {
        for fourth in FOURTHS {
            let [p, one_state, stick] =
                [file_p(), one_state(), stick()].map(|draft| with_total(&draft, fourth));
            let case = format!("fourth setting {fourth:?}");
            for draft in [&p, &one_state, &stick, &with_total(&coarse(), fourth)] {
                self.compare(random, &case, &draft.bytes());
            }
            self.compare_plain(random, &case, &endless(fourth).bytes());
            for (refusal, file) in one_wrong_each(&stick) {
                self.compare(random, &format!("{case}, wrong for {refusal:?}"), &file);
            }
        }
        let coarse = with_tolerance(&endless(None).bytes(), MAX_TOLERANCE);
        self.compare_finished(random, "a run that is spent in the second part", &coarse);
    }

    /// Either table very long, with zeros and with the highest entries, and empty.
    fn compare_long_tables(&mut self, case: &str, file: &[u8], tables: &Tables) {
        self.folder.put("file", Some(file));
        for (at, filler) in [(0, 0), (1, 0), (0, 255), (1, 255)] {
            self.tally.case = format!("{case}, table {at} very long");
            let mut long = tables.clone();
            long[at].resize(VERY_LONG + 1, filler);
            self.audit(file, &long);
        }
        for at in [0, 1] {
            self.tally.case = format!("{case}, table {at} empty");
            let mut empty = tables.clone();
            empty[at].clear();
            self.audit(file, &empty);
        }
    }
}

/// What follows the word `solved` on a plan's first line, where it is there.
fn solved_line(lines: &str) -> Option<&str> {
    lines.lines().next().and_then(|line| line.strip_prefix("solved "))
}

/// Bytes of any length, a few or more than the largest table has.
fn any_bytes(random: &mut Random) -> Vec<u8> {
    let length = random.pick(&[0, 1, 7, 64, 5_000, 100_000]);
    let length = random.below(length + 1);
    noise(random, length)
}

/// Bytes of this length, or of any.
fn any_of(random: &mut Random, length: Option<usize>) -> Vec<u8> {
    match length {
        Some(length) => noise(random, length),
        None => any_bytes(random),
    }
}

/// Tables broken once to three times.
fn damaged_tables(random: &mut Random, tables: &OwnedTables) -> Tables {
    let mut tables = tables.clone();
    let state = random.below(tables.values.len());
    let entries = random.below(3);
    if entries == 1 {
        let value = &mut tables.values[state];
        let by = random.pick(&[1, 2, 100, 999, 1_000, 1_000_000]);
        *value = if random.once_in(2) { value.wrapping_add(by) } else { value.saturating_sub(by) };
    } else if entries == 2 {
        let any = random.below(tables.remembered.len() + 2) as u16;
        tables.picks[state] = random.pick(&[any, any, GIVE_UP, NO_PICK]);
    }
    let mut bytes = [values_bytes(&tables.values), picks_bytes(&tables.picks)];
    if entries == 0 || random.once_in(4) {
        let table = random.below(2);
        damage_bytes(random, &mut bytes[table]);
    }
    bytes
}

/// Cuts a table file anywhere, lengthens it, empties it, or changes bytes of it.
fn damage_bytes(random: &mut Random, bytes: &mut Vec<u8>) {
    match random.below(6) {
        0 => bytes.truncate(random.below(bytes.len() + 1)),
        1 => bytes.truncate(bytes.len() - 1 - random.below(bytes.len().min(8))),
        2 => bytes.extend(any_bytes(random)),
        3 => bytes.clear(),
        4 => *bytes = any_bytes(random),
        _ => {
            for _ in 0..1 + random.below(3) {
                let at = random.below(bytes.len());
                bytes[at] = random.bits() as u8;
            }
        }
    }
}

/// The draft behind the file of a number: the examples, those at the limits, and made ones.
fn draft_of(random: &mut Random, number: u64) -> Draft {
    let fourth = FOURTHS[number as usize % FOURTHS.len()];
    match number {
        0..=4 => file_p(),
        5..=9 => stick(),
        10..=14 => of_length(random, PLAN_HOLDS, true, 5_000, fourth),
        15..=19 => about_limits(random, number.is_multiple_of(2), 5_000, fourth),
        20..=24 => deep_chain(random, OLD.states, 8, number.is_multiple_of(2), fourth),
        _ => made(random),
    }
}

fn main() -> ExitCode {
    let (plan, audit) = (Program::named(1, "plan"), Program::named(2, "audit"));
    let (seed, files) = (argument(3, 1), argument(4, 300));
    let folder = Folder::new("compare-programs");
    let tally = Tally::asking(&[LEAST_SPENT, LEAST_STORED]).in_each_total(&LEAST);
    let tally = tally.in_each_total(&[LEAST_LONG]).meeting(FILE_QUESTIONS, LEAST_OF_FILES);
    let tally = tally.meeting(15..=19, LEAST_MET);
    let mut day = Day { plan, audit, folder, tally };
    day.compare_p();
    day.compare_coarse();
    Stored::all().iter().for_each(|stored| day.compare_stored(stored));
    day.compare_lengths(&mut Random::new(seed));
    FOURTHS.iter().for_each(|&fourth| day.compare_long_files(&mut Random::new(seed), fourth));
    day.compare_totals(&mut Random::new(seed));
    for number in 0..files {
        let mut random = Random::of_file(seed, number);
        let draft = draft_of(&mut random, number);
        let is_made = number >= FIRST_MADE;
        let broken = is_made && random.once_in(5);
        let file = if broken { damaged(&mut random, &draft) } else { draft.bytes() };
        if !is_made || ends_within(&file, MOST_ROUNDS) {
            day.compare(&mut random, &format!("seed {seed}, file {number}"), &file);
        }
    }
    day.tally.close()
}
