//! Files from before E9 with what the programs printed and wrote of them then, kept under `data/stored`. E9:
//! "every stored file within the old counts, and its plan, gives the same answer".

use crate::solver::Kind;
use std::path::{Path, PathBuf};

/// Where they are kept. `README.md` there says how they were made.
const FOLDER: &str = concat!(env!("CARGO_MANIFEST_DIR"), "/data/stored");
/// How the name of a problem file ends.
const PROBLEM: &str = "problem";

/// A file, and what was said of it.
pub struct Stored {
    path: PathBuf,
}

/// The tables that `plan` wrote of a file, and the line of `audit` on them.
#[derive(Debug, PartialEq, Eq)]
pub struct StoredTables {
    pub tables: [Vec<u8>; 2],
    pub line: String,
}

impl Stored {
    /// All of them, by name.
    pub fn all() -> Vec<Stored> {
        let entries = std::fs::read_dir(FOLDER).expect("the stored files");
        let paths = entries.map(|entry| entry.expect("an entry").path());
        let is_problem = |path: &PathBuf| path.extension().is_some_and(|end| end == PROBLEM);
        let mut paths: Vec<PathBuf> = paths.filter(is_problem).collect();
        paths.sort_unstable();
        paths.into_iter().map(|path| Stored { path }).collect()
    }

    /// Its name.
    pub fn name(&self) -> String {
        self.path.file_stem().unwrap_or_default().to_string_lossy().into_owned()
    }

    /// The problem file.
    pub fn file(&self) -> Vec<u8> {
        read(&self.path).expect("a problem file")
    }

    /// What `plan` printed by a kind of run.
    pub fn lines(&self, kind: Kind) -> String {
        let end = match kind {
            Kind::Plain => "plan",
            Kind::Finishing => "finish",
        };
        text(self.kept(end).expect("a listing"))
    }

    /// What it wrote by the plain run, and what `audit` printed of that; none where the file is refused.
    pub fn tables(&self) -> Option<StoredTables> {
        let tables = [self.kept("values")?, self.kept("picks")?];
        Some(StoredTables { tables, line: text(self.kept("audit").expect("a line")) })
    }

    /// What is kept beside the file under an ending.
    fn kept(&self, end: &str) -> Option<Vec<u8>> {
        read(&self.path.with_extension(end))
    }
}

/// The bytes of a file, none where there is no such file.
fn read(path: &Path) -> Option<Vec<u8>> {
    std::fs::read(path).ok()
}

/// What a program printed.
fn text(bytes: Vec<u8>) -> String {
    String::from_utf8(bytes).expect("lines")
}

#[cfg(test)]
mod tests {
    use super::*;
    use crate::audit::audit_file;
    use crate::limits::{Counts, OLD};
    use crate::listing::{audit_line, planned_by};
    use crate::problem::Problem;
    use crate::solver::KINDS;
    use crate::table_files::{picks_bytes, values_bytes};
    use crate::totals::{told_by, FOURTHS};

    /// The solver and the audit written apart say of the stored files what the programs said.
    #[test]
    fn stored_files_have_the_answers_that_they_had() {
        for stored in Stored::all() {
            let file = stored.file();
            for kind in KINDS {
                assert_eq!(planned_by(kind, &file).lines, stored.lines(kind), "{}", stored.name());
            }
            let tables = planned_by(Kind::Plain, &file).tables.map(|tables| StoredTables {
                line: audit_line(audit_file(&file, &tables.values, &tables.picks)),
                tables: [values_bytes(&tables.values), picks_bytes(&tables.picks)],
            });
            assert_eq!(tables, stored.tables(), "{}", stored.name());
        }
    }

    /// Within the old counts, one at all of them; in every total; and of each answer one at least.
    #[test]
    fn stored_files_are_of_many_kinds() {
        let all = Stored::all();
        let files: Vec<Vec<u8>> = all.iter().map(Stored::file).collect();
        let problems = files.iter().filter_map(|file| Problem::read(file).ok());
        let counts: Vec<Counts> = problems.map(|problem| problem.counts()).collect();
        assert!(counts.contains(&OLD));
        assert!(counts.iter().all(|counts| counts.beyond(&OLD).is_none()));
        for way in 0..FOURTHS.len() {
            assert!(files.iter().any(|file| told_by(file) == Some(way)));
        }
        for word in ["solved", "spent", "refused"] {
            assert!(all.iter().any(|stored| stored.lines(Kind::Plain).starts_with(word)));
        }
    }
}
