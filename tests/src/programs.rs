//! Runs the product's programs as programs: in a folder of their own, with names and a standard
//! input, keeping what they say on both outputs.

use crate::solver::Kind;
use std::ffi::OsStr;
use std::io::Write;
use std::path::{Path, PathBuf};
use std::process::{Child, Command, Output, Stdio};

/// What a program wrote on standard output, and its messages on standard error.
#[derive(Clone, Debug, Default, PartialEq, Eq)]
pub struct Said {
    pub output: String,
    pub messages: String,
}

impl Said {
    /// What stands in the outputs of a program that has ended.
    fn of(output: &Output) -> Said {
        let text = |bytes: &[u8]| String::from_utf8_lossy(bytes).into_owned();
        Said { output: text(&output.stdout), messages: text(&output.stderr) }
    }

    /// An output, and no message.
    pub fn only(output: impl Into<String>) -> Said {
        Said { output: output.into(), messages: String::new() }
    }
}

/// What `plan` says where it is told other names than it wants.
pub const PLAN_USAGE: &str =
    "plan: give no names, or two: VALUES PICKS, after --finish where the run shall finish\n";

/// The words that ask `plan` for a run of a kind, before any names.
pub fn kind_words(kind: Kind) -> &'static [&'static str] {
    match kind {
        Kind::Plain => &[],
        Kind::Finishing => &["--finish"],
    }
}

/// What `plan` says of a name that holds something other than a table of so many bytes.
pub fn taken(name: &str, bytes: usize) -> String {
    let would = format!("which would have {bytes} bytes: it is not replaced");
    format!("plan: {name}: is there and is no table of this file, {would}\n")
}

/// A program that stands at a path.
pub struct Program(PathBuf);

impl Program {
    /// The program named at a place of the arguments, counted from 1, or the repository's own.
    pub fn named(place: usize, otherwise: &str) -> Program {
        let own = || format!("{}/../target/bin/{otherwise}", env!("CARGO_MANIFEST_DIR"));
        let name = std::env::args().nth(place).unwrap_or_else(own);
        let path = Path::new(&name).canonicalize();
        Program(path.unwrap_or_else(|error| panic!("{name}: {error}")))
    }

    /// Where it stands.
    pub fn path(&self) -> &Path {
        &self.0
    }

    /// Runs it in a folder.
    pub fn run<N: AsRef<OsStr>>(&self, folder: &Folder, names: &[N], input: &[u8]) -> Said {
        run(Command::new(&self.0).args(names).current_dir(&folder.0), input)
    }
}

/// Runs a command with a standard input.
pub fn run(command: &mut Command, input: &[u8]) -> Said {
    Said::of(&run_to_end(command, input))
}

/// Runs a command with a standard input, and gives its bytes and its exit status.
pub fn run_to_end(command: &mut Command, input: &[u8]) -> Output {
    let mut child = start(command.stdin(Stdio::piped()));
    let mut pipe = child.stdin.take().expect("a pipe");
    std::thread::scope(|scope| {
        // A program may end before it has read everything, so a write that fails is no matter.
        scope.spawn(move || drop(pipe.write_all(input)));
        child.wait_with_output().expect("output")
    })
}

/// Starts a command whose outputs will be kept.
pub fn start(command: &mut Command) -> Child {
    let child = command.stdout(Stdio::piped()).stderr(Stdio::piped()).spawn();
    child.unwrap_or_else(|error| panic!("{command:?}: {error}"))
}

/// What a started program says until its end.
pub fn said(child: Child) -> Said {
    Said::of(&child.wait_with_output().expect("output"))
}

/// A folder for the files of a run, removed at its end.
pub struct Folder(PathBuf);

impl Folder {
    /// An empty folder that no other process uses.
    pub fn new(purpose: &str) -> Folder {
        let name = format!("{purpose}-{}", std::process::id());
        let path = std::env::temp_dir().join(name);
        std::fs::create_dir(&path).unwrap_or_else(|error| panic!("{}: {error}", path.display()));
        Folder(path)
    }

    /// The path of a name in it.
    pub fn path(&self, name: impl AsRef<Path>) -> PathBuf {
        self.0.join(name)
    }

    /// Writes a file, or takes it away.
    pub fn put(&self, name: &str, bytes: Option<&[u8]>) {
        let path = self.path(name);
        match bytes {
            Some(bytes) => std::fs::write(path, bytes).expect("a file can be written"),
            None => drop(std::fs::remove_file(path)),
        }
    }

    /// The bytes of a file, none where there is no such file.
    pub fn get(&self, name: impl AsRef<Path>) -> Option<Vec<u8>> {
        std::fs::read(self.path(name)).ok()
    }

    /// The names of all that stands in it, in order.
    pub fn names(&self) -> Vec<String> {
        let entries = std::fs::read_dir(&self.0).expect("a folder");
        let name = |entry: std::io::Result<std::fs::DirEntry>| {
            entry.expect("an entry").file_name().to_string_lossy().into_owned()
        };
        let mut names: Vec<String> = entries.map(name).collect();
        names.sort_unstable();
        names
    }
}

impl Drop for Folder {
    fn drop(&mut self) {
        drop(std::fs::remove_dir_all(&self.0));
    }
}
