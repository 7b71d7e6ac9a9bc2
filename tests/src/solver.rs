//! The rounds of document 01 over a decoded problem, with the caller's tables; and E8's run, which goes
//! on to the tick.

use crate::limits::*;
use crate::problem::{refused, Problem, Refusal};
use crate::totals::by_total;

/// "Lent tables: values and picks per state, remembered values per row, walk list per state." In
/// every table entries beyond stay.
pub struct Tables<'a> {
    pub values: &'a mut [u32],
    pub picks: &'a mut [u16],
    pub remembered: &'a mut [u32],
    pub walk: &'a mut [u16],
}

/// "The result carries solved or spent, rounds done, evaluations and C (0 if spent)."
#[derive(Clone, Copy, Debug, PartialEq, Eq)]
pub enum Answer {
    Solved { rounds: u64, evaluations: u64, least_cost: u32 },
    Spent { rounds: u64, evaluations: u64 },
    Refused(Refusal),
}

/// A run's answer, and its full count: over all its backups, the sum of the state's number of rows.
#[derive(Clone, Copy, Debug, PartialEq, Eq)]
pub struct Run {
    pub answer: Answer,
    pub full_count: u64,
}

/// The kinds of runs: since E8 there are two, and "The plain run remains available."
#[derive(Clone, Copy, Debug, PartialEq, Eq)]
pub enum Kind {
    /// Rounds with the file's tolerance until one is quiet.
    Plain,
    /// "A finishing run goes on, after the quiet round that would end it, with tolerance 1 until the next
    /// quiet round."
    Finishing,
}

/// Both kinds.
pub const KINDS: [Kind; 2] = [Kind::Plain, Kind::Finishing];

/// Reads a file and makes the plain run on it.
pub fn solve_file(file: &[u8], budget: u64, tables: Tables) -> Run {
    run_file(Kind::Plain, file, budget, tables)
}

/// Reads a file and runs the rounds on it: questions 1 to 11, then 12 and 13, then the work.
pub fn run_file(kind: Kind, file: &[u8], budget: u64, tables: Tables) -> Run {
    match Problem::read(file) {
        Ok(problem) => run(kind, &problem, budget, tables),
        Err(refusal) => Run { answer: Answer::Refused(refusal), full_count: 0 },
    }
}

/// Makes the plain run on a problem.
pub fn solve(problem: &Problem, budget: u64, tables: Tables) -> Run {
    run(Kind::Plain, problem, budget, tables)
}

/// Runs the rounds on a problem: questions 12 and 13, then the work.
///
/// No evaluation is checked (E10): a row value is at most 65,535,000 + 400,000,000 ticks, since no value
/// is above 1000 × D, and that fits in 32 bits.
#[inline(never)]
pub fn run(kind: Kind, problem: &Problem, budget: u64, tables: Tables) -> Run {
    match ask(problem, budget, &tables) {
        Some(refusal) => Run { answer: Answer::Refused(refusal), full_count: 0 },
        None => by_total!(problem.total, W => Machine::<W>::new(problem, tables).run(kind, budget)),
    }
}

/// "Are values, picks, remembered, walk list long enough? 12 (table 0 to 3). Is the budget at most
/// 2,000,000,000,000,000? 13 (0)."
fn ask(problem: &Problem, budget: u64, tables: &Tables) -> Option<Refusal> {
    let (states, rows) = (problem.states.len(), problem.rows.len());
    let lent = [
        (tables.values.len(), states),
        (tables.picks.len(), states),
        (tables.remembered.len(), rows),
        (tables.walk.len(), states),
    ];
    if let Some(table) = lent.iter().position(|(length, needed)| length < needed) {
        return Some(refused(12, table));
    }
    (budget > MAX_BUDGET).then(|| refused(13, 0))
}

/// A state on the way down a walk, with the outcomes it has yet to visit.
#[derive(Clone, Copy)]
struct Frame {
    state: u16,
    next: u16,
    end: u16,
}

/// The machine that the rounds move: the tables cut to the problem's counts, and what a walk needs. The
/// problem's weight total is W.
struct Machine<'a, const W: u32> {
    problem: &'a Problem,
    values: &'a mut [u32],
    picks: &'a mut [u16],
    remembered: &'a mut [u32],
    walk: &'a mut [u16],
    marks: Vec<bool>,
    way: Vec<Frame>,
    /// The length of the last walk list.
    listed: usize,
    rounds: u64,
    evaluations: u64,
    full_count: u64,
}

impl<'a, const W: u32> Machine<'a, W> {
    /// "At first V = H, no state has a pick, and each row remembers its value under H." The walk
    /// list is empty: 65,535s up to the number of states.
    fn new(problem: &'a Problem, tables: Tables<'a>) -> Machine<'a, W> {
        let (states, rows) = (problem.states.len(), problem.rows.len());
        let machine = Machine {
            problem,
            values: &mut tables.values[..states],
            picks: &mut tables.picks[..states],
            remembered: &mut tables.remembered[..rows],
            walk: &mut tables.walk[..states],
            marks: vec![false; states],
            way: Vec::with_capacity(states),
            listed: 0,
            rounds: 0,
            evaluations: 0,
            full_count: 0,
        };
        machine.values.copy_from_slice(&problem.estimates);
        machine.picks.fill(NO_PICK);
        machine.remembered.copy_from_slice(&problem.first_values);
        machine.walk.fill(GIVE_UP);
        machine
    }

    /// The parts of a run, one after the other. E8: "Its counts run through both parts." So does its
    /// budget: where it is reached in either part there is no further one, and the run is spent.
    fn run(mut self, kind: Kind, budget: u64) -> Run {
        let tolerances = [self.problem.tolerance, FINISHING_TOLERANCE];
        let parts = match kind {
            Kind::Plain => &tolerances[..1],
            Kind::Finishing => &tolerances[..],
        };
        let solved = parts.iter().all(|&tolerance| self.run_part(tolerance, budget));
        self.walk[self.listed..].fill(GIVE_UP);
        let (rounds, evaluations) = (self.rounds, self.evaluations);
        let answer = match solved {
            true => Answer::Solved { rounds, evaluations, least_cost: self.least_cost() },
            false => Answer::Spent { rounds, evaluations },
        };
        Run { answer, full_count: self.full_count }
    }

    /// Rounds with a tolerance until one is quiet, or the budget is reached first. Says whether one was
    /// quiet.
    fn run_part(&mut self, tolerance: u32, budget: u64) -> bool {
        let mut quiet = false;
        while self.rounds < budget && !quiet {
            self.listed = self.walk();
            quiet = self.back_up_list(tolerance);
            self.rounds += 1;
        }
        quiet
    }

    /// "Walk from the start with the picks as they are. Visiting marks the state. Under a picked
    /// row, visiting a state visits its outcomes in order, which visit unmarked states. The state
    /// joins the walk list after them. A goal never joins." Gives the list's length.
    ///
    /// Goals are marked from the outset, which keeps them out of the list.
    fn walk(&mut self) -> usize {
        let outcomes = &self.problem.outcomes[..];
        self.marks.copy_from_slice(&self.problem.goals);
        self.marks[self.problem.start] = true;
        let mut listed = 0;
        let mut here = self.frame(self.problem.start as u16);
        loop {
            while here.next < here.end {
                let successor = outcomes[usize::from(here.next)].successor;
                here.next += 1;
                let mark = &mut self.marks[usize::from(successor)];
                if !*mark {
                    *mark = true;
                    self.way.push(here);
                    here = self.frame(successor);
                }
            }
            self.walk[listed] = here.state;
            listed += 1;
            match self.way.pop() {
                Some(above) => here = above,
                None => return listed,
            }
        }
    }

    /// A state with all outcomes of its picked row ahead, or none without a picked row.
    #[inline]
    fn frame(&self, state: u16) -> Frame {
        let pick = self.picks[usize::from(state)];
        match self.problem.rows.get(usize::from(pick)) {
            Some(row) => Frame { state, next: row.first_outcome, end: row.end_outcome },
            None => Frame { state, next: 0, end: 0 },
        }
    }

    /// "Back up the listed states in list order; later ones see earlier changes." Says whether the
    /// round was quiet: no rise, and each pick the one before.
    fn back_up_list(&mut self, tolerance: u32) -> bool {
        let mut quiet = true;
        for at in 0..self.listed {
            quiet &= self.back_up(usize::from(self.walk[at]), tolerance);
        }
        quiet
    }

    /// "Set best to 1000 × D and the pick to giving up. Take first the row picked before, if any,
    /// then the others in row order. If best − V(s) is at least e, V(s) becomes best." Says whether
    /// neither the value nor the pick changed.
    ///
    /// The row picked before either became best or costs more than what is best, once it was taken,
    /// so it is skipped when its turn in row order comes.
    fn back_up(&mut self, state: usize, tolerance: u32) -> bool {
        let rows = self.problem.states[state].rows();
        let before = self.picks[state];
        let mut choice = Choice { best: self.problem.give_up_cost, pick: GIVE_UP };
        self.full_count += rows.len() as u64;
        if usize::from(before) < self.remembered.len() {
            self.consider(usize::from(before), &mut choice);
        }
        for row in rows {
            self.consider(row, &mut choice);
        }
        self.picks[state] = choice.pick;
        let rises = choice.best >= self.values[state] + tolerance;
        if rises {
            self.values[state] = choice.best;
        }
        !rises && choice.pick == before
    }

    /// "A row whose remembered value is at least best is skipped. Otherwise it is evaluated:
    /// counted, its value remembered, and picked, becoming best, if it is below best." And since E1:
    /// "A row whose value equals 1000 × D now beats giving up; among rows the earlier pick and then
    /// row order still win. A row is skipped while giving up is best only if its remembered value is
    /// above 1000 × D."
    #[inline(always)]
    fn consider(&mut self, row: usize, choice: &mut Choice) {
        let remembered = self.remembered[row];
        let skipped = match choice.pick {
            GIVE_UP => remembered > self.problem.give_up_cost,
            _ => remembered >= choice.best,
        };
        if skipped {
            return;
        }
        let value = self.problem.row_value_in::<W>(row, self.values);
        self.remembered[row] = value;
        self.evaluations += 1;
        let wins = match choice.pick {
            GIVE_UP => value <= self.problem.give_up_cost,
            _ => value < choice.best,
        };
        if wins {
            *choice = Choice { best: value, pick: row as u16 };
        }
    }

    /// "C is the least of 1000 × c or 1000 × D over the picks at reached states that aren't goals."
    /// In a solved run those are the states of the last walk.
    fn least_cost(&self) -> u32 {
        let costs = self.walk[..self.listed].iter().map(|&state| {
            let pick = self.picks[usize::from(state)];
            self.problem
                .rows
                .get(usize::from(pick))
                .map_or(self.problem.give_up_cost, |row| row.cost)
        });
        costs.min().expect("the start is listed")
    }
}

/// What a backup has found so far.
#[derive(Clone, Copy)]
struct Choice {
    best: u32,
    pick: u16,
}

/// Tables of their own for a run.
#[derive(Clone, Debug, Default, PartialEq, Eq)]
pub struct OwnedTables {
    pub values: Vec<u32>,
    pub picks: Vec<u16>,
    pub remembered: Vec<u32>,
    pub walk: Vec<u16>,
}

impl OwnedTables {
    /// Tables just long enough.
    pub fn new(problem: &Problem) -> OwnedTables {
        let states = problem.states.len();
        OwnedTables {
            values: vec![0; states],
            picks: vec![0; states],
            remembered: vec![0; problem.rows.len()],
            walk: vec![0; states],
        }
    }

    /// Tables long enough for every file.
    pub fn longest() -> OwnedTables {
        OwnedTables {
            values: vec![0; MAX_STATES],
            picks: vec![0; MAX_STATES],
            remembered: vec![0; MAX_ROWS],
            walk: vec![0; MAX_STATES],
        }
    }

    /// Lends them all.
    pub fn lend(&mut self) -> Tables<'_> {
        Tables {
            values: &mut self.values,
            picks: &mut self.picks,
            remembered: &mut self.remembered,
            walk: &mut self.walk,
        }
    }
}
