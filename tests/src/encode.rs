//! Writes problem files. A draft holds the items as they will stand in the file, so that it can be
//! damaged at any of them before its bytes are made.

use crate::limits::{MAX_IN_BYTE, SETTINGS};
use crate::totals::{total_of, Fourth};
use std::ops::Range;

/// A state's 6 bytes.
#[derive(Clone, Copy, Debug)]
pub struct StateItem {
    pub estimate: u32,
    pub rows: u8,
    pub goal: u8,
}

/// A row's 4 bytes.
#[derive(Clone, Copy, Debug)]
pub struct RowItem {
    pub kind: u8,
    pub outcomes: u8,
    pub cost: u16,
}

/// An outcome's 4 bytes.
#[derive(Clone, Copy, Debug)]
pub struct OutcomeItem {
    pub successor: u16,
    pub weight: u16,
}

/// A file's items, section by section.
#[derive(Clone, Debug)]
pub struct Draft {
    /// Start state, tolerance, penalty, and the weight total where it is told by count 4.
    pub settings: Vec<u32>,
    pub states: Vec<StateItem>,
    pub rows: Vec<RowItem>,
    pub outcomes: Vec<OutcomeItem>,
}

impl Draft {
    /// A draft with three settings and nothing else.
    pub fn new(start: u32, tolerance: u32, penalty: u32) -> Draft {
        let settings = vec![start, tolerance, penalty];
        Draft { settings, states: Vec::new(), rows: Vec::new(), outcomes: Vec::new() }
    }

    /// The draft with a fourth setting, or with the other three alone.
    pub fn with_fourth(mut self, fourth: Fourth) -> Draft {
        self.settings.truncate(SETTINGS);
        self.settings.extend(fourth);
        self
    }

    /// The weight total that its settings tell.
    pub fn total(&self) -> u32 {
        total_of(self.settings.get(SETTINGS).copied())
    }

    /// Adds a goal.
    pub fn add_goal(&mut self) {
        self.states.push(StateItem { estimate: 0, rows: 0, goal: 1 });
    }

    /// Adds a state that is no goal, with no rows yet and H = 0.
    pub fn add_state(&mut self) {
        self.states.push(StateItem { estimate: 0, rows: 0, goal: 0 });
    }

    /// Adds a row to the last state: its cost and its outcomes as (successor, weight).
    pub fn add_row(&mut self, kind: u8, cost: u16, outcomes: &[(u16, u16)]) {
        assert!(outcomes.len() <= MAX_IN_BYTE);
        let state = self.states.last_mut().expect("a row has a state");
        state.rows += 1;
        self.rows.push(RowItem { kind, outcomes: outcomes.len() as u8, cost });
        self.outcomes
            .extend(outcomes.iter().map(|&(successor, weight)| OutcomeItem { successor, weight }));
    }

    /// The file: "unsigned, least byte first. Four sections in this order, each after its 16-bit
    /// count."
    pub fn bytes(&self) -> Vec<u8> {
        let mut file = Vec::new();
        put_count(&mut file, self.settings.len());
        for setting in &self.settings {
            file.extend(setting.to_le_bytes());
        }
        put_count(&mut file, self.states.len());
        for state in &self.states {
            file.extend(state.estimate.to_le_bytes());
            file.extend([state.rows, state.goal]);
        }
        put_count(&mut file, self.rows.len());
        for row in &self.rows {
            file.extend([row.kind, row.outcomes]);
            file.extend(row.cost.to_le_bytes());
        }
        put_count(&mut file, self.outcomes.len());
        for outcome in &self.outcomes {
            file.extend(outcome.successor.to_le_bytes());
            file.extend(outcome.weight.to_le_bytes());
        }
        file
    }
}

/// Where the share of a place stands among so many items that are spread over so many places, as evenly as it
/// goes.
pub fn share(items: usize, places: usize, place: usize) -> Range<usize> {
    items * place / places..items * (place + 1) / places
}

/// A section's 16-bit count.
fn put_count(file: &mut Vec<u8>, count: usize) {
    file.extend((count as u16).to_le_bytes());
}
