//! The readable form of a problem file, for people who make their first one: a line for each
//! setting, state, goal and row, with names for the states. `README.md` says how it is written.
//!
//! Only what is needed to write the file is asked here: names are known and numbers fit their
//! fields. Whether the file is a sound problem, the planner asks.

use crate::encode::{Draft, OutcomeItem, RowItem, StateItem};
use crate::limits::{KIND_RATE, KIND_SECONDS, MAX_IN_BYTE, SETTINGS};
use crate::totals::Fourth;
use std::collections::HashMap;
use std::fmt::Write;

/// A section's count has 16 bits.
const MAX_IN_COUNT: usize = u16::MAX as usize;

/// A text that was read: its file, and what it says of each state and row.
#[derive(Debug)]
pub struct Written {
    pub draft: Draft,
    states: Vec<String>,
    rows: Vec<String>,
}

impl Written {
    /// Reads a text. The fault of one that cannot be written as a file names its line.
    pub fn read(text: &str) -> Result<Written, String> {
        let mut reader = Reader::default();
        for (number, line) in text.lines().enumerate() {
            let at = number + 1;
            reader.take(at, line).map_err(|fault| format!("line {at}: {fault}"))?;
        }
        reader.finish()
    }

    /// Each state and row under its number in the file, in the text's words.
    pub fn listing(&self) -> String {
        let mut listing = String::new();
        let mut rows = self.rows.iter().enumerate();
        for (number, (said, item)) in self.states.iter().zip(&self.draft.states).enumerate() {
            let word = if item.goal == 1 { "goal" } else { "state" };
            put_line(&mut listing, format_args!("{word} {number}  {said}"));
            for (number, said) in rows.by_ref().take(usize::from(item.rows)) {
                put_line(&mut listing, format_args!("  row {number}  {said}"));
            }
        }
        listing
    }
}

/// Adds a line to a text.
fn put_line(text: &mut String, line: std::fmt::Arguments) {
    writeln!(text, "{line}").expect("a string takes every line");
}

/// What was read so far. Names are looked up at the end, so that a row may lead to a later state.
#[derive(Default)]
struct Reader {
    start: Option<Reference>,
    tolerance: Option<u32>,
    penalty: Option<u32>,
    total: Fourth,
    numbers: HashMap<String, usize>,
    states: Vec<StateItem>,
    rows: Vec<RowItem>,
    outcomes: Vec<(Reference, u16)>,
    said_of_states: Vec<String>,
    said_of_rows: Vec<String>,
}

/// A state's name where it is used.
struct Reference {
    line: usize,
    name: String,
}

impl Reader {
    /// Takes a line; what follows a `#` is for people.
    fn take(&mut self, at: usize, line: &str) -> Result<(), String> {
        let code = line.split('#').next().unwrap_or_default().trim();
        let (word, rest) = code.split_once(char::is_whitespace).unwrap_or((code, ""));
        let said = line.trim().strip_prefix(word).unwrap_or_default().trim();
        match word {
            "" => Ok(()),
            "start" => {
                let name = name_of(rest)?;
                set(&mut self.start, word, Reference { line: at, name })
            }
            "tolerance" => set(&mut self.tolerance, word, number(rest, u32::MAX)?),
            "penalty" => set(&mut self.penalty, word, number(rest, u32::MAX)?),
            "total" => set(&mut self.total, word, number(rest, u32::MAX)?),
            "state" => self.take_state(rest, said),
            "goal" => self.add_state(rest, StateItem { estimate: 0, rows: 0, goal: 1 }, said),
            "row" => self.take_row(at, rest, said),
            _ => Err(format!(
                "`{word}`: a line begins with start, tolerance, penalty, total, state, goal or row"
            )),
        }
    }

    /// `state NAME`, or `state NAME estimate TICKS`.
    fn take_state(&mut self, rest: &str, said: &str) -> Result<(), String> {
        let words: Vec<&str> = rest.split_whitespace().collect();
        let (name, estimate) = match words[..] {
            [name] => (name, 0),
            [name, "estimate", ticks] => (name, number(ticks, u32::MAX)?),
            _ => {
                return Err("a state is written `state NAME` or `state NAME estimate TICKS`".into())
            }
        };
        self.add_state(name, StateItem { estimate, rows: 0, goal: 0 }, said)
    }

    /// Gives the next state number to a name.
    fn add_state(&mut self, name: &str, item: StateItem, said: &str) -> Result<(), String> {
        let name = name_of(name)?;
        if self.states.len() == MAX_IN_COUNT {
            return Err(format!("a file has room for {MAX_IN_COUNT} states"));
        }
        if let Some(number) = self.numbers.insert(name.clone(), self.states.len()) {
            return Err(format!("`{name}` is the name of state {number} already"));
        }
        self.states.push(item);
        self.said_of_states.push(said.into());
        Ok(())
    }

    /// `row SECONDS s: NAME WEIGHT, NAME WEIGHT`, or `row rate RATE: NAME WEIGHT`.
    fn take_row(&mut self, at: usize, rest: &str, said: &str) -> Result<(), String> {
        let Some(state) = self.states.last_mut() else {
            return Err("a row stands below its state, and there is none yet".into());
        };
        let Some((cost, outcomes)) = rest.split_once(':') else {
            return Err("a row has a colon between its cost and its outcomes".into());
        };
        let (kind, cost) = cost_of(cost)?;
        let outcomes = outcomes_of(outcomes)?;
        if usize::from(state.rows) == MAX_IN_BYTE {
            return Err(format!("a state has room for {MAX_IN_BYTE} rows"));
        }
        if self.rows.len() == MAX_IN_COUNT || self.outcomes.len() + outcomes.len() > MAX_IN_COUNT {
            return Err(format!("a file has room for {MAX_IN_COUNT} rows and as many outcomes"));
        }
        state.rows += 1;
        self.rows.push(RowItem { kind, outcomes: outcomes.len() as u8, cost });
        self.said_of_rows.push(said.into());
        let references = outcomes.into_iter();
        self.outcomes
            .extend(references.map(|(name, weight)| (Reference { line: at, name }, weight)));
        Ok(())
    }

    /// The number of a name.
    fn look_up(&self, reference: &Reference) -> Result<usize, String> {
        let Reference { line, name } = reference;
        let number = self.numbers.get(name).copied();
        number.ok_or_else(|| format!("line {line}: no state or goal is named `{name}`"))
    }

    /// The first three settings in the file's order. Each must have been given.
    fn settings(&self) -> Result<[u32; SETTINGS], String> {
        let missing = |line: &str| format!("the text has no line `{line}`");
        let start = self.start.as_ref().ok_or_else(|| missing("start NAME"))?;
        let tolerance = self.tolerance.ok_or_else(|| missing("tolerance TICKS"))?;
        let penalty = self.penalty.ok_or_else(|| missing("penalty SECONDS"))?;
        Ok([self.look_up(start)? as u32, tolerance, penalty])
    }

    /// Puts numbers for names. Where a total is given it is the fourth setting, and else there are three.
    fn finish(self) -> Result<Written, String> {
        let [start, tolerance, penalty] = self.settings()?;
        let mut draft = Draft::new(start, tolerance, penalty).with_fourth(self.total);
        for (reference, weight) in &self.outcomes {
            // The cast cuts nothing: there are at most 65,535 states.
            let successor = self.look_up(reference)? as u16;
            draft.outcomes.push(OutcomeItem { successor, weight: *weight });
        }
        (draft.states, draft.rows) = (self.states, self.rows);
        Ok(Written { draft, states: self.said_of_states, rows: self.said_of_rows })
    }
}

/// Keeps a setting that is given once.
fn set<T>(slot: &mut Option<T>, word: &str, value: T) -> Result<(), String> {
    match slot.replace(value) {
        Some(_) => Err(format!("`{word}` is given twice")),
        None => Ok(()),
    }
}

/// A name: one word without a comma or a colon.
fn name_of(word: &str) -> Result<String, String> {
    match word.is_empty() || word.contains(|c: char| c.is_whitespace() || ",:".contains(c)) {
        true => Err(format!("`{word}`: a name is one word without a comma or a colon")),
        false => Ok(word.into()),
    }
}

/// A whole number that its field in the file can hold.
fn number<T: TryFrom<u64> + Into<u64>>(word: &str, most: T) -> Result<T, String> {
    let digits = !word.is_empty() && word.bytes().all(|byte| byte.is_ascii_digit());
    let number =
        word.parse().ok().filter(|_| digits).and_then(|number: u64| number.try_into().ok());
    number.ok_or_else(|| format!("`{word}`: a whole number from 0 to {} is meant", most.into()))
}

/// A row's cost kind and cost number: `SECONDS s` or `rate RATE`.
fn cost_of(cost: &str) -> Result<(u8, u16), String> {
    let words: Vec<&str> = cost.split_whitespace().collect();
    match words[..] {
        [seconds, "s"] => Ok((KIND_SECONDS, number(seconds, u16::MAX)?)),
        ["rate", rate] => Ok((KIND_RATE, number(rate, u16::MAX)?)),
        _ => Err("a row's cost is written `SECONDS s` or `rate RATE`".into()),
    }
}

/// A row's outcomes: `NAME WEIGHT`, with commas between them.
fn outcomes_of(outcomes: &str) -> Result<Vec<(String, u16)>, String> {
    let read = outcomes.split(',').map(|outcome| {
        let words: Vec<&str> = outcome.split_whitespace().collect();
        match words[..] {
            [name, weight] => Ok((name_of(name)?, number(weight, u16::MAX)?)),
            _ => Err("an outcome is written `NAME WEIGHT`, with commas between".to_string()),
        }
    });
    let read: Vec<(String, u16)> = read.collect::<Result<_, String>>()?;
    match read.len() > MAX_IN_BYTE {
        true => Err(format!("a row has room for {MAX_IN_BYTE} outcomes")),
        false => Ok(read),
    }
}

#[cfg(test)]
mod tests {
    use super::*;
    use crate::made::made;
    use crate::random::Random;

    /// A draft as a text.
    fn text_of(draft: &Draft) -> String {
        let mut text: String = ["start s", "tolerance ", "penalty ", "total "]
            .iter()
            .zip(&draft.settings)
            .map(|(front, setting)| format!("{front}{setting}\n"))
            .collect();
        let (mut rows, mut outcomes) = (draft.rows.iter(), draft.outcomes.iter());
        for (number, state) in draft.states.iter().enumerate() {
            text += &match state.goal {
                1 => format!("goal s{number}\n"),
                _ => format!("state s{number} estimate {}\n", state.estimate),
            };
            for row in rows.by_ref().take(usize::from(state.rows)) {
                let outcome = |item: &OutcomeItem| format!("s{} {}", item.successor, item.weight);
                let outcomes = outcomes.by_ref().take(usize::from(row.outcomes)).map(outcome);
                let outcomes = outcomes.collect::<Vec<String>>().join(", ");
                text += &match row.kind {
                    KIND_RATE => format!("row rate {}: {outcomes}\n", row.cost),
                    _ => format!("row {} s: {outcomes}\n", row.cost),
                };
            }
        }
        text
    }

    #[test]
    fn any_problem_can_be_written() {
        let mut random = Random::new(5);
        for _ in 0..500 {
            let draft = made(&mut random);
            let read = Written::read(&text_of(&draft)).expect("whole").draft;
            assert_eq!(read.bytes(), draft.bytes());
        }
    }

    /// The settings of the texts below, on three lines.
    const SETTINGS: &str = "start a\ntolerance 1\npenalty 5\n";

    /// The fault of a text that has its settings.
    fn fault(lines: &str) -> String {
        Written::read(&format!("{SETTINGS}{lines}")).expect_err("a fault")
    }

    #[test]
    fn names_may_come_later_and_comments_anywhere() {
        let text = format!("# first\n\n{SETTINGS} state a # x\n\trow 7 s:b 999 ,a 1#y\ngoal b");
        let draft = Written::read(&text).expect("whole").draft;
        let mut asked = Draft::new(0, 1, 5);
        asked.add_state();
        asked.add_row(KIND_SECONDS, 7, &[(1, 999), (0, 1)]);
        asked.add_goal();
        assert_eq!(draft.bytes(), asked.bytes());
    }

    #[test]
    fn the_listing_numbers_states_and_rows() {
        let text = format!("{SETTINGS}state a estimate 9 # here\nrow 7 s: b 1000  # go\ngoal b");
        let listing = Written::read(&text).expect("whole").listing();
        assert_eq!(
            listing,
            "state 0  a estimate 9 # here\n  row 0  7 s: b 1000  # go\ngoal 1  b\n"
        );
    }

    #[test]
    fn unsound_problems_are_written_all_the_same() {
        let text = "start a\ntolerance 0\npenalty 4000000\ngoal a\nrow rate 9: a 0, a 7";
        let draft = Written::read(text).expect("whole").draft;
        assert_eq!((draft.settings, draft.states[0].rows), (vec![0, 0, 4_000_000], 1));
    }

    /// E7: "Settings may have count 4, the fourth being the weight total W". One that is given is written
    /// as it is, 1,000 too, and whether it is a total, the planner asks.
    #[test]
    fn a_total_is_the_fourth_setting() {
        let settings = |line: &str| {
            let text = format!("{line}{SETTINGS}state a");
            Written::read(&text).expect("whole").draft.settings
        };
        assert_eq!(settings(""), [0, 1, 5]);
        for total in [100, 1_000, 4_096, 10_000, 0, 999, 65_636, u32::MAX] {
            assert_eq!(settings(&format!("total {total}\n")), [0, 1, 5, total]);
        }
        assert_eq!(fault("total 100\nstate a\ntotal 100"), "line 6: `total` is given twice");
        let most = "a whole number from 0 to 4294967295 is meant";
        assert_eq!(fault("total 4294967296"), format!("line 4: `4294967296`: {most}"));
        assert_eq!(fault("total"), format!("line 4: ``: {most}"));
    }

    #[test]
    fn settings_are_given_once() {
        assert_eq!(fault("state a\npenalty 6"), "line 5: `penalty` is given twice");
        for (line, missing) in SETTINGS.lines().zip(["start NAME", "tolerance TICKS"]) {
            let rest = SETTINGS.replace(line, "");
            let said = Written::read(&format!("{rest}state a")).expect_err("a fault");
            assert_eq!(said, format!("the text has no line `{missing}`"));
        }
        assert!(Written::read("").is_err());
    }

    #[test]
    fn names_are_known_and_given_once() {
        assert_eq!(fault("state b"), "line 1: no state or goal is named `a`");
        assert_eq!(fault("state a\nrow 1 s: x 1000"), "line 5: no state or goal is named `x`");
        assert_eq!(fault("state a\ngoal a"), "line 5: `a` is the name of state 0 already");
        let asked = "line 4: `a:b`: a name is one word without a comma or a colon";
        assert_eq!(fault("goal a:b"), asked);
        assert!(fault("goal").starts_with("line 4: ``: a name"));
        assert!(fault("goal a b").starts_with("line 4: `a b`: a name"));
    }

    #[test]
    fn numbers_fit_their_fields() {
        let most = "a whole number from 0 to 65535 is meant";
        assert_eq!(fault("state a\nrow 65536 s: a 1000"), format!("line 5: `65536`: {most}"));
        assert_eq!(fault("state a\nrow rate +9: a 1000"), format!("line 5: `+9`: {most}"));
        assert_eq!(fault("state a\nrow 1 s: a 1e3"), format!("line 5: `1e3`: {most}"));
        let most = "a whole number from 0 to 4294967295 is meant";
        assert_eq!(fault("state a estimate 4294967296"), format!("line 4: `4294967296`: {most}"));
        assert!(Written::read("tolerance -1").is_err());
    }

    #[test]
    fn lines_have_their_words() {
        for line in ["stat a", "state a 5", "state a estimate", "row 1 s: a 1000"] {
            assert!(fault(line).starts_with("line 4: "), "{line}");
        }
        for row in ["row 1 s a 1000", "row 1: a 1000", "row s: a 1000", "row 1 s:", "row 1 s: a"] {
            assert!(fault(&format!("state a\n{row}")).starts_with("line 5: "), "{row}");
        }
    }

    #[test]
    fn counts_fit_their_fields() {
        let rows = "row 1 s: a 1000\n".repeat(MAX_IN_BYTE);
        assert!(Written::read(&format!("{SETTINGS}state a\n{rows}")).is_ok());
        let said = fault(&format!("state a\n{rows}row 1 s: a 1000"));
        assert_eq!(said, "line 260: a state has room for 255 rows");
        let outcomes = ", a 1".repeat(MAX_IN_BYTE);
        let said = fault(&format!("state a\nrow 1 s: a 1{outcomes}"));
        assert_eq!(said, "line 5: a row has room for 255 outcomes");
        let states: String =
            (0..=MAX_IN_COUNT).map(|number| format!("state a{number}\n")).collect();
        assert_eq!(fault(&states), "line 65539: a file has room for 65535 states");
    }
}
