//! The files of the repository's `examples` folder, from their readable texts.

use crate::encode::Draft;
use crate::totals::{in_total, Fourth};
use crate::written::Written;

/// The readable texts and the files beside them, by name.
pub const TEXTS: [(&str, &str); 3] = [
    ("P", include_str!("../../examples/P.txt")),
    ("one-state", include_str!("../../examples/one-state.txt")),
    ("stick", include_str!("../../examples/stick.txt")),
];

/// The draft behind the text at a place.
fn draft_of(place: usize) -> Draft {
    let (name, text) = TEXTS[place];
    Written::read(text).unwrap_or_else(|fault| panic!("{name}.txt, {fault}")).draft
}

/// "File P", the paper's worked example.
pub fn file_p() -> Draft {
    draft_of(0)
}

/// P with another penalty; with 100 s it gives up at the start.
pub fn p_with_penalty(penalty: u32) -> Draft {
    let mut draft = file_p();
    draft.settings[2] = penalty;
    draft
}

/// "One state, no goal, no rows, e 1, D 1, H 0."
pub fn one_state() -> Draft {
    draft_of(1)
}

/// A stick on its day in the melt room; `stick.md` tells it.
pub fn stick() -> Draft {
    draft_of(2)
}

/// An example with its total told in a way, its chances as near to what they were as that total can say.
pub fn with_total(example: &Draft, fourth: Fourth) -> Draft {
    in_total(example, fourth).expect("an example has few outcomes")
}

/// The path of a file of the folder.
pub fn path(name: &str) -> String {
    format!("{}/../examples/{name}", env!("CARGO_MANIFEST_DIR"))
}

#[cfg(test)]
mod tests {
    use super::*;
    use crate::limits::{KIND_RATE, KIND_SECONDS};

    /// "File P: start 0, e 1, D 5,000, all H 0; states 0 (two rows), 1 (one row), 2 goal. Row 0:
    /// 100 s, to 1 weight 900, to 2 weight 100. Row 1: rate 1,000, to 2 weight 1,000. Row 2: 300 s,
    /// to 2 weight 1,000."
    #[test]
    fn p_is_as_the_paper_says() {
        let mut asked = Draft::new(0, 1, 5_000);
        asked.add_state();
        asked.add_row(KIND_SECONDS, 100, &[(1, 900), (2, 100)]);
        asked.add_row(KIND_RATE, 1_000, &[(2, 1_000)]);
        asked.add_state();
        asked.add_row(KIND_SECONDS, 300, &[(2, 1_000)]);
        asked.add_goal();
        assert_eq!(file_p().bytes(), asked.bytes());
    }

    #[test]
    fn each_file_is_what_its_text_makes() {
        for (place, (name, _)) in TEXTS.iter().enumerate() {
            let stored = std::fs::read(path(name)).expect("an example");
            assert_eq!(stored, draft_of(place).bytes(), "{name}");
        }
    }
}
