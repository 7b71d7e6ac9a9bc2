//! E6, one agreed form for exchange: what two files for one problem share, the set form made from
//! that, and what a call of it leaves. With E7 a form tells its weight total.

use crate::encode::Draft;
use crate::library::{asked_of_lent, REFUSED, WRITTEN};
use crate::limits::*;
use crate::problem::{refused, Outcome, Problem, Refusal, Row};
use std::collections::BTreeMap;

/// What an accepted file says, however it is written: "Two accepted files with equal settings,
/// estimates, goals, number of rows at each state, row costs and total chance from each row to each
/// state have equal set forms, and only such files do."
#[derive(Clone, Debug, PartialEq, Eq)]
pub struct Meaning {
    /// Start state, tolerance, penalty, weight total. E7: "settings with the same W by either count
    /// are equal settings."
    settings: [u32; MOST_SETTINGS],
    estimates: Vec<u32>,
    goals: Vec<bool>,
    /// The number of rows at each state.
    row_numbers: Vec<usize>,
    /// The cost of each row, in seconds.
    costs: Vec<u32>,
    /// The total chance from each row to each state that it leads to.
    chances: Vec<BTreeMap<u16, u16>>,
}

impl Meaning {
    /// The meaning of a problem.
    pub fn of(problem: &Problem) -> Meaning {
        Meaning {
            settings: [
                problem.start as u32,
                problem.tolerance,
                problem.give_up_cost / TICKS,
                problem.total,
            ],
            estimates: problem.estimates.clone(),
            goals: problem.goals.clone(),
            row_numbers: problem.states.iter().map(|state| state.rows().len()).collect(),
            costs: problem.rows.iter().map(|row| row.cost / TICKS).collect(),
            chances: problem.rows.iter().map(|row| chances(problem, row)).collect(),
        }
    }

    /// The set form: "Costs become kind 0. Outcomes of a row stand in rising successor number, repeats
    /// added together. Rows and states keep their numbers." And E7: "The set form writes count 3 if W
    /// is 1,000".
    pub fn form(&self) -> Vec<u8> {
        let [start, tolerance, penalty, total] = self.settings;
        let fourth = (total != USUAL_TOTAL).then_some(total);
        let mut draft = Draft::new(start, tolerance, penalty).with_fourth(fourth);
        let mut rows = self.costs.iter().zip(&self.chances);
        for (state, &estimate) in self.estimates.iter().enumerate() {
            match self.goals[state] {
                true => draft.add_goal(),
                false => draft.add_state(),
            }
            draft.states[state].estimate = estimate;
            for (&cost, chances) in rows.by_ref().take(self.row_numbers[state]) {
                let outcomes: Vec<(u16, u16)> =
                    chances.iter().map(|(&successor, &chance)| (successor, chance)).collect();
                let seconds = u16::try_from(cost).expect("a cost has 16 bits");
                draft.add_row(KIND_SECONDS, seconds, &outcomes);
            }
        }
        draft.bytes()
    }
}

/// The total chance from a row to each state that it leads to, by rising state number.
fn chances(problem: &Problem, row: &Row) -> BTreeMap<u16, u16> {
    let mut chances = BTreeMap::new();
    for &Outcome { successor, weight } in &problem.outcomes[row.outcomes()] {
        *chances.entry(successor).or_default() += weight;
    }
    chances
}

/// The set form of a file, or the file's refusal.
pub fn set_form(file: &[u8]) -> Result<Vec<u8>, Refusal> {
    Problem::read(file).map(|problem| Meaning::of(&problem).form())
}

/// What a call leaves: its code, and what is then in the answer and in the output that were lent.
#[derive(Clone, Debug, PartialEq, Eq)]
pub struct Left {
    pub code: u8,
    pub answer: Vec<u64>,
    pub output: Vec<u8>,
}

/// What a call leaves of an output and an answer, from the file's bytes.
pub fn left_by_call(file: &[u8], output: &[u8], answer: &[u64]) -> Left {
    left_by(&set_form(file), output, answer)
}

/// What a call leaves of an output and an answer, from the file's set form or refusal: "The call gives
/// the set form's length. Output bytes beyond it stay. 23 when the lent output is shorter than the
/// set form, after the file's questions, place 0, output unchanged." An answer lent too short is told
/// by the code, and then nothing is written.
pub fn left_by(form: &Result<Vec<u8>, Refusal>, output: &[u8], answer: &[u64]) -> Left {
    let fitting = match form {
        Ok(form) if output.len() < form.len() => Err(refused(23, 0)),
        Ok(form) => Ok(form),
        Err(refusal) => Err(*refusal),
    };
    let (code, numbers) = match fitting {
        Ok(form) => (WRITTEN, [form.len() as u64, 0, 0]),
        Err(refusal) => (REFUSED, [refusal.question, refusal.place, 0]),
    };
    let (code, answer) = asked_of_lent(code, numbers, answer);
    let mut output = output.to_vec();
    if let (WRITTEN, Ok(form)) = (code, fitting) {
        output[..form.len()].copy_from_slice(form);
    }
    Left { code, answer, output }
}

#[cfg(test)]
mod tests {
    use super::*;
    use crate::examples::{file_p, one_state, with_total};
    use crate::library::TOO_SHORT;
    use crate::made::made;
    use crate::random::Random;
    use crate::totals::FOURTHS;

    /// P with its costs in seconds: rate 1,000 costs 600. Its outcomes already stand in order.
    const FORM_OF_P: [u8; 66] = [
        3, 0, // settings
        0, 0, 0, 0, 1, 0, 0, 0, 0x88, 0x13, 0, 0, // start 0, e 1, D 5,000
        3, 0, // states
        0, 0, 0, 0, 2, 0, // two rows
        0, 0, 0, 0, 1, 0, // one row
        0, 0, 0, 0, 0, 1, // goal
        3, 0, // rows
        0, 2, 0x64, 0, // 100 s, two outcomes
        0, 1, 0x58, 0x02, // 600 s, one outcome
        0, 1, 0x2c, 0x01, // 300 s, one outcome
        4, 0, // outcomes
        1, 0, 0x84, 0x03, 2, 0, 0x64, 0, // row 0: to 1 weight 900, to 2 weight 100
        2, 0, 0xe8, 0x03, // row 1: to 2 weight 1,000
        2, 0, 0xe8, 0x03, // row 2: to 2 weight 1,000
    ];

    /// A file with outcomes in other orders, repeats, and costs of both kinds.
    const MIXED: [u8; 82] = [
        3, 0, // settings
        1, 0, 0, 0, 0xe7, 0x03, 0, 0, 0x80, 0x1a, 0x06, 0, // start 1, e 999, D 400,000
        3, 0, // states
        0, 0, 0, 0, 0, 1, // goal
        0xe8, 0x03, 0, 0, 2, 0, // H 1,000, two rows
        0, 0, 0, 0, 1, 0, // one row
        3, 0, // rows
        1, 4, 0x0a, 0, // rate 10, four outcomes
        0, 2, 0xff, 0xff, // 65,535 s, two outcomes
        1, 2, 0xbc, 0x02, // rate 700, two outcomes
        8, 0, // outcomes
        2, 0, 1, 0, 0, 0, 0xf4, 0x01, // row 0: to 2 weight 1, to 0 weight 500,
        2, 0, 0x63, 0, 1, 0, 0x90, 0x01, // to 2 weight 99, to 1 weight 400
        2, 0, 0x2c, 0x01, 2, 0, 0xbc, 0x02, // row 1: to 2 weight 300, to 2 weight 700
        1, 0, 1, 0, 0, 0, 0xe7, 0x03, // row 2: to 1 weight 1, to 0 weight 999
    ];
    /// Its set form.
    const FORM_OF_MIXED: [u8; 74] = [
        3, 0, // settings
        1, 0, 0, 0, 0xe7, 0x03, 0, 0, 0x80, 0x1a, 0x06, 0, // start 1, e 999, D 400,000
        3, 0, // states
        0, 0, 0, 0, 0, 1, // goal
        0xe8, 0x03, 0, 0, 2, 0, // H 1,000, two rows
        0, 0, 0, 0, 1, 0, // one row
        3, 0, // rows
        0, 3, 0x60, 0xea, // 60,000 s, three outcomes
        0, 1, 0xff, 0xff, // 65,535 s, one outcome
        0, 2, 0x5a, 0x03, // 858 s, two outcomes
        6, 0, // outcomes
        0, 0, 0xf4, 0x01, 1, 0, 0x90, 0x01, // row 0: to 0 weight 500, to 1 weight 400,
        2, 0, 0x64, 0, // to 2 weight 100
        2, 0, 0xe8, 0x03, // row 1: to 2 weight 1,000
        0, 0, 0xe7, 0x03, 1, 0, 1, 0, // row 2: to 0 weight 999, to 1 weight 1
    ];

    #[test]
    fn costs_become_kind_0() {
        assert_eq!(set_form(&file_p().bytes()), Ok(FORM_OF_P.to_vec()));
        assert_eq!(set_form(&FORM_OF_P), Ok(FORM_OF_P.to_vec()));
    }

    #[test]
    fn outcomes_stand_in_rising_successor_number_repeats_added_together() {
        assert_eq!(set_form(&MIXED), Ok(FORM_OF_MIXED.to_vec()));
        assert_eq!(set_form(&FORM_OF_MIXED), Ok(FORM_OF_MIXED.to_vec()));
    }

    /// "One state, no goal, no rows, e 1, D 1, H 0": the smallest file is its own set form.
    #[test]
    fn the_smallest_file_is_its_own_set_form() {
        let smallest = [
            3, 0, 0, 0, 0, 0, 1, 0, 0, 0, 1, 0, 0, 0, // start 0, e 1, D 1
            1, 0, 0, 0, 0, 0, 0, 0, // one state
            0, 0, 0, 0, // no rows, no outcomes
        ];
        assert_eq!(one_state().bytes(), smallest);
        assert_eq!(set_form(&smallest), Ok(smallest.to_vec()));
    }

    #[test]
    fn a_row_of_255_outcomes_to_one_state_has_one() {
        let mut outcomes = [(1, 1); MAX_IN_BYTE];
        outcomes[254] = (1, 746);
        let [many, one] = [&outcomes[..], &[(1, 1_000)]].map(|outcomes| {
            let mut draft = Draft::new(0, 1, 1);
            draft.add_state();
            draft.add_row(KIND_SECONDS, 7, outcomes);
            draft.add_goal();
            draft.bytes()
        });
        assert_eq!((many.len(), one.len()), (1_056, 40));
        assert_eq!(set_form(&many), Ok(one));
    }

    /// E7: "The set form writes count 3 if W is 1,000; settings with the same W by either count are equal
    /// settings." P by count 4 is 70 bytes long.
    #[test]
    fn a_total_of_1000_has_count_3() {
        let by_count_4 = file_p().with_fourth(Some(1_000)).bytes();
        assert_eq!(by_count_4.len(), 70);
        assert_eq!(set_form(&by_count_4), Ok(FORM_OF_P.to_vec()));
    }

    /// P in 10,000, its costs in seconds.
    #[test]
    fn another_total_has_count_4() {
        let mut asked = FORM_OF_P.to_vec();
        asked.splice(0..1, [4]);
        asked.splice(14..14, [0x10, 0x27, 0, 0]);
        let weights = [0x28, 0x23, 2, 0, 0xe8, 0x03, 2, 0, 0x10, 0x27, 2, 0, 0x10, 0x27];
        asked.splice(56.., weights);
        let file = with_total(&file_p(), Some(10_000)).bytes();
        assert_eq!(set_form(&file), Ok(asked.clone()));
        assert_eq!(set_form(&asked), Ok(asked));
    }

    /// The smallest file has no row, and yet its total is one of its settings.
    #[test]
    fn equal_totals_have_equal_forms_and_others_have_not() {
        for draft in [file_p(), one_state()] {
            let form = |fourth| set_form(&with_total(&draft, fourth).bytes());
            let forms = FOURTHS.map(form);
            assert_eq!(forms[0], forms[2]);
            for (at, one) in forms.iter().enumerate().skip(1) {
                assert!(forms[at + 1..].iter().all(|other| one != other));
            }
        }
    }

    /// The call on the mixed file with so many bytes of 9 lent, and an answer of so many 8s.
    fn call(file: &[u8], bytes: usize, entries: usize) -> Left {
        left_by_call(file, &vec![9; bytes], &vec![8; entries])
    }

    #[test]
    fn the_call_gives_the_length_and_bytes_beyond_stay() {
        let exact = call(&MIXED, 74, 3);
        assert_eq!((exact.code, &exact.answer[..]), (WRITTEN, &[74, 0, 0][..]));
        assert_eq!(exact.output, FORM_OF_MIXED);
        let longer = call(&MIXED, 76, 5);
        assert_eq!((longer.code, &longer.answer[..]), (WRITTEN, &[74, 0, 0, 8, 8][..]));
        assert_eq!(longer.output, [&FORM_OF_MIXED[..], &[9, 9]].concat());
    }

    #[test]
    fn an_output_too_short_meets_question_23_and_stays() {
        for bytes in [73, 1, 0] {
            let left = call(&MIXED, bytes, 4);
            assert_eq!((left.code, &left.answer[..]), (REFUSED, &[23, 0, 0, 8][..]));
            assert_eq!(left.output, vec![9; bytes]);
        }
    }

    /// Start 3 of three states; place 0.
    #[test]
    fn the_files_questions_come_first() {
        let mut file = MIXED;
        file[2] = 3;
        for bytes in [0, 74, 100] {
            let left = call(&file, bytes, 3);
            assert_eq!((left.code, &left.answer[..]), (REFUSED, &[4, 0, 0][..]));
            assert_eq!(left.output, vec![9; bytes]);
        }
        assert_eq!(call(&[], 0, 3).answer, [1, 0, 0]);
    }

    #[test]
    fn nothing_is_written_where_the_answer_is_too_short() {
        for file in [&MIXED[..], &FORM_OF_P, &[]] {
            for (bytes, entries) in [(0, 0), (74, 1), (100, 2)] {
                let left = call(file, bytes, entries);
                assert_eq!((left.code, left.answer), (TOO_SHORT, vec![8; entries]));
                assert_eq!(left.output, vec![9; bytes]);
            }
        }
    }

    /// A set form has its file's meaning, so files with equal set forms have one meaning; and it is
    /// made from the meaning, so files with one meaning have equal set forms.
    #[test]
    fn a_set_form_keeps_the_meaning_and_is_its_own() {
        let mut random = Random::new(9);
        for _ in 0..1_000 {
            let problem = Problem::read(&made(&mut random).bytes()).expect("whole");
            let form = Meaning::of(&problem).form();
            let again = Problem::read(&form).expect("a set form is accepted");
            assert_eq!(Meaning::of(&again), Meaning::of(&problem));
            assert_eq!(Meaning::of(&again).form(), form);
        }
    }
}
