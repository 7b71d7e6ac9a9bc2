//! The starred items of "Melt-room cases" and the cases of requests E1, E3, E7 and E8, a test or two each.

use crate::audit::{audit_file, Verdict};
use crate::encode::Draft;
use crate::examples::{file_p, one_state, p_with_penalty, with_total};
use crate::extremes::dearest_row;
use crate::finishing::{coarse, slipping, with_tolerance};
use crate::limits::*;
use crate::listing::{plan_lines, planned_by, planned_within};
use crate::made::made;
use crate::problem::{average, seconds_of, Outcome, Problem, Refusal};
use crate::random::Random;
use crate::solver::{solve, Answer, Kind, OwnedTables, Run};
use crate::totals::{total_of, Fourth, FOURTHS};

/// The refusal of a draft's file, if it is refused.
fn refusal(draft: &Draft) -> Option<Refusal> {
    Problem::read(&draft.bytes()).err()
}

/// A run with as many rounds as `plan` has, and its tables.
pub fn run(draft: &Draft) -> (Run, OwnedTables) {
    let problem = Problem::read(&draft.bytes()).expect("whole");
    let mut tables = OwnedTables::new(&problem);
    (solve(&problem, PLAN_ROUNDS, tables.lend()), tables)
}

/// The verdict on P's answer with another value at the start.
fn audit_p(change: impl Fn(&mut OwnedTables)) -> Verdict {
    let (_, mut tables) = run(&file_p());
    change(&mut tables);
    audit_file(&file_p().bytes(), &tables.values, &tables.picks)
}

#[test]
fn p_prints_whole() {
    assert_eq!(plan_lines(&file_p().bytes()), "solved 3 5 100000\n0 370000 0 0\n1 300000 2 0\n");
}

#[test]
fn p_has_a_full_count_of_eight() {
    let answer = Answer::Solved { rounds: 3, evaluations: 5, least_cost: 100_000 };
    assert_eq!(run(&file_p()).0, Run { answer, full_count: 8 });
}

#[test]
fn p_leaves_the_machines_state() {
    let (_, tables) = run(&file_p());
    assert_eq!(tables.values, [370_000, 300_000, 0]);
    assert_eq!(tables.picks, [0, 2, NO_PICK]);
    assert_eq!(tables.remembered, [370_000, 600_000, 300_000]);
    assert_eq!(tables.walk, [1, 0, GIVE_UP]);
}

#[test]
fn budget_zero_leaves_the_first_state() {
    let problem = Problem::read(&file_p().bytes()).expect("whole");
    let mut tables = OwnedTables::new(&problem);
    let run = solve(&problem, 0, tables.lend());
    assert_eq!(run.answer, Answer::Spent { rounds: 0, evaluations: 0 });
    assert_eq!(tables.values, [0, 0, 0]);
    assert_eq!(tables.picks, [NO_PICK; 3]);
    assert_eq!(tables.remembered, [100_000, 600_000, 300_000]);
    assert_eq!(tables.walk, [GIVE_UP; 3]);
}

#[test]
fn rates_cost_their_seconds() {
    let costs = [10, 700, 999, 1_000].map(|rate| seconds_of(KIND_RATE, rate));
    assert_eq!(costs, [Some(60_000), Some(858), Some(601), Some(600)]);
    assert_eq!(seconds_of(KIND_RATE, 9), None);
    assert_eq!(seconds_of(KIND_RATE, 1_001), None);
}

#[test]
fn rates_9_and_1001_meet_question_8() {
    for rate in [9, 1_001] {
        let mut draft = file_p();
        draft.rows[1].cost = rate;
        assert_eq!(refusal(&draft), Some(Refusal { question: 8, place: 1 }));
    }
}

/// The average of weights on values, in the total that they add to.
fn average_of(weights: &[u16], values: &[u32]) -> u32 {
    let outcome = |(at, &weight): (usize, &u16)| Outcome { successor: at as u16, weight };
    let outcomes: Vec<Outcome> = weights.iter().enumerate().map(outcome).collect();
    let total = weights.iter().map(|&weight| u32::from(weight)).sum();
    average(&outcomes, values, total)
}

#[test]
fn averages_round_down_once() {
    assert_eq!(average_of(&[500, 500], &[1, 1]), 1);
    assert_eq!(average_of(&[1, 999], &[999, 0]), 0);
    assert_eq!(average_of(&[1, 999], &[1_000, 0]), 1);
}

/// E7: "W replaces 1,000 in the division of the row value".
#[test]
fn averages_round_down_once_in_each_total() {
    for total in TOTALS {
        let all = total as u16;
        assert_eq!(average_of(&[all / 2, all / 2], &[1, 1]), 1);
        assert_eq!(average_of(&[1, all - 1], &[total - 1, 0]), 0);
        assert_eq!(average_of(&[1, all - 1], &[total, 0]), 1);
    }
}

#[test]
fn an_empty_file_meets_question_1() {
    assert_eq!(Problem::read(&[]).err(), Some(Refusal { question: 1, place: 0 }));
    assert_eq!(plan_lines(&[]), "refused 1 0\n");
}

#[test]
fn a_tolerance_of_999_passes_and_1000_does_not() {
    let mut draft = file_p();
    draft.settings[1] = 999;
    assert_eq!(refusal(&draft), None);
    draft.settings[1] = 1_000;
    assert_eq!(refusal(&draft), Some(Refusal { question: 4, place: 1 }));
}

#[test]
fn an_estimate_of_100000_passes_and_100001_does_not() {
    let mut draft = file_p();
    draft.states[0].estimate = 100_000;
    assert_eq!(refusal(&draft), None);
    draft.states[0].estimate = 100_001;
    assert_eq!(refusal(&draft), Some(Refusal { question: 11, place: 0 }));
}

#[test]
fn p_answer_passes_the_audit() {
    assert_eq!(audit_p(|_| ()), Verdict::Accepted { least_cost: 100_000 });
}

#[test]
fn a_tick_above_meets_question_17() {
    let verdict = audit_p(|tables| tables.values[0] = 370_001);
    assert_eq!(verdict, Verdict::Refused { question: 17, place: 0, excess: 1 });
}

#[test]
fn a_tick_below_meets_question_19() {
    let verdict = audit_p(|tables| tables.values[0] = 369_999);
    assert_eq!(verdict, Verdict::Refused { question: 19, place: 0, excess: -1 });
}

#[test]
fn one_state_gives_up() {
    assert_eq!(plan_lines(&one_state().bytes()), "solved 2 0 1000\n0 1000 give 0\n");
}

/// State 0 with rows of so many seconds to the goal, and a penalty.
fn straight(penalty: u32, rows: &[u16]) -> Draft {
    let mut draft = Draft::new(0, 1, penalty);
    draft.add_state();
    rows.iter().for_each(|&seconds| draft.add_row(KIND_SECONDS, seconds, &[(1, 1_000)]));
    draft.add_goal();
    draft
}

/// What `plan` prints of a draft.
fn lines(draft: &Draft) -> String {
    plan_lines(&draft.bytes())
}

/// E1: "A row whose value equals 1000 × D now beats giving up".
#[test]
fn a_tie_goes_to_the_ice() {
    assert_eq!(lines(&straight(100, &[100])), "solved 2 2 100000\n0 100000 0 0\n");
    assert_eq!(lines(&straight(99, &[100])), "solved 2 0 99000\n0 99000 give 0\n");
}

/// P's row 0 comes to 370,000 once state 1's value has risen.
#[test]
fn a_tie_goes_to_the_ice_after_values_rose() {
    let taken = "solved 3 5 100000\n0 370000 0 0\n1 300000 2 0\n";
    assert_eq!(lines(&p_with_penalty(370)), taken);
    assert_eq!(lines(&p_with_penalty(369)), "solved 3 3 369000\n0 369000 give 0\n");
    assert_eq!(lines(&p_with_penalty(100)), "solved 3 2 100000\n0 100000 give 0\n");
}

/// "among rows the earlier pick and then row order still win".
#[test]
fn ties_between_rows_go_to_the_earlier_pick_and_then_to_row_order() {
    assert_eq!(lines(&straight(100, &[100, 100])), "solved 2 2 100000\n0 100000 0 0\n");
    let mut draft = Draft::new(0, 1, 200);
    draft.add_state();
    draft.add_row(KIND_SECONDS, 200, &[(2, 1_000)]);
    draft.add_row(KIND_SECONDS, 100, &[(1, 1_000)]);
    draft.add_state();
    draft.add_row(KIND_SECONDS, 100, &[(2, 1_000)]);
    draft.add_goal();
    assert_eq!(lines(&draft), "solved 3 6 100000\n0 200000 1 0\n1 100000 2 0\n");
}

/// What `plan` would print of a draft with so many rounds.
fn lines_within(draft: &Draft, rounds: u64) -> String {
    planned_within(Kind::Plain, &draft.bytes(), rounds).lines
}

/// E3: "its remainder, 0 to 999".
#[test]
fn remainders_go_from_0_to_999() {
    let problem = Problem::read(&slipping(1, 1).bytes()).expect("whole");
    let remainder = |value| problem.row_remainder(0, &[value, 0]);
    assert_eq!([0, 1, 999, 1_000, 1_999].map(remainder), [0, 1, 999, 0, 999]);
}

/// "Each state line of `plan` ends with the remainder of its pick": 333 × 1,498 = 498,834.
#[test]
fn a_solved_line_ends_with_the_remainder() {
    assert_eq!(lines(&slipping(1, 333)), "solved 8 8 1000\n0 1498 0 834\n");
}

/// "under the final values": 333 × 1,333 = 443,889, where the last round had still seen 1,000.
#[test]
fn a_spent_line_ends_with_the_remainder_under_the_final_values() {
    assert_eq!(lines_within(&slipping(1, 333), 1), "spent 1 1\n0 1000 0 0\n");
    assert_eq!(lines_within(&slipping(1, 333), 2), "spent 2 2\n0 1333 0 889\n");
}

/// "0 for `give`".
#[test]
fn giving_up_has_no_remainder() {
    assert_eq!(lines_within(&one_state(), 1), "spent 1 0\n0 1000 give 0\n");
    assert_eq!(lines_within(&one_state(), 2), "solved 2 0 1000\n0 1000 give 0\n");
}

/// "The row value shall come with its remainder": together they are the sum, exact.
#[test]
fn row_value_and_remainder_are_the_exact_sum() {
    let mut random = Random::new(8);
    for _ in 0..500 {
        let problem = Problem::read(&made(&mut random).bytes()).expect("whole");
        let value = |_| random.between(0, problem.give_up_cost);
        let values: Vec<u32> = (0..problem.states.len()).map(value).collect();
        for (number, row) in problem.rows.iter().enumerate() {
            let average = u64::from(problem.row_value(number, &values) - row.cost);
            let remainder = u64::from(problem.row_remainder(number, &values));
            let sum = problem.outcomes[row.outcomes()].iter().fold(0, |sum, outcome| {
                sum + u64::from(outcome.weight) * u64::from(values[usize::from(outcome.successor)])
            });
            let total = u64::from(problem.total);
            assert!(remainder < total, "remainders run below W");
            assert_eq!(total * average + remainder, sum);
        }
    }
}

/// E10: no file leads to a row value above 32 bits. The largest, 65,535,000 + 400,000,000 ticks, is evaluated
/// and remembered, in each total.
#[test]
fn no_row_value_outgrows_32_bits() {
    for fourth in FOURTHS {
        let (run, tables) = run(&dearest_row(fourth));
        let answer = Answer::Solved { rounds: 3, evaluations: 2, least_cost: 400_000_000 };
        assert_eq!(run, Run { answer, full_count: 3 });
        assert_eq!(tables.remembered, [465_535_000]);
    }
}

/// P in a total.
fn p_in_total(fourth: Fourth) -> Draft {
    with_total(&file_p(), fourth)
}

/// E7: chances out of 100, 1,000 and 10,000 are the same chances, so P is the same plan. In 4,096 its
/// row 0 leads to 1 with 3,687: 3,687 × 300,000 = 4,096 × 270,043 + 3,872.
#[test]
fn p_is_planned_in_each_total() {
    for fourth in [None, Some(100), Some(1_000), Some(10_000)] {
        assert_eq!(lines(&p_in_total(fourth)), lines(&file_p()), "{fourth:?}");
    }
    let asked = "solved 3 5 100000\n0 370043 0 3872\n1 300000 2 0\n";
    assert_eq!(lines(&p_in_total(Some(4_096))), asked);
}

/// "Remainders run below W."
#[test]
fn remainders_run_below_the_total() {
    for fourth in FOURTHS {
        let total = total_of(fourth);
        let mut draft = slipping(1, 1).with_fourth(fourth);
        draft.outcomes[1].weight = total as u16 - 1;
        let problem = Problem::read(&draft.bytes()).expect("whole");
        let remainder = |value| problem.row_remainder(0, &[value, 0]);
        let values = [0, 1, total - 1, total, 2 * total - 1];
        assert_eq!(values.map(remainder), [0, 1, total - 1, 0, total - 1]);
    }
}

/// "Settings may have count 4": 2 at the settings for any other count, and where the file ends inside
/// the fourth setting, 1.
#[test]
fn settings_have_count_3_or_4() {
    for count in [0, 1, 2, 5, 6] {
        let mut draft = p_in_total(Some(1_000));
        draft.settings.resize(count, 1_000);
        assert_eq!(refusal(&draft), Some(Refusal { question: 2, place: 0 }), "{count}");
    }
    let file = p_in_total(Some(1_000)).bytes();
    for length in 2..18 {
        let asked = Some(Refusal { question: 1, place: 0 });
        assert_eq!(Problem::read(&file[..length]).err(), asked, "{length}");
    }
    assert_eq!(Problem::read(&file[..18]).err(), Some(Refusal { question: 1, place: 1 }));
}

/// "24 when the fourth setting isn't one of these, asked after the third under place 3": after the
/// settings of question 4, and before the states.
#[test]
fn question_24_follows_question_4() {
    let mut draft = file_p().with_fourth(Some(999));
    draft.states[0].goal = 2;
    assert_eq!(refusal(&draft), Some(Refusal { question: 24, place: 3 }));
    for (place, value) in [(2, 0), (1, 0), (0, 3)] {
        draft.settings[place] = value;
        assert_eq!(refusal(&draft), Some(Refusal { question: 4, place: place as u64 }));
    }
    draft.settings = vec![0, 1, 5_000, 1_000];
    assert_eq!(refusal(&draft), Some(Refusal { question: 5, place: 0 }));
}

/// "W replaces 1,000 in the weight range, the row total": a weight of W passes, one of W + 1 does not,
/// and no row adds to another total than the file's.
#[test]
fn weights_and_rows_have_the_files_total() {
    let asked = |place| Some(Refusal { question: 10, place });
    for fourth in FOURTHS {
        let draft = p_in_total(fourth);
        assert_eq!(refusal(&draft), None);
        let mut above = draft.clone();
        above.outcomes[3].weight += 1;
        assert_eq!(refusal(&above), asked(2));
        let other = |other: &Fourth| total_of(*other) != total_of(fourth);
        for other in FOURTHS.into_iter().filter(other) {
            assert_eq!(refusal(&draft.clone().with_fourth(other)), asked(0), "{fourth:?}");
            let mut row = draft.clone();
            row.outcomes[2].weight = total_of(other) as u16;
            assert_eq!(refusal(&row), asked(1), "{fourth:?}");
        }
    }
}

/// What `plan --finish` prints of a draft.
fn finished_lines(draft: &Draft) -> String {
    planned_by(Kind::Finishing, &draft.bytes()).lines
}

/// What it would print with so many rounds.
fn finished_lines_within(draft: &Draft, rounds: u64) -> String {
    planned_within(Kind::Finishing, &draft.bytes(), rounds).lines
}

/// E8: P, whose tolerance is 1, has one quiet round more, with two evaluations.
#[test]
fn p_finished_prints_whole() {
    assert_eq!(finished_lines(&file_p()), "solved 4 7 100000\n0 370000 0 0\n1 300000 2 0\n");
}

/// "Its counts run through both parts": the budget is one for both, and 3 is reached at the first quiet
/// round.
#[test]
fn p_finished_is_spent_with_up_to_three_rounds() {
    for (rounds, head) in (0..).zip(["spent 0 0\n", "spent 1 1\n", "spent 2 3\n", "spent 3 5\n"]) {
        assert!(finished_lines_within(&file_p(), rounds).starts_with(head), "{rounds}");
    }
    assert_eq!(finished_lines_within(&file_p(), 4), finished_lines(&file_p()));
    let after = finished_lines_within(&file_p(), 3);
    assert_eq!(after, "spent 3 5\n0 370000 0 0\n1 300000 2 0\n");
}

/// The plain run ends 37 ticks under the row value, and the finishing run goes on.
#[test]
fn a_coarse_plan_is_finished_to_the_tick() {
    assert_eq!(lines(&coarse()), "solved 4 4 1000\n0 1443 0 519\n");
    assert_eq!(finished_lines(&coarse()), "solved 9 9 1000\n0 1498 0 834\n");
}

/// A budget that ends at the first quiet round, and one that ends before the second.
#[test]
fn a_coarse_plan_is_spent_in_either_part() {
    assert_eq!(finished_lines_within(&coarse(), 4), "spent 4 4\n0 1443 0 519\n");
    assert_eq!(finished_lines_within(&coarse(), 8), "spent 8 8\n0 1498 0 834\n");
    assert_eq!(finished_lines_within(&coarse(), 9), finished_lines(&coarse()));
}

/// "The audit accepts the answer under the file's own e and under 1"; the plain run's it refuses under 1.
#[test]
fn a_finished_plan_is_accepted_under_1() {
    let file = coarse().bytes();
    let verdict = |kind, tolerance| {
        let tables = planned_by(kind, &file).tables.expect("not refused");
        audit_file(&with_tolerance(&file, tolerance), &tables.values, &tables.picks)
    };
    let accepted = Verdict::Accepted { least_cost: 1_000 };
    assert_eq!([100, 1].map(|tolerance| verdict(Kind::Finishing, tolerance)), [accepted; 2]);
    assert_eq!(verdict(Kind::Plain, 100), accepted);
    assert_eq!(verdict(Kind::Plain, 1), Verdict::Refused { question: 19, place: 0, excess: -37 });
}
