//! Compares the product's set form of a file with `set_form.rs`: what the call returns, its answer and
//! the output, on files whole and damaged, with outputs and answers of many lengths.
//!
//! Each whole file is written in other ways, and then the product's forms must be equal; and it is
//! changed in one thing, and then they must differ. A form written again is itself, it passes the
//! check, and row values and audits are those of the file. All of it is tried in every total.
//!
//! `compare_exchange [seed] [files]`

use comparisons::audit::audit_file;
use comparisons::damage::{damaged, one_wrong_each};
use comparisons::encode::Draft;
use comparisons::examples::{file_p, one_state, stick, with_total};
use comparisons::extremes::{about_limits, at_limits, deep_chain, deepest};
use comparisons::harness::{argument, noise, Tally};
use comparisons::library::{
    self, asked_of_audit, check, ACCEPTED, ANSWER, PASSED, REFUSED, WRITTEN,
};
use comparisons::limits::*;
use comparisons::made::made;
use comparisons::problem::{Problem, Refusal, FILE_QUESTIONS};
use comparisons::proposal::Proposal;
use comparisons::random::Random;
use comparisons::set_form::{left_by, set_form, Meaning};
use comparisons::totals::FOURTHS;
use comparisons::variants::{change_kinds, Change, DIFFERENT, OTHER_COUNT, SAME};
use comparisons::wide::{wide, ORDERS};
use std::process::ExitCode;

/// Entries before and after what is lent, which no call may touch.
const MARGIN: usize = 4;
/// The longest answer lent.
const MOST_ENTRIES: usize = 5;
/// The length of the smallest accepted file, which is its own set form: one state, no rows, three
/// settings.
const SMALLEST: usize = 26;
/// A file whose run takes more rounds than this is audited with the tables that it has then.
const MOST_ROUNDS: u64 = 1_000;
/// Tables under which the row values of each file are compared.
const TABLES: usize = 4;
/// Changed tables audited on each file.
const CHANGES: usize = 6;
/// Damaged files made from each file.
const DAMAGED: usize = 3;
/// How often each question must be met.
const LEAST_MET: u64 = 200;
/// How many files each change must make, in each total its share.
const LEAST_CHANGED: u64 = 900;
/// How many there must be of other things, in each total their share.
const LEAST: [(&str, u64); 27] = [
    ("files", 30_000),
    ("files accepted", 25_000),
    ("files refused", 5_500),
    ("files at one or two limits", 40),
    ("files at all three limits", 16),
    ("smallest files", 20),
    ("written", 35_000),
    ("answers lent too short", 10_000),
    ("outputs empty", 2_500),
    ("outputs a byte short", 2_500),
    ("outputs that just fit", 2_500),
    ("outputs a byte long", 2_500),
    ("outputs much longer", 2_500),
    ("refused with an output long enough", 5_500),
    ("refused with an output too short", 11_000),
    ("forms shorter than their files", 1_500),
    ("forms written again", 2_500),
    ("forms checked", 2_500),
    ("rows turned to seconds", 25_000),
    ("rows turned to a rate", 15_000),
    ("rows turned to another rate", 250),
    ("row values", 500_000),
    ("audits accepted", 8_000),
    ("audits refused", 15_000),
    ("solved runs audited", 2_000),
    ("equal forms", 10_000),
    ("different forms", 12_000),
];
/// How many there must be of what not every total has: a row of 255 outcomes has a total above 100, and
/// only 1,000 can be told by either count.
const LEAST_IN_ALL: [(&str, u64); 2] = [("rows of 255 outcomes", 1_000), (OTHER_COUNT, 500)];

/// The paper's set form of a file, or the file's refusal.
type Form = Result<Vec<u8>, Refusal>;

/// Holds bytes against others; a difference is told from the first byte that differs.
fn hold_bytes(tally: &mut Tally, what: &str, given: &[u8], asked: &[u8]) -> bool {
    let both = given.len().min(asked.len());
    let at = match given == asked {
        true => both,
        false => (0..both).find(|&at| given[at] != asked[at]).unwrap_or(both),
    };
    tally.hold(what, &(at, &given[at..]), &(at, &asked[at..]))
}

/// Compares one call, with so many bytes lent for the form and so many entries for the answer, both
/// from between margins of noise. Gives the product's form where it says that one is written.
fn compare_call(
    random: &mut Random,
    tally: &mut Tally,
    file: &[u8],
    form: &Form,
    [bytes, entries]: [usize; 2],
) -> Option<Vec<u8>> {
    let mut output: Vec<u8> = noise(random, bytes + 2 * MARGIN);
    let mut answer: Vec<u64> = noise(random, entries + 2 * MARGIN);
    let (bytes, entries) = (MARGIN..MARGIN + bytes, MARGIN..MARGIN + entries);
    let (mut asked_output, mut asked_answer) = (output.clone(), answer.clone());
    let asked = left_by(form, &output[bytes.clone()], &answer[entries.clone()]);
    asked_output[bytes.clone()].copy_from_slice(&asked.output);
    asked_answer[entries.clone()].copy_from_slice(&asked.answer);
    match asked.code {
        WRITTEN => tally.count_on(file, "written"),
        REFUSED => tally.meet(asked.answer[0], file),
        _ => tally.count_on(file, "answers lent too short"),
    }
    let code = library::set_form(file, &mut output[bytes.clone()], &mut answer[entries.clone()]);
    tally.hold("the code", &code, &asked.code);
    tally.hold("the answer and what stands beside it", &answer, &asked_answer);
    hold_bytes(tally, "the output and what stands beside it", &output, &asked_output);
    let length = *answer[entries].first().filter(|_| code == WRITTEN)?;
    output[bytes].get(..usize::try_from(length).ok()?).map(<[u8]>::to_vec)
}

/// Compares calls with outputs of several lengths, and with answers of every length from 0 to 5.
fn compare_lengths(random: &mut Random, tally: &mut Tally, file: &[u8], form: &Form) {
    let length = form.as_ref().map_or(file.len(), |form| form.len());
    let much_longer = 2 * length + 1 + random.below(2_000);
    let lengths = [
        ("outputs empty", 0),
        ("outputs a byte short", length.saturating_sub(1)),
        ("outputs that just fit", length),
        ("outputs a byte long", length + 1),
        ("outputs much longer", much_longer),
    ];
    for (name, bytes) in lengths {
        tally.count_on(file, name);
        compare_call(random, tally, file, form, [bytes, ANSWER]);
    }
    for entries in 0..=MOST_ENTRIES {
        let (_, bytes) = random.pick(&lengths);
        compare_call(random, tally, file, form, [bytes, entries]);
    }
}

/// Counts a file that is handed to the call.
fn count_file(tally: &mut Tally, file: &[u8], form: &Form) {
    tally.count_on(file, "files");
    tally.count_on(file, if form.is_ok() { "files accepted" } else { "files refused" });
}

/// The product's set form of an accepted file, from an output as long as the file, and compared.
fn product_form(random: &mut Random, tally: &mut Tally, file: &[u8], form: &Form) -> Vec<u8> {
    let given = compare_call(random, tally, file, form, [file.len(), ANSWER]);
    let asked = form.as_ref().expect("accepted");
    tally.hold("whether a form is written", &given.is_some(), &true);
    given.unwrap_or_else(|| asked.clone())
}

/// "Writing a set form again changes nothing": its set form is itself, at the same length. The output
/// is lent just as long, and longer. And a set form is an accepted file: it passes questions 1 to 11. It
/// is counted by the total of the file that it is the form of.
fn compare_again(random: &mut Random, tally: &mut Tally, form: &[u8], file: &[u8]) {
    let itself = Ok(form.to_vec());
    for bytes in [form.len(), form.len() + 1 + random.below(100)] {
        let again = compare_call(random, tally, form, &itself, [bytes, ANSWER]);
        tally.hold("whether a form is written again", &again.is_some(), &true);
    }
    tally.count_on(file, "forms written again");
    let mut answer = [u64::MAX; ANSWER];
    tally.hold("the check of a form", &check(form, &mut answer), &PASSED);
    tally.hold("the answer to the check of a form", &answer, &[0; ANSWER]);
    tally.count_on(file, "forms checked");
}

/// A table of values for the states of a problem: its estimates, one value for all, or any values, up
/// to what giving up costs or to the most that it may cost.
fn any_table(random: &mut Random, problem: &Problem) -> Vec<u32> {
    let most = random.pick(&[1, 2_000, problem.give_up_cost, TICKS * MAX_PENALTY]);
    let one = random.between(0, most);
    match random.below(6) {
        0 => problem.estimates.clone(),
        1 => vec![one; problem.states.len()],
        _ => problem.states.iter().map(|_| random.between(0, most)).collect(),
    }
}

/// Each row's value under a table, with its remainder.
fn row_values(problem: &Problem, table: &[u32]) -> Vec<(u32, u32)> {
    let rows = 0..problem.rows.len();
    rows.map(|row| (problem.row_value(row, table), problem.row_remainder(row, table))).collect()
}

/// "Row values and audit results agree between a file and its set form": the row values, with their
/// remainders, under tables of many kinds.
fn compare_row_values(random: &mut Random, tally: &mut Tally, file: &[u8], of: [&Problem; 2]) {
    let [problem, of_form] = of;
    for _ in 0..TABLES {
        let table = any_table(random, problem);
        let asked = row_values(problem, &table);
        tally.hold("row values of the form and of the file", &row_values(of_form, &table), &asked);
        tally.count_all_on(file, "row values", asked.len() as u64);
    }
}

/// The product's audit: its code and its answer.
fn product_audit(file: &[u8], tables: &Proposal) -> (u8, [i64; ANSWER]) {
    let (mut tables, mut answer) = (tables.clone(), [i64::MIN; ANSWER]);
    let code = library::audit(file, &mut tables.values, &mut tables.picks, &mut answer);
    (code, answer)
}

/// Compares the product's audits of the same tables for a file and for its set form.
fn compare_audit(tally: &mut Tally, file: &[u8], form: &[u8], tables: &Proposal) {
    let of_file = product_audit(file, tables);
    tally.hold("audits of the form and of the file", &product_audit(form, tables), &of_file);
    let asked = asked_of_audit(audit_file(file, &tables.values, &tables.picks));
    tally.hold("the audit of the file", &of_file, &asked);
    match asked {
        (ACCEPTED, _) => tally.count_on(file, "audits accepted"),
        (_, answer) => {
            tally.meet(answer[0] as u64, file);
            tally.count_on(file, "audits refused");
        }
    }
}

/// Tables of values for the states of a problem, 0 at goals, and picks of any rows.
fn any_tables(random: &mut Random, problem: &Problem) -> Proposal {
    let mut values = any_table(random, problem);
    for (value, &goal) in values.iter_mut().zip(&problem.goals) {
        *value = if goal { 0 } else { *value };
    }
    let picks = values.iter().map(|_| random.below(problem.rows.len() + 1) as u16).collect();
    Proposal { values, picks }
}

/// Compares audits of tables from many origins: the run's on the file and on its form, changed ones,
/// any values, noise, and tables too short.
fn compare_audits(random: &mut Random, tally: &mut Tally, files: [&[u8]; 2], of: [&Problem; 2]) {
    let [file, form] = files;
    let [problem, of_form] = of;
    let (own, least_cost) = Proposal::of_run(problem, MOST_ROUNDS);
    if least_cost.is_some() {
        tally.count_on(file, "solved runs audited");
    }
    let mut tables = vec![own.clone(), Proposal::of_run(of_form, MOST_ROUNDS).0];
    tables.extend((0..CHANGES).map(|_| own.changed(random, problem)));
    tables.push(any_tables(random, problem));
    tables.push(Proposal::noise(random, problem.states.len()));
    let (mut few_values, mut few_picks) = (own.clone(), own);
    few_values.values.pop();
    few_picks.picks.truncate(random.below(problem.states.len()));
    tables.extend([few_values, few_picks]);
    for tables in &tables {
        compare_audit(tally, file, form, tables);
    }
}

/// Compares what the form of an accepted file must have in common with the file.
fn compare_use(random: &mut Random, tally: &mut Tally, file: &[u8], form: &[u8]) {
    let case = tally.case.clone();
    tally.case = format!("{case}, the form");
    compare_again(random, tally, form, file);
    tally.case = case;
    let problem = Problem::read(file).expect("accepted");
    let of_form = Problem::read(form);
    if tally.hold("whether the form is accepted", &of_form.is_ok(), &true) {
        let of_form = of_form.expect("accepted");
        compare_row_values(random, tally, file, [&problem, &of_form]);
        compare_audits(random, tally, [file, form], [&problem, &of_form]);
    }
}

/// Counts how the costs of rows are written otherwise in a file.
fn count_kinds(tally: &mut Tally, file: &[u8], before: &Draft, after: &Draft) {
    for (before, after) in before.rows.iter().zip(&after.rows) {
        match (before.kind, after.kind) {
            (KIND_RATE, KIND_SECONDS) => tally.count_on(file, "rows turned to seconds"),
            (KIND_SECONDS, KIND_RATE) => tally.count_on(file, "rows turned to a rate"),
            _ if before.cost != after.cost => tally.count_on(file, "rows turned to another rate"),
            _ => {}
        }
    }
}

/// The draft that a change makes of one, and its file, where it is another file that is accepted.
fn changed(random: &mut Random, draft: &Draft, change: &Change) -> Option<(Draft, Vec<u8>)> {
    let mut other = draft.clone();
    (change.make)(random, &mut other);
    let file = other.bytes();
    let is_other = file != draft.bytes() && Problem::read(&file).is_ok();
    is_other.then_some((other, file))
}

/// "Two accepted files with equal settings, estimates, goals, number of rows at each state, row costs
/// and total chance from each row to each state have equal set forms, and only such files do."
fn compare_changes(random: &mut Random, tally: &mut Tally, draft: &Draft, product: &[u8]) {
    let meaning = |file: &[u8]| Meaning::of(&Problem::read(file).expect("accepted"));
    let own = meaning(&draft.bytes());
    let case = tally.case.clone();
    let changes = SAME.iter().map(|change| (change, true));
    for (change, same) in changes.chain(DIFFERENT.iter().map(|change| (change, false))) {
        let Some((other, file)) = changed(random, draft, change) else {
            continue;
        };
        assert_eq!(meaning(&file) == own, same, "{case}, {}", change.name);
        tally.case = format!("{case}, {}", change.name);
        let form = set_form(&file);
        count_file(tally, &file, &form);
        tally.count_on(&file, change.name);
        let given = product_form(random, tally, &file, &form);
        if same {
            hold_bytes(tally, "two forms of one problem", &given, product);
            count_kinds(tally, &file, draft, &other);
            tally.count_on(&file, "equal forms");
        } else {
            tally.hold("whether two problems have one form", &(given == product), &false);
            tally.count_on(&file, "different forms");
        }
        let bytes = random.below(given.len() + 9);
        compare_call(random, tally, &file, &form, [bytes, ANSWER]);
    }
    tally.case = case;
}

/// Compares calls on a damaged file, some of which come out whole: "23 ... after the file's
/// questions", so a refused file is refused with an output of any length.
fn compare_damaged(random: &mut Random, tally: &mut Tally, file: &[u8]) {
    let form = set_form(file);
    count_file(tally, file, &form);
    if form.is_ok() {
        compare_lengths(random, tally, file, &form);
        return;
    }
    let short = random.below(SMALLEST);
    let long = file.len().max(SMALLEST) + random.below(100);
    for bytes in [0, short, long] {
        let long_enough = bytes == long;
        compare_call(random, tally, file, &form, [bytes, ANSWER]);
        let name = match long_enough {
            true => "refused with an output long enough",
            false => "refused with an output too short",
        };
        tally.count_on(file, name);
    }
    let lent = [random.pick(&[0, short, long]), random.below(MOST_ENTRIES + 1)];
    compare_call(random, tally, file, &form, lent);
}

/// Counts what a draft is: at a limit, the smallest, or with rows of 255 outcomes.
fn count_draft(tally: &mut Tally, draft: &Draft, file: &[u8], form: &[u8]) {
    let limits = [MAX_STATES, MAX_ROWS, MAX_OUTCOMES];
    let lengths = [draft.states.len(), draft.rows.len(), draft.outcomes.len()];
    let at_limit = |section: &usize| lengths[*section] == limits[*section];
    match (0..limits.len()).filter(at_limit).count() {
        0 => {}
        3 => tally.count_on(file, "files at all three limits"),
        _ => tally.count_on(file, "files at one or two limits"),
    }
    if lengths == [1, 0, 0] {
        tally.count_on(file, "smallest files");
    }
    if form.len() < file.len() {
        tally.count_on(file, "forms shorter than their files");
    }
    let widest = draft.rows.iter().filter(|row| usize::from(row.outcomes) == MAX_IN_BYTE);
    tally.count_all_on(file, "rows of 255 outcomes", widest.count() as u64);
}

/// Compares all that is called on a draft's file.
fn compare_draft(random: &mut Random, tally: &mut Tally, draft: &Draft) {
    let file = draft.bytes();
    let form = set_form(&file);
    count_file(tally, &file, &form);
    let product = product_form(random, tally, &file, &form);
    count_draft(tally, draft, &file, &product);
    compare_lengths(random, tally, &file, &form);
    compare_use(random, tally, &file, &product);
    compare_changes(random, tally, draft, &product);
    tally.case.push_str(", damaged");
    for _ in 0..DAMAGED {
        let broken = damaged(random, draft);
        compare_damaged(random, tally, &broken);
    }
}

/// P in each total: every cut of it, with one thing wrong for each question, and lengthened.
fn compare_p(random: &mut Random, tally: &mut Tally) {
    for fourth in FOURTHS {
        let draft = with_total(&file_p(), fourth);
        let mut whole = draft.bytes();
        for length in 0..=whole.len() {
            tally.case = format!("P with fourth setting {fourth:?} cut to {length} bytes");
            compare_damaged(random, tally, &whole[..length]);
        }
        for (refusal, file) in one_wrong_each(&draft) {
            tally.case = format!("P with fourth setting {fourth:?}, wrong for {refusal:?}");
            compare_damaged(random, tally, &file);
        }
        whole.resize(200_000, 0);
        tally.case = format!("P with fourth setting {fourth:?} lengthened to 200,000 bytes");
        compare_damaged(random, tally, &whole);
    }
}

/// The draft behind the file of a number: the examples, those at the limits, chains, wide rows in
/// every order, and made ones. Some have their costs by rate turned to seconds, which a change of
/// kinds then turns back.
fn draft_of(random: &mut Random, number: u64) -> Draft {
    let with_goal = random.once_in(2);
    let order = ORDERS[number as usize % ORDERS.len()];
    // With every order each of the ways in turn.
    let fourth = FOURTHS[(number as usize + number as usize / ORDERS.len()) % FOURTHS.len()];
    let mut draft = match number {
        0..=4 => with_total(&file_p(), fourth),
        5..=14 => with_total(&one_state(), fourth),
        15..=19 => with_total(&stick(), fourth),
        20..=31 => at_limits(random, with_goal, 5_000, fourth),
        32..=34 => about_limits(random, with_goal, 5_000, fourth),
        35..=39 => deepest(fourth),
        40..=44 => deep_chain(random, MAX_STATES, 8, with_goal, fourth),
        45..=69 => {
            let states = random.pick(&[MAX_IN_BYTE, MAX_IN_BYTE + 1, 300, MAX_STATES]);
            wide(random, states, order, fourth)
        }
        70..=94 => {
            let states = random.pick(&[2, 3, 40]);
            wide(random, states, order, fourth)
        }
        _ => made(random),
    };
    if random.once_in(2) {
        change_kinds(random, &mut draft);
    }
    draft
}

fn main() -> ExitCode {
    let (seed, files) = (argument(1, 1), argument(2, 2_500));
    let changes = SAME.iter().chain(&DIFFERENT).map(|change| change.name);
    let changes = changes.filter(|&name| name != OTHER_COUNT).map(|name| (name, LEAST_CHANGED));
    let least: Vec<_> = LEAST.into_iter().chain(changes).collect();
    let questions = FILE_QUESTIONS.into_iter().chain(15..=19).chain([23]);
    let tally = Tally::asking(&LEAST_IN_ALL).in_each_total(&least);
    let mut tally = tally.meeting(questions, LEAST_MET);
    compare_p(&mut Random::new(seed), &mut tally);
    for number in 0..files {
        let mut random = Random::of_file(seed, number);
        let draft = draft_of(&mut random, number);
        tally.case = format!("seed {seed}, file {number}");
        compare_draft(&mut random, &mut tally, &draft);
    }
    tally.close()
}
