//! What the comparison programs share: a count of the questions met, a list of differences, lent
//! tables of noise, lengths for lent answers, and the programs' arguments.

use crate::library::ANSWER;
use crate::random::Random;
use crate::solver::OwnedTables;
use crate::totals::{told_by, FOURTHS};
use std::fmt::{Debug, Display, Formatter};
use std::process::ExitCode;

/// One past the highest question of document 01 and of the requests that are done.
const QUESTIONS: usize = 26;
/// The question that no file meets which tells a total: 24 is met where the fourth setting is none, so
/// of it there is no share to ask for.
const NO_TOTAL: u64 = 24;
/// The share that each way to tell a total must have of what must be met in all: a tenth.
const SHARE: u64 = 10;
/// Differences beyond these are counted and not printed.
const MOST_PRINTED: u64 = 10;

/// How often something was met: in all, and on files by the way in which they tell their total. Files
/// that tell none are counted in all alone: those that are refused under question 1 or 2 for their
/// settings, under 24, or under 4 where 24 fails too.
#[derive(Clone, Copy, Default)]
struct Count {
    all: u64,
    by_way: [u64; FOURTHS.len()],
}

impl Count {
    /// Counts so many more, on a file that tells its total in this way, if in any.
    fn add(&mut self, number: u64, way: Option<usize>) {
        self.all += number;
        if let Some(way) = way {
            self.by_way[way] += number;
        }
    }

    /// Whether there are so many in all, and of each way its share.
    fn is_enough(&self, least: u64) -> bool {
        self.all >= least && self.by_way.iter().all(|&count| count >= least.div_ceil(SHARE))
    }
}

impl Display for Count {
    fn fmt(&self, f: &mut Formatter) -> std::fmt::Result {
        write!(f, "{}", self.all)?;
        let told: u64 = self.by_way.iter().sum();
        if told == 0 {
            return Ok(());
        }
        for (fourth, count) in FOURTHS.into_iter().zip(self.by_way) {
            match fourth {
                None => write!(f, "; count 3: {count}")?,
                Some(total) => write!(f, "; W {total}: {count}")?,
            }
        }
        write!(f, "; no W: {}", self.all - told)
    }
}

/// How often each answer was met, and how often the two sides differed.
#[derive(Default)]
pub struct Tally {
    /// The name of the case in hand, printed with a difference.
    pub case: String,
    met: [Count; QUESTIONS],
    named: Vec<(&'static str, Count)>,
    least_met: Vec<(u64, u64)>,
    least: Vec<(&'static str, u64)>,
    least_by_way: Vec<(&'static str, u64)>,
    compared: u64,
    differences: u64,
}

impl Tally {
    /// A tally that asks for at least so many of each of these.
    pub fn asking(least: &[(&'static str, u64)]) -> Tally {
        Tally { least: least.to_vec(), ..Tally::default() }
    }

    /// The tally that also asks for at least so many of these, and of each its share on the files of
    /// each way to tell a total.
    pub fn in_each_total(mut self, least: &[(&'static str, u64)]) -> Tally {
        self.least_by_way.extend(least);
        self
    }

    /// The tally that also asks for each of these questions to be met at least so often, and on the
    /// files of each way to tell a total its share of that.
    pub fn meeting(mut self, questions: impl IntoIterator<Item = u64>, least: u64) -> Tally {
        self.least_met.extend(questions.into_iter().map(|question| (question, least)));
        self
    }

    /// Counts a refusal of a file under a question.
    pub fn meet(&mut self, question: u64, file: &[u8]) {
        self.met[question as usize].add(1, told_by(file));
        self.count_on(file, "refused");
    }

    /// Counts an answer on a file that is no refusal, or anything else worth a number.
    pub fn count_on(&mut self, file: &[u8], name: &'static str) {
        self.count_all_on(file, name, 1);
    }

    /// Counts so many of them.
    pub fn count_all_on(&mut self, file: &[u8], name: &'static str, number: u64) {
        self.entry(name).add(number, told_by(file));
    }

    /// Counts what belongs to no file, or does not hang on its total.
    pub fn count(&mut self, name: &'static str) {
        self.count_all(name, 1);
    }

    /// Counts so many of them.
    pub fn count_all(&mut self, name: &'static str, number: u64) {
        self.entry(name).add(number, None);
    }

    /// The count of a name.
    fn entry(&mut self, name: &'static str) -> &mut Count {
        let known = self.named.iter().position(|(known, _)| *known == name);
        let at = known.unwrap_or_else(|| {
            self.named.push((name, Count::default()));
            self.named.len() - 1
        });
        &mut self.named[at].1
    }

    /// Holds what the product gave against what the paper asks; says whether they are equal.
    pub fn hold<T: PartialEq + Debug + ?Sized>(
        &mut self,
        what: &str,
        given: &T,
        asked: &T,
    ) -> bool {
        self.compared += 1;
        if given == asked {
            return true;
        }
        self.differences += 1;
        if self.differences <= MOST_PRINTED {
            println!("difference in {what}, {}", self.case);
            println!("  product: {}", shortened(given));
            println!("  paper:   {}", shortened(asked));
        }
        false
    }

    /// How often it was counted.
    fn counted(&self, name: &str) -> Count {
        let known = self.named.iter().find(|(known, _)| *known == name);
        known.map_or(Count::default(), |&(_, count)| count)
    }

    /// The questions that were met too rarely. Of question 24 it is all that counts.
    fn too_rare(&self) -> Vec<u64> {
        let mut questions = self.least_met.clone();
        questions.retain(|&(question, least)| {
            let met = self.met[question as usize];
            match question {
                NO_TOTAL => met.all < least,
                _ => !met.is_enough(least),
            }
        });
        questions.into_iter().map(|(question, _)| question).collect()
    }

    /// What there was fewer of than the tally asks for.
    fn too_few(&self) -> Vec<&str> {
        let in_all = self.least.iter().filter(|(name, least)| self.counted(name).all < *least);
        let by_way =
            self.least_by_way.iter().filter(|(name, least)| !self.counted(name).is_enough(*least));
        in_all.chain(by_way).map(|(name, _)| *name).collect()
    }

    /// Prints the counts. Success where it closes well.
    pub fn close(&self) -> ExitCode {
        exit_code(self.closes_well())
    }

    /// Prints the counts. Says whether nothing differed, and each question was met as often and there is
    /// as much of everything as the tally asks for.
    fn closes_well(&self) -> bool {
        for (name, count) in &self.named {
            match self.least.iter().chain(&self.least_by_way).find(|(known, _)| known == name) {
                Some((_, least)) => println!("{name}: {count} (at least {least})"),
                None => println!("{name}: {count}"),
            }
        }
        for (question, count) in self.met.iter().enumerate().filter(|(_, count)| count.all > 0) {
            match self.least_met.iter().find(|(asked, _)| *asked == question as u64) {
                Some((_, least)) => println!("question {question}: {count} (at least {least})"),
                None => println!("question {question}: {count}"),
            }
        }
        let (rare, few) = (self.too_rare(), self.too_few());
        if !rare.is_empty() {
            println!("met less often than asked for: questions {rare:?}");
        }
        if !few.is_empty() {
            println!("fewer than asked for: {}", few.join(", "));
        }
        println!("{} comparisons, {} differences", self.compared, self.differences);
        self.differences == 0 && rare.is_empty() && few.is_empty()
    }
}

/// Closes tallies, each under a head. Success where all of them close well.
pub fn close_all(tallies: &[(&str, &Tally)]) -> ExitCode {
    let close = |&(head, tally): &(&str, &Tally)| {
        println!("{head}:");
        tally.closes_well()
    };
    let well: Vec<bool> = tallies.iter().map(close).collect();
    exit_code(well.into_iter().all(|well| well))
}

/// The exit code of what went well, or did not.
fn exit_code(well: bool) -> ExitCode {
    match well {
        true => ExitCode::SUCCESS,
        false => ExitCode::FAILURE,
    }
}

/// Asserts that a stored file of the product is the text that is made here.
pub fn assert_stored(path: &str, made: &str) {
    let stored = std::fs::read_to_string(path).unwrap_or_else(|error| panic!("{path}: {error}"));
    for (number, (has, asked)) in stored.lines().zip(made.lines()).enumerate() {
        assert_eq!(has, asked, "line {} of {path}", number + 1);
    }
    assert_eq!(stored.len(), made.len(), "the length of {path}");
}

/// The front of what is printed of a table.
fn shortened<T: Debug + ?Sized>(value: &T) -> String {
    let text = format!("{value:?}");
    text.chars().take(400).collect()
}

/// A number that fills a lent table before a call.
pub trait Noise {
    /// The number made from 64 random bits.
    fn from_bits(bits: u64) -> Self;
}

macro_rules! noise {
    ($($number:ty),*) => {
        $(impl Noise for $number {
            fn from_bits(bits: u64) -> Self {
                bits as $number
            }
        })*
    };
}
noise!(u8, u16, u32, u64, i64);

/// A table of noise.
pub fn noise<T: Noise>(random: &mut Random, length: usize) -> Vec<T> {
    (0..length).map(|_| T::from_bits(random.bits())).collect()
}

/// Tables of noise: mostly longer than needed, or just long enough, or one of them short.
pub fn lent_tables(random: &mut Random, states: usize, rows: usize) -> OwnedTables {
    let mut lengths = [states, states, rows, states];
    match random.below(8) {
        0 => {
            let table = random.below(lengths.len());
            lengths[table] = lengths[table].saturating_sub(1);
        }
        1 => lengths.iter_mut().for_each(|length| *length -= random.below(2).min(*length)),
        2..=3 => {}
        _ => lengths.iter_mut().for_each(|length| *length += random.below(20)),
    }
    OwnedTables {
        values: noise(random, lengths[0]),
        picks: noise(random, lengths[1]),
        remembered: noise(random, lengths[2]),
        walk: noise(random, lengths[3]),
    }
}

/// A length for a lent answer: mostly what it needs, sometimes more, sometimes less.
pub fn answer_length(random: &mut Random) -> usize {
    match random.below(12) {
        0 => random.below(ANSWER),
        1..=2 => ANSWER + 1 + random.below(2),
        _ => ANSWER,
    }
}

/// The program's argument at a place, counted from 1, as a number, or what stands in for it.
pub fn argument(place: usize, otherwise: u64) -> u64 {
    match std::env::args().nth(place) {
        Some(text) => text.parse().expect("a whole number"),
        None => otherwise,
    }
}

#[cfg(test)]
mod tests {
    use super::*;
    use crate::examples::{file_p, with_total};
    use crate::totals::Fourth;

    /// P with its total told in a way.
    fn file(fourth: Fourth) -> Vec<u8> {
        with_total(&file_p(), fourth).bytes()
    }

    /// Whether a code is that of success.
    fn is_success(code: ExitCode) -> bool {
        format!("{code:?}") == format!("{:?}", ExitCode::SUCCESS)
    }

    /// Whether a tally closes well.
    fn closes(tally: &Tally) -> bool {
        is_success(tally.close())
    }

    /// Whether it closes well where a question must have been met so often.
    fn closes_meeting(tally: &mut Tally, question: u64, least: u64) -> bool {
        tally.least_met = vec![(question, least)];
        closes(tally)
    }

    /// Whether a tally that asks for two of a thing closes well with some of it.
    fn closes_with(solved: usize, differs: bool) -> bool {
        let mut tally = Tally::asking(&[("solved", 2), ("refused", 5)]).meeting(4..=4, 5);
        (0..solved).for_each(|_| tally.count("solved"));
        FOURTHS.iter().for_each(|&fourth| tally.meet(4, &file(fourth)));
        tally.hold("a number", &u8::from(differs), &0);
        closes(&tally)
    }

    #[test]
    fn a_tally_asks_for_enough_and_no_difference() {
        assert!(closes_with(2, false) && closes_with(3, false));
        assert!(!closes_with(1, false) && !closes_with(0, false) && !closes_with(2, true));
    }

    #[test]
    fn tallies_close_well_where_all_of_them_do() {
        let (well, ill) = (Tally::default(), Tally::asking(&[("solved", 1)]));
        assert!(is_success(close_all(&[("one", &well), ("two", &well)])));
        assert!(!is_success(close_all(&[("one", &well), ("two", &ill)])));
        assert!(!is_success(close_all(&[("one", &ill), ("two", &well)])));
    }

    /// Each way to tell a total must have its share, of questions and of what is asked for by name.
    #[test]
    fn a_tally_asks_for_enough_in_each_total() {
        for left_out in FOURTHS {
            let mut tally = Tally::default().in_each_total(&[("solved", 5)]);
            for fourth in FOURTHS {
                (0..5).for_each(|_| tally.meet(4, &file(fourth)));
                (0..5).for_each(|_| tally.count_on(&file(fourth), "solved"));
                if fourth != left_out {
                    tally.meet(5, &file(fourth));
                }
            }
            assert!(closes_meeting(&mut tally, 4, 25) && closes_meeting(&mut tally, 4, 1));
            assert!(!closes_meeting(&mut tally, 4, 26) && !closes_meeting(&mut tally, 5, 1));
        }
        for left_out in FOURTHS {
            let mut tally = Tally::default().in_each_total(&[("solved", 1)]);
            let others = FOURTHS.into_iter().filter(|&fourth| fourth != left_out);
            others.for_each(|fourth| tally.count_on(&file(fourth), "solved"));
            assert!(!closes(&tally));
            tally.count_on(&file(left_out), "solved");
            assert!(closes(&tally));
        }
    }

    /// A file that meets 24 tells no total.
    #[test]
    fn of_question_24_all_counts() {
        let mut tally = Tally::default();
        (0..3).for_each(|_| tally.meet(24, &file_p().with_fourth(Some(999)).bytes()));
        assert!(closes_meeting(&mut tally, 24, 3) && !closes_meeting(&mut tally, 24, 4));
    }
}
