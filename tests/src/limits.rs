//! The numbers of documents 01 and 02, each under a name.

/// "A tick is 1/1000 second."
pub const TICKS: u32 = 1_000;

/// "Section 0, settings, count 3."
pub const SETTINGS: usize = 3;
/// E7: "Settings may have count 4, the fourth being the weight total W".
pub const MOST_SETTINGS: usize = 4;
/// Document 01: "Section 1, states, count 1 to 1,024. Section 2, rows, count 0 to 4,096. Section 3, outcomes,
/// count 0 to 8,192." A reader from before E9 has these.
pub const OLD: Counts = Counts { states: 1_024, rows: 4_096, outcomes: 8_192 };
/// E9: "Deep sections need 2,048 states, 8,192 rows and 16,384 outcomes."
pub const IN_FORCE: Counts = Counts { states: 2_048, rows: 8_192, outcomes: 16_384 };
/// The most states.
pub const MAX_STATES: usize = IN_FORCE.states;
/// The most rows.
pub const MAX_ROWS: usize = IN_FORCE.rows;
/// The most outcomes.
pub const MAX_OUTCOMES: usize = IN_FORCE.outcomes;
/// A state's number of rows, and a row's number of outcomes, have 8 bits.
pub const MAX_IN_BYTE: usize = 255;

/// The bytes of a section's count.
pub const COUNT_BYTES: usize = 2;
/// The bytes of a setting.
pub const SETTING_BYTES: usize = 4;
/// The bytes of a state.
pub const STATE_BYTES: usize = 6;
/// The bytes of a row.
pub const ROW_BYTES: usize = 4;
/// The bytes of an outcome.
pub const OUTCOME_BYTES: usize = 4;
/// The longest file that passes.
pub const LONGEST_FILE: usize = IN_FORCE.bytes(MOST_SETTINGS);
/// E9: "`plan` holds 65,536 bytes; a file above that goes to the library."
pub const PLAN_HOLDS: usize = 65_536;

/// "Tolerance e in ticks, 1 to 999."
pub const MAX_TOLERANCE: u32 = 999;
/// E8: "with tolerance 1 until the next quiet round".
pub const FINISHING_TOLERANCE: u32 = 1;
/// "Penalty D in seconds, 1 to 400,000."
pub const MAX_PENALTY: u32 = 400_000;

/// "Kind 0: c seconds, 1 to 65,535."
pub const KIND_SECONDS: u8 = 0;
/// "Kind 1: melt rate r in tenths of a millimetre per minute."
pub const KIND_RATE: u8 = 1;
/// The lowest melt rate.
pub const MIN_RATE: u16 = 10;
/// The highest melt rate.
pub const MAX_RATE: u16 = 1_000;
/// "c is 600,000 / r rounded up", for a 1,000 mm stick.
pub const STICK: u32 = 600_000;
/// E5: "cost 600 × length / rate rounded up", the length in millimetres.
pub const MILLIMETRE: u32 = 600;
/// E5: "for each of the stick lengths 250, 500, 550 and 1,000 mm in turn".
pub const STICK_LENGTHS: [u32; 4] = [250, 500, 550, 1_000];

/// E7: "With count 3, W is 1,000."
pub const USUAL_TOTAL: u32 = 1_000;
/// E7: "the weight total W: 100, 1,000, 4,096 or 10,000".
pub const TOTALS: [u32; 4] = [100, USUAL_TOTAL, 4_096, 10_000];

/// A pick of 65,535: giving up. In a walk list: no state.
pub const GIVE_UP: u16 = 65_535;
/// A pick of 65,534: no pick, also at goals.
pub const NO_PICK: u16 = 65_534;

/// "Is the budget at most 2,000,000,000,000,000?"
pub const MAX_BUDGET: u64 = 2_000_000_000_000_000;
/// "The program `plan` runs up to 1,000,000 rounds."
pub const PLAN_ROUNDS: u64 = 1_000_000;

/// E2: "21 at a million moves or more".
pub const MAX_MOVES: u64 = 1_000_000;
/// E2: "or above 400,000,000,000 seconds".
pub const MAX_SECONDS: u64 = 400_000_000_000;

/// How many states, rows and outcomes a file has, or may have.
#[derive(Clone, Copy, Debug, PartialEq, Eq)]
pub struct Counts {
    pub states: usize,
    pub rows: usize,
    pub outcomes: usize,
}

impl Counts {
    /// The bytes of a file that has so many, and so many settings.
    pub const fn bytes(&self, settings: usize) -> usize {
        4 * COUNT_BYTES
            + SETTING_BYTES * settings
            + STATE_BYTES * self.states
            + ROW_BYTES * self.rows
            + OUTCOME_BYTES * self.outcomes
    }

    /// Counts of a file of so many bytes, an even number, and so many settings: the most states, or one
    /// fewer, and about two outcomes to a row.
    pub fn filling(bytes: usize, settings: usize) -> Counts {
        let all = |states| Counts { states, rows: 0, outcomes: 0 }.bytes(settings);
        let is_whole = |&states: &usize| (bytes - all(states)).is_multiple_of(ROW_BYTES);
        let states = [MAX_STATES, MAX_STATES - 1].into_iter().find(is_whole);
        let states = states.expect("an even number of bytes");
        let items = (bytes - all(states)) / ROW_BYTES;
        Counts { states, rows: items / 3, outcomes: items - items / 3 }
    }

    /// The counts with another number in a section, 1 to 3.
    fn with(mut self, section: usize, count: usize) -> Counts {
        *[&mut self.states, &mut self.rows, &mut self.outcomes][section - 1] = count;
        self
    }

    /// Its numbers, those of sections 1 to 3.
    pub fn by_section(&self) -> [(usize, usize); 3] {
        [(1, self.states), (2, self.rows), (3, self.outcomes)]
    }

    /// Counts at and around these limits: all three of them, and in each section in turn one item fewer,
    /// and one more.
    pub fn around(self) -> Vec<Counts> {
        let beside = |(section, count)| [count - 1, count + 1].map(|near| self.with(section, near));
        [self].into_iter().chain(self.by_section().into_iter().flat_map(beside)).collect()
    }

    /// The section of a file with these counts in which question 2 fails first under limits.
    pub fn beyond(&self, limits: &Counts) -> Option<usize> {
        let both = self.by_section().into_iter().zip(limits.by_section());
        both.into_iter().find(|((_, count), (_, most))| count > most).map(|((at, _), _)| at)
    }
}

#[cfg(test)]
mod tests {
    use super::*;

    /// With three settings and with four, and what they were before E9.
    #[test]
    fn the_longest_files_have_so_many_bytes() {
        assert_eq!(LONGEST_FILE, 110_616);
        assert_eq!([SETTINGS, MOST_SETTINGS].map(|n| IN_FORCE.bytes(n)), [110_612, 110_616]);
        assert_eq!([SETTINGS, MOST_SETTINGS].map(|n| OLD.bytes(n)), [55_316, 55_320]);
    }

    #[test]
    fn counts_fill_any_even_length() {
        for bytes in (60_000..=LONGEST_FILE).step_by(1_234).chain([65_534, 65_536, 65_538, 65_540])
        {
            for settings in [SETTINGS, MOST_SETTINGS] {
                let counts = Counts::filling(bytes, settings);
                assert_eq!(counts.bytes(settings), bytes);
                assert_eq!(counts.beyond(&IN_FORCE), None);
            }
        }
    }

    #[test]
    fn counts_around_limits_are_within_them_or_beyond_in_one_section() {
        for limits in [OLD, IN_FORCE] {
            let beyond =
                limits.around().iter().map(|counts| counts.beyond(&limits)).collect::<Vec<_>>();
            assert_eq!(beyond, [None, None, Some(1), None, Some(2), None, Some(3)]);
        }
    }
}
