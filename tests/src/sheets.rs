//! E5's sheets, which the program `sheet` prints: "one line a rate, rate and seconds with a blank
//! between, rates rising, for each of the stick lengths 250, 500, 550 and 1,000 mm in turn".

use crate::limits::{MAX_RATE, MILLIMETRE, MIN_RATE, STICK_LENGTHS};

/// Where the output that the program must print is stored.
pub const STORED: &str = concat!(env!("CARGO_MANIFEST_DIR"), "/../crates/sheet/stdout");

/// The four sheets in turn, nothing between them.
pub fn sheets() -> String {
    STICK_LENGTHS.into_iter().map(sheet).collect()
}

/// The sheet of a stick length.
fn sheet(mm: u32) -> String {
    let line = |rate: u32| format!("{rate} {}\n", seconds_of_length(mm, rate));
    (u32::from(MIN_RATE)..=u32::from(MAX_RATE)).map(line).collect()
}

/// "Cost 600 × length / rate rounded up."
fn seconds_of_length(mm: u32, rate: u32) -> u32 {
    (MILLIMETRE * mm).div_ceil(rate)
}

#[cfg(test)]
mod tests {
    use super::*;
    use crate::limits::KIND_RATE;
    use crate::problem::seconds_of;

    #[test]
    fn they_have_3964_lines_and_these_ends() {
        let text = sheets();
        let lines: Vec<&str> = text.lines().collect();
        assert_eq!(lines.len(), 3_964);
        let ends = [0, 990, 991, 1_981, 1_982, 2_972, 2_973, 3_963].map(|place| lines[place]);
        let asked = ["10 15000", "1000 150", "10 30000", "1000 300", "10 33000", "1000 330"];
        assert_eq!(ends[..6], asked);
        assert_eq!(ends[6..], ["10 60000", "1000 600"]);
    }

    /// "Rounded up", with no division: the fewest seconds c with c × rate at least 600 × length.
    #[test]
    fn each_line_has_the_least_that_is_enough() {
        for mm in STICK_LENGTHS {
            for (place, line) in sheet(mm).lines().enumerate() {
                let (rate, seconds) = line.split_once(' ').expect("a blank");
                let [rate, seconds]: [usize; 2] =
                    [rate, seconds].map(|number| number.parse().expect("a number"));
                assert_eq!(rate, place + 10, "rates rise from 10, {mm} mm");
                let cost = 600 * mm as usize;
                assert!((seconds - 1) * rate < cost && cost <= seconds * rate, "{mm} mm, {line}");
            }
        }
    }

    /// "Files keep the 1,000 mm meaning": a rate costs in a file what the last sheet says.
    #[test]
    fn files_have_the_seconds_of_1000_mm() {
        for rate in MIN_RATE..=MAX_RATE {
            let printed = seconds_of_length(1_000, u32::from(rate));
            assert_eq!(seconds_of(KIND_RATE, rate), Some(printed), "rate {rate}");
        }
    }
}
