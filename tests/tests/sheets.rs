//! The output that is stored for the program `sheet` is the one that is made here.

use comparisons::harness::assert_stored;
use comparisons::sheets::{sheets, STORED};

#[test]
fn the_stored_output_is_these_sheets() {
    assert_stored(STORED, &sheets());
}
