//! The product's table of seconds by melt rate is the one that is worked out here.

use comparisons::harness::assert_stored;
use comparisons::rate_table::{rate_table, SOURCE};

#[test]
fn the_product_has_this_table() {
    assert_stored(SOURCE, &rate_table());
}
