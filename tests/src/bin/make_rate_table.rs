//! Prints the source file of the product's table of seconds by melt rate. The test `rate_table` compares
//! it with the file that stands there.
//!
//! `make_rate_table > crates/rates/src/table.rt`

use comparisons::rate_table::rate_table;

fn main() {
    print!("{}", rate_table());
}
