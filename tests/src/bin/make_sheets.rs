//! Prints the sheets that the program `sheet` must print. The test `sheets` compares them with the output
//! that is stored beside the program.
//!
//! `make_sheets > crates/sheet/stdout`

use comparisons::sheets::sheets;

fn main() {
    print!("{}", sheets());
}
