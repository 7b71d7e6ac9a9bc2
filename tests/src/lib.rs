//! Documents 01 and 02 in Rust, written from the papers and apart from the product: a reader, a solver,
//! an audit, a follower and the set form, with made-up problem files to compare the product on.
//!
//! The programs under `src/bin` hold the product's answers against these.

pub mod audit;
pub mod damage;
pub mod encode;
pub mod examples;
pub mod extremes;
pub mod finishing;
pub mod follower;
pub mod harness;
pub mod library;
pub mod limits;
pub mod listing;
pub mod loads;
pub mod made;
pub mod plain;
pub mod problem;
pub mod programs;
pub mod proposal;
pub mod quick_form;
pub mod random;
pub mod rate_table;
pub mod set_form;
pub mod sheets;
pub mod short_ways;
pub mod solver;
pub mod stored;
pub mod table_files;
pub mod timing;
pub mod totals;
pub mod variants;
pub mod wide;
pub mod written;

#[cfg(test)]
mod cases;
