//! Random codes, tables, labels and steps. The choices lean to what the arms look for, so that every branch is met;
//! nothing else depends on them. Their order is part of what a seed means: a choice more or less gives other calls.

mod aimed;
mod codes;
mod labels;
mod random;
mod steps;
mod tables;
mod words;

pub use codes::{closing, code};
pub use labels::{memory, stack};
pub use random::Random;
pub use steps::{about_records, step};
pub use tables::table;
