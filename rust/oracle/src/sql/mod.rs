//! The surroundings that the original's two sources expect, under the names that
//! they use.

pub mod parser;
pub mod planner;
pub mod types;
