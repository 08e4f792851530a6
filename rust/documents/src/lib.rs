//! Holds the documents to the repository: what they link to and what
//! docs/PROMISES.md names is there.
//!
//! * [`markdown`]: links, anchors, code spans and tables of a document.
//! * [`repository`]: files, edits, tests, functions and words of the repository.
//! * [`rules`]: what a document must keep to, each rule a list of its faults.

pub mod markdown;
pub mod repository;
pub mod rules;
