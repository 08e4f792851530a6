//! What the documents link to and what docs/PROMISES.md names is there, and every
//! must-fail edit is named.

use documents::repository::Repository;
use documents::rules::{self, PROMISES};

/// Fails with all faults, a line each.
fn none(faults: &[String]) {
    assert!(faults.is_empty(), "{} faults:\n{}", faults.len(), faults.join("\n"));
}

/// A rule over the document of promises.
fn holds(rule: fn(&Repository, &str) -> Vec<String>) {
    let repository = Repository::here();
    none(&rule(&repository, &repository.text(PROMISES)));
}

#[test]
fn links_lead_somewhere() {
    let repository = Repository::here();
    let documents = repository.documents().into_iter();
    let broken = documents.flat_map(|document| {
        rules::broken_links(&repository, &document, &repository.text(&document))
    });
    none(&broken.collect::<Vec<_>>());
}

#[test]
fn named_edits_are_there() {
    holds(rules::missing_edits);
}

#[test]
fn every_edit_is_named() {
    holds(rules::unnamed_edits);
}

#[test]
fn named_tests_are_there() {
    holds(rules::missing_tests);
}

#[test]
fn names_in_backticks_are_there() {
    holds(rules::missing_names);
}
