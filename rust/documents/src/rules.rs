//! The rules that the documents keep to. Each answers its faults, a line for each
//! that names the document, the line and the word.

use crate::markdown::{Piece, anchors, code_spans, column, link_targets, parts, prose};
use crate::repository::{Repository, words_of};
use std::collections::HashSet;

/// The document of promises.
pub const PROMISES: &str = "docs/PROMISES.md";

/// The programs that stand in a column of tests: they have no function.
const PROGRAMS: [&str; 2] = ["replay", "show"];

/// What stands in backticks and looks like a name, but is none of ours.
const NOT_OURS: [&str; 6] = [
    // The prover's words.
    "omega",
    "refl",
    // Functions of the original that have no counterpart.
    "and_vec",
    "replace_column",
    "shift_column",
    // What stands for the name of a crate.
    "crates/NAME/must-fail/",
];

/// A fault of docs/PROMISES.md.
fn fault(line: usize, why: &str) -> String {
    format!("{PROMISES}:{line}: {why}")
}

/// The links of a document that lead to no file or folder, or to no heading.
pub fn broken_links(repository: &Repository, document: &str, text: &str) -> Vec<String> {
    let broken = link_targets(text).into_iter().filter_map(|Piece { line, text: target }| {
        let why = broken_link(repository, document, text, target)?;
        Some(format!("{document}:{line}: the link to `{target}` {why}"))
    });
    broken.collect()
}

/// What is wrong with one link, if it is relative.
fn broken_link(
    repository: &Repository,
    document: &str,
    text: &str,
    target: &str,
) -> Option<String> {
    if target.contains("://") || target.starts_with("mailto:") {
        return None;
    }
    let (file, fragment) = target.split_once('#').map_or((target, None), |(f, a)| (f, Some(a)));
    let folder = document.rsplit_once('/').map_or("", |(folder, _)| folder);
    let path = format!("{folder}/{file}").trim_start_matches('/').to_string();
    if !file.is_empty() && !repository.path(&path).exists() {
        return Some("leads to no file and no folder".to_string());
    }
    let fragment = fragment.filter(|_| file.is_empty() || file.ends_with(".md"))?;
    let headings = if file.is_empty() { anchors(text) } else { anchors(&repository.text(&path)) };
    (!headings.iter().any(|anchor| anchor == fragment)).then(|| "leads to no heading".to_string())
}

/// The names in columns of must-fail edits: line, crate and label; and the faults
/// of cells that are not of the form `crate: label, label; crate: label`.
fn edits_in_tables(promises: &str) -> (Vec<(usize, &str, &str)>, Vec<String>) {
    let is_edits =
        |head: &str| head.ends_with("must-fail edits") || head.ends_with("must-fail edit");
    let (mut edits, mut faults) = (Vec::new(), Vec::new());
    for Piece { line, text } in column(promises, is_edits) {
        for part in parts(text) {
            match part.owner {
                Some(owner) => edits.extend(part.names.iter().map(|label| (line, owner, *label))),
                None => faults.push(fault(
                    line,
                    &format!("no crate stands before `{}`", part.names.join(", ")),
                )),
            }
        }
    }
    (edits, faults)
}

/// The must-fail edits that are named in tables and not there.
pub fn missing_edits(repository: &Repository, promises: &str) -> Vec<String> {
    let (edits, mut faults) = edits_in_tables(promises);
    let missing = edits.into_iter().filter(|(_, owner, label)| !repository.has_edit(owner, label));
    faults.extend(missing.map(|(line, owner, label)| {
        fault(line, &format!("there is no crates/{owner}/must-fail/{label}.edit"))
    }));
    faults
}

/// The must-fail edits that are there and named nowhere.
pub fn unnamed_edits(repository: &Repository, promises: &str) -> Vec<String> {
    let (edits, _) = edits_in_tables(promises);
    let in_tables: HashSet<(&str, &str)> =
        edits.into_iter().map(|(_, owner, label)| (owner, label)).collect();
    let in_prose: HashSet<&str> = prose(promises).flat_map(|piece| words_of(piece.text)).collect();
    let unnamed = repository.edits().into_iter().filter(|(owner, label)| {
        !in_tables.contains(&(owner, label)) && !in_prose.contains(&**label)
    });
    unnamed.map(|(owner, label)| format!("{PROMISES} does not name `{owner}: {label}`")).collect()
}

/// The tests that are named in tables and not there.
pub fn missing_tests(repository: &Repository, promises: &str) -> Vec<String> {
    let mut faults = Vec::new();
    for Piece { line, text } in column(promises, |head| head.starts_with("test")) {
        for part in parts(text) {
            let Some(file) = part.owner else {
                if !PROGRAMS.contains(&part.names[0]) {
                    let names = part.names.join(", ");
                    faults.push(fault(line, &format!("no file stands before `{names}`")));
                }
                continue;
            };
            let missing = part.names.iter().filter(|name| !repository.has_test(file, name));
            faults.extend(missing.map(|name| {
                fault(line, &format!("no {file}.rs in rust/*/tests has a function `{name}`"))
            }));
        }
    }
    faults
}

/// The names in backticks that look like ours and are nowhere.
pub fn missing_names(repository: &Repository, promises: &str) -> Vec<String> {
    let spans = code_spans(promises).into_iter().filter(|span| looks_like_a_name(span.text));
    let missing = spans.filter_map(|Piece { line, text }| {
        let why = missing_name(repository, text)?;
        Some(fault(line, &format!("`{text}`: {why}")))
    });
    missing.collect()
}

/// Whether a span is a name or a path: it has a letter, and nothing but letters,
/// digits, `_`, `-`, `/`, `:` and `'`.
fn looks_like_a_name(span: &str) -> bool {
    let fits = |c: char| c.is_alphanumeric() || "_-/:'".contains(c);
    span.chars().all(fits) && span.chars().any(char::is_alphabetic) && !NOT_OURS.contains(&span)
}

/// What is wrong with a name: each part of `crate::module::function` must be a
/// function or a module of that crate, `crate/specs/File` a file or a folder, and
/// anything else a word of a source.
fn missing_name(repository: &Repository, name: &str) -> Option<String> {
    if let Some((owner, rest)) = name.split_once("::") {
        let item = rest.split("::").find(|item| !repository.has_item(owner, item))?;
        return Some(format!("crates/{owner}/src has no function or module `{item}`"));
    }
    if name.contains('/') {
        return (!repository.has_path(name)).then(|| "there is no such file or folder".to_string());
    }
    (!repository.has_word(name)).then(|| "the word stands in no source".to_string())
}

#[cfg(test)]
mod tests {
    use super::*;

    /// The lines of the faults, and that each names what is wrong.
    fn lines(faults: &[String], names: &[(usize, &str)]) {
        assert_eq!(faults.len(), names.len(), "{faults:#?}");
        for (fault, (line, name)) in faults.iter().zip(names) {
            assert!(fault.contains(&format!(":{line}: ")) && fault.contains(name), "{fault}");
        }
    }

    #[test]
    fn links() {
        let text = "# One\n[a](#one) [b](#two)\n[c](../rust) [d](none.md) [e](https://x.y/z)\n\
                    [f](PROMISES.md#promises) [g](PROMISES.md#none)\n";
        let faults = broken_links(&Repository::here(), "docs/X.md", text);
        lines(&faults, &[(2, "#two"), (3, "none.md"), (4, "PROMISES.md#none")]);
    }

    #[test]
    fn edits() {
        let here = Repository::here();
        let (owner, label) = here.edits().swap_remove(0);
        let text = format!(
            "| a | must-fail edits |\n|---|---|\n| b | {owner}: {label}, nope; nowhere: {label} |\n\
             | c | {label} |\n| d | [there](#there) |\n"
        );
        let wrong = ["no crate stands", "/nope.edit", "crates/nowhere/"];
        lines(&missing_edits(&here, &text), &[(4, wrong[0]), (3, wrong[1]), (3, wrong[2])]);
        let unnamed = unnamed_edits(&here, &text);
        assert_eq!(unnamed.len() + 1, here.edits().len());
        assert_eq!(unnamed_edits(&here, &format!("It is `{label}`.")).len(), unnamed.len());
    }

    #[test]
    fn tests_in_tables() {
        let text = "| test (and more) |\n|---|\n| promises: links_lead_somewhere, links |\n\
                    | replay, each kind; show |\n| nothing |\n";
        let faults = missing_tests(&Repository::here(), text);
        lines(&faults, &[(3, "`links`"), (5, "`nothing`")]);
    }

    #[test]
    fn names() {
        let text = "`Refusal` `Refusa` `a + b` `17`\n`rust/documents` `tokens/specs/None`\n\
                    `tokens::no_such_function` `specs/`\n";
        let faults = missing_names(&Repository::here(), text);
        lines(&faults, &[(1, "`Refusa`"), (2, "tokens/specs/None"), (3, "no_such_function")]);
    }
}
