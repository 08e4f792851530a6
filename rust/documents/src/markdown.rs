//! As much of Markdown as the documents use, line by line.

/// A piece of a document, and the number of its line, from 1.
#[derive(Clone, Copy, Debug, PartialEq, Eq)]
pub struct Piece<'t> {
    /// The line.
    pub line: usize,
    /// The piece itself.
    pub text: &'t str,
}

/// The lines outside fenced code.
fn lines(document: &str) -> impl Iterator<Item = Piece<'_>> {
    let numbered = document.lines().enumerate();
    let pieces = numbered.map(|(n, text)| Piece { line: n + 1, text });
    let mut fenced = false;
    pieces.filter(move |piece| {
        let fence = piece.text.trim_start().starts_with("```");
        fenced ^= fence;
        !fenced && !fence
    })
}

/// Whether a line is one of a table.
fn in_table(piece: &Piece<'_>) -> bool {
    piece.text.starts_with('|')
}

/// The lines that stand in no table.
pub fn prose(document: &str) -> impl Iterator<Item = Piece<'_>> {
    lines(document).filter(|piece| !in_table(piece))
}

/// The targets of the links, as they are written.
pub fn link_targets(document: &str) -> Vec<Piece<'_>> {
    let mut targets = Vec::new();
    for Piece { line, text } in lines(document) {
        let after = text.split("](").skip(1);
        targets.extend(after.filter_map(|rest| {
            let (target, _) = rest.split_once(')')?;
            Some(Piece { line, text: target })
        }));
    }
    targets
}

/// The code spans, without their backticks. A span ends on its line.
pub fn code_spans(document: &str) -> Vec<Piece<'_>> {
    let mut spans = Vec::new();
    for Piece { line, text } in lines(document) {
        let inside = text.split('`').skip(1).step_by(2);
        spans.extend(inside.map(|text| Piece { line, text }));
    }
    spans
}

/// The anchors of the headings, made as GitHub makes them: a heading whose anchor
/// is taken gets the first number behind it that is free.
pub fn anchors(document: &str) -> Vec<String> {
    let mut anchors: Vec<String> = Vec::new();
    for Piece { text, .. } in lines(document).filter(|piece| piece.text.starts_with('#')) {
        let bare = anchor(text.trim_start_matches('#').trim());
        let numbered = (1..).map(|n| format!("{bare}-{n}"));
        let free = [bare.clone()].into_iter().chain(numbered).find(|a| !anchors.contains(a));
        anchors.extend(free);
    }
    anchors
}

/// The anchor of a heading: small letters, digits, `-` and `_`, a `-` for each space.
fn anchor(heading: &str) -> String {
    let kept = heading.chars().filter(|c| c.is_alphanumeric() || " -_".contains(*c));
    kept.flat_map(char::to_lowercase).map(|c| if c == ' ' { '-' } else { c }).collect()
}

/// The cells below the heads that are `wanted`, in all tables.
pub fn column(document: &str, wanted: impl Fn(&str) -> bool) -> Vec<Piece<'_>> {
    let mut found = Vec::new();
    let mut columns: Option<Vec<usize>> = None;
    for piece in lines(document) {
        if !in_table(&piece) {
            columns = None;
            continue;
        }
        let cells = cells(piece.text);
        let Some(columns) = &columns else {
            let heads = cells.iter().enumerate().filter(|(_, head)| wanted(head));
            columns = Some(heads.map(|(n, _)| n).collect());
            continue;
        };
        let below = columns.iter().filter_map(|n| cells.get(*n));
        let below = below.filter(|cell| !cell.starts_with("---"));
        found.extend(below.map(|cell| Piece { line: piece.line, text: cell }));
    }
    found
}

/// The cells of a line of a table. A `|` in a code span parts none.
fn cells(line: &str) -> Vec<&str> {
    let mut in_code = false;
    let parted = line.split(|c| {
        in_code ^= c == '`';
        c == '|' && !in_code
    });
    parted.skip(1).map(str::trim).collect()
}

/// A part of a cell that names things: `owner: name, name`.
#[derive(Clone, Debug, PartialEq, Eq)]
pub struct Part<'t> {
    /// What stands before the colon, if there is one.
    pub owner: Option<&'t str>,
    /// The names.
    pub names: Vec<&'t str>,
}

/// The parts of a cell `owner: name, name; owner: name`, with or without
/// backticks. A name with a link in it leads to another table and is left out.
pub fn parts(cell: &str) -> Vec<Part<'_>> {
    cell.split(';').map(part).filter(|part| !part.names.is_empty()).collect()
}

/// One part of a cell.
fn part(text: &str) -> Part<'_> {
    let (owner, names) = match text.split_once(": ") {
        Some((owner, names)) => (Some(bare(owner)), names),
        None => (None, text),
    };
    let names = names.split(',').filter(|name| !name.contains("](")).map(bare);
    Part { owner, names: names.filter(|name| !name.is_empty()).collect() }
}

/// A piece without the backticks and spaces around it.
fn bare(text: &str) -> &str {
    text.trim_matches(|c: char| c == '`' || c.is_whitespace())
}

#[cfg(test)]
mod tests {
    use super::*;

    const DOCUMENT: &str = "\
# A name, and `code`

See [this](one.md#two) and [`that`](../three).

## Again
## Again
```
# no heading [no](link)
```
| what | test (and where) | must-fail edits |
|---|---|---|
| `a | b` | quick: one, two | rows: first; `tokens: second` |
| c | replay | |
";

    #[test]
    fn links_with_their_lines() {
        let target = |line, text| Piece { line, text };
        assert_eq!(link_targets(DOCUMENT), [target(3, "one.md#two"), target(3, "../three")]);
    }

    #[test]
    fn anchors_as_github_makes_them() {
        assert_eq!(anchors(DOCUMENT), ["a-name-and-code", "again", "again-1"]);
        assert_eq!(anchors("# A\n# A\n## A\n# A\n"), ["a", "a-1", "a-2", "a-3"]);
        assert_eq!(anchors("# A 1\n# A\n# A\n"), ["a-1", "a", "a-2"]);
        assert_eq!(anchor("§4 Reading: on_and-on (it's `x`)"), "4-reading-on_and-on-its-x");
    }

    #[test]
    fn spans_of_code() {
        let spans: Vec<&str> = code_spans(DOCUMENT).iter().map(|span| span.text).collect();
        assert_eq!(spans, ["code", "that", "a | b", "tokens: second"]);
    }

    #[test]
    fn columns_by_their_heads() {
        let tests = column(DOCUMENT, |head| head.starts_with("test"));
        let cell = |line, text| Piece { line, text };
        assert_eq!(tests, [cell(12, "quick: one, two"), cell(13, "replay")]);
        assert!(column(DOCUMENT, |head| head == "nothing").is_empty());
    }

    #[test]
    fn parts_of_a_cell() {
        let part = |owner, names: &[&'static str]| Part { owner, names: names.to_vec() };
        let two = [part(Some("rows"), &["first", "more"]), part(Some("tokens"), &["second"])];
        assert_eq!(parts("rows: first, `more`; `tokens: second`"), two);
        assert_eq!(
            parts("rows: a, and those of [b](#b); replay"),
            [part(Some("rows"), &["a"]), part(None, &["replay"])]
        );
        assert!(parts("").is_empty() && parts("[there](#there)").is_empty());
    }

    #[test]
    fn prose_is_what_no_table_has() {
        let lines: Vec<usize> = prose(DOCUMENT).map(|piece| piece.line).collect();
        assert_eq!(lines, [1, 2, 3, 4, 5, 6]);
    }
}
