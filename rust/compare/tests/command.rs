//! The command `compare` and its arguments.

use std::process::{Command, Output};

/// Runs the command with the words of a line.
fn run(line: &str) -> Output {
    let mut command = Command::new(env!("CARGO_BIN_EXE_compare"));
    command.args(line.split_whitespace()).output().expect("the command runs")
}

/// The first line that the command writes on the way out.
fn complaint(line: &str) -> String {
    let said = run(line);
    assert_eq!(said.status.code(), Some(2), "{line}");
    assert!(said.stdout.is_empty(), "{line}");
    let text = String::from_utf8(said.stderr).expect("it writes text");
    assert!(text.contains("\n\nusage: compare"), "{text}");
    text.lines().next().unwrap_or_default().to_string()
}

#[test]
fn a_wrong_word_is_named() {
    for (line, why) in [
        ("", "compare: no entry is named"),
        ("prase --edges", "compare: `prase` is no entry"),
        ("parse", "compare: no option says which cases"),
        ("parse --edge", "compare: `--edge` is no option"),
        ("parse --edges 3", "compare: `3` is no option"),
        ("parse --cases", "compare: `--cases` is without its number"),
        ("parse --cases 5", "compare: `--cases` is without `--seed`"),
        ("parse --from 5 --seed 1", "compare: `--from` is without `--cases`"),
        ("parse --from 5", "compare: `--from` is without `--cases`"),
        ("parse --seed 1 --seed 2", "compare: `--seed` is given twice"),
        ("parse --edges --seed 2", "compare: `--seed` does not go with `--edges`"),
        ("parse --seed 1 --cases 0", "compare: `--cases 0` compares nothing"),
    ] {
        assert_eq!(complaint(line), why);
    }
}

#[test]
fn a_wrong_number_is_named() {
    let most = "18446744073709551615";
    for (line, why) in [
        ("parse --parts x".to_string(), "`x` after `--parts` is no whole number up to"),
        ("parse --parts -1".to_string(), "`-1` after `--parts` is no whole number up to"),
        (format!("parse --parts {most}0"), "0` after `--parts` is no whole number up to"),
        (format!("parse --cases {most} --from 2 --seed 1"), "`--from` and `--cases` come to more"),
    ] {
        let said = complaint(&line);
        assert!(said.contains(why) && said.contains(most), "{said}");
    }
}

#[test]
fn a_run_that_is_not_there_is_said() {
    for line in ["spelled --edges", "parse --seed 1", "all --cases 1 --from 1 --seed 1"] {
        assert!(complaint(line).ends_with("has no such run"));
    }
}

#[test]
fn options_stand_in_any_order() {
    for line in ["--cases 3 --seed 7 --from 2", "--from 2 --seed 7 --cases 3"] {
        let said = run(&format!("parse {line}"));
        assert!(said.status.success(), "{line}");
        assert!(said.stdout.starts_with(b"3 cases agree"), "{line}");
    }
    let last = run(&format!("spelled --seed 7 --cases 1 --from {}", u64::MAX - 1));
    assert!(last.status.success() && last.stdout.starts_with(b"1 cases agree"));
}
