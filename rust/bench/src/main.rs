//! `bench`: the proved library and the original side by side, as tables of times
//! and ratios; `bench parse`, `bench split`, `bench lookup`: one of the tables.
//! `bench stack`: how much stack the library's calls need.

mod clock;
mod lookup;
mod parse;
mod shapes;
mod split;
mod stack;

use std::process::ExitCode;

/// Prints a table of times, or all of them; false if there is no such table.
fn tables(which: Option<&str>) -> bool {
    let all: &[(&str, fn())] =
        &[("parse", parse::table), ("split", split::table), ("lookup", lookup::table)];
    let asked = |name: &str| which.is_none_or(|which| which == name);
    let chosen: Vec<_> = all.iter().filter(|(name, _)| asked(name)).collect();
    // The original recurses as deep as its trees are, when it frees them too.
    oracle::on_large_stack(|| chosen.iter().for_each(|(_, table)| table()));
    !chosen.is_empty()
}

fn main() -> ExitCode {
    let arguments: Vec<String> = std::env::args().skip(1).collect();
    let arguments: Vec<&str> = arguments.iter().map(String::as_str).collect();
    let printed = match arguments[..] {
        ["stack"] => return stack::table(),
        [] => tables(None),
        [which] => tables(Some(which)),
        _ => false,
    };
    if printed {
        return ExitCode::SUCCESS;
    }
    eprintln!("usage: bench [parse | split | lookup | stack]");
    ExitCode::from(2)
}
