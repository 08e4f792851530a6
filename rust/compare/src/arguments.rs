//! What the command `compare` is asked for: an entry, and which of its cases.

use crate::run::Chosen;

/// Which cases are compared.
#[derive(Clone, Copy, Debug, PartialEq, Eq)]
pub enum Which {
    /// Those at the limits.
    Edges,
    /// Every string, or every tree, up to a length.
    Exhaustive(usize),
    /// Every string over fewer tokens, up to a length.
    Parts(usize),
    /// Some by chance.
    Chance(Chosen),
    /// All there are of a seed, by chance.
    Endless(u64),
}

/// The entries, and `all` of them.
const ENTRIES: [&str; 6] = ["parse", "spelled", "split", "lookup", "value", "all"];

/// The options that a number follows.
const NUMBERED: [&str; 5] = ["--exhaustive", "--parts", "--cases", "--seed", "--from"];

/// The entry and the cases that the words ask for; or which word is wrong, and why.
pub fn asked<'w>(words: &[&'w str]) -> Result<(&'w str, Which), String> {
    let (entry, rest) = words.split_first().ok_or("no entry is named")?;
    if !ENTRIES.contains(entry) {
        return Err(format!("`{entry}` is no entry"));
    }
    Ok((entry, which(options(rest)?)?))
}

/// The options by their names, each with its number, 0 if it has none.
fn options<'w>(words: &[&'w str]) -> Result<Vec<(&'w str, u64)>, String> {
    let mut given: Vec<(&str, u64)> = Vec::new();
    let mut words = words.iter();
    while let Some(option) = words.next() {
        let number = match *option {
            "--edges" => 0,
            option if NUMBERED.contains(&option) => number(option, words.next())?,
            word => return Err(format!("`{word}` is no option")),
        };
        if given.iter().any(|(before, _)| before == option) {
            return Err(format!("`{option}` is given twice"));
        }
        given.push((option, number));
    }
    given.sort_unstable();
    Ok(given)
}

/// The number that follows an option.
fn number(option: &str, word: Option<&&str>) -> Result<u64, String> {
    let word = word.ok_or_else(|| format!("`{option}` is without its number"))?;
    let why = |_| format!("`{word}` after `{option}` is no whole number up to {}", u64::MAX);
    word.parse().map_err(why)
}

/// The cases that options ask for.
fn which(given: Vec<(&str, u64)>) -> Result<Which, String> {
    match given[..] {
        [("--edges", _)] => Ok(Which::Edges),
        [("--exhaustive", longest)] => Ok(Which::Exhaustive(longest as usize)),
        [("--parts", longest)] => Ok(Which::Parts(longest as usize)),
        [("--seed", seed)] => Ok(Which::Endless(seed)),
        [("--cases", cases), ("--seed", seed)] => chance(Chosen { seed, from: 0, cases }),
        [("--cases", cases), ("--from", from), ("--seed", seed)] => {
            chance(Chosen { seed, from, cases })
        }
        [] => Err("no option says which cases".to_string()),
        [("--cases", _)] | [("--cases", _), ("--from", _)] => {
            Err("`--cases` is without `--seed`".to_string())
        }
        [("--from", _), ..] => Err("`--from` is without `--cases`".to_string()),
        [(first, _), (second, _), ..] => Err(format!("`{second}` does not go with `{first}`")),
        [(option, _)] => Err(format!("`{option}` alone says no cases")),
    }
}

/// Cases by chance: at least one, and each has a number.
fn chance(chosen: Chosen) -> Result<Which, String> {
    if chosen.cases == 0 {
        return Err("`--cases 0` compares nothing".to_string());
    }
    match chosen.end() {
        Some(_) => Ok(Which::Chance(chosen)),
        None => Err(format!("`--from` and `--cases` come to more than {}", u64::MAX)),
    }
}
