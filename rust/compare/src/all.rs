//! All entries in one run: a share of the cases for each, in turn.

use crate::entries::Library;
use crate::lookup::{self, Lookup, Value};
use crate::parse::Parse;
use crate::run::{Chosen, Ran, Tally, by_chance};
use crate::spelled::{self, Spelled};
use crate::split::{self, Split};
use crate::tokens;

/// An entry by its name, how many of its cases there are in one turn, and its run
/// by chance.
type Entry = (&'static str, u64, fn(Chosen) -> Ran);

/// All entries. What takes longer has fewer cases.
const ENTRIES: [Entry; 5] = [
    ("parse", 4_000, |chosen| by_chance(&mut Parse::of(&Library), chosen, tokens::random_case)),
    ("spelled", 4_000, |chosen| by_chance(&mut Spelled(&Library), chosen, spelled::random_case)),
    ("split", 1_000, |chosen| by_chance(&mut Split::of(&Library), chosen, split::random_case)),
    ("lookup", 500, |chosen| by_chance(&mut Lookup(&Library), chosen, lookup::random_case)),
    ("value", 500, |chosen| by_chance(&mut Value(&Library), chosen, lookup::random_case)),
];

/// How many cases one turn has: the sum over all entries.
pub const TURN: u64 = 10_000;

/// Compares cases of one entry by chance; none if there is no such entry.
pub fn entry_by_chance(name: &str, chosen: Chosen) -> Option<Ran> {
    let entry = ENTRIES.iter().find(|(entry, ..)| *entry == name);
    entry.map(|(_, _, run)| run(chosen))
}

/// One turn of a run with this seed: the cases of each entry follow those of
/// the turns before it.
pub fn turn(seed: u64, number: u64) -> Ran {
    let mut tally = Tally::default();
    for (name, cases, run) in ENTRIES {
        let chosen = Chosen { seed, from: number * cases, cases };
        tally.add(&run(chosen).map_err(|mut difference| {
            difference.origin = format!("{name}, {}", difference.origin);
            difference
        })?);
    }
    Ok(tally)
}

/// So many turns; after every thousandth, `said` is told what there was so far.
pub fn turns(seed: u64, count: u64, mut said: impl FnMut(&Tally)) -> Ran {
    let mut tally = Tally::default();
    for number in 0..count {
        tally.add(&turn(seed, number)?);
        if number % 1_000 == 999 {
            said(&tally);
        }
    }
    Ok(tally)
}
