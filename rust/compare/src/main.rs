//! `compare ENTRY WHICH`: compares one entry of the proved library with the
//! rules and with the original, and exits with 1 at the first difference.

use compare::all;
use compare::arguments::{Which, asked};
use compare::entries::Library;
use compare::parse::Parse;
use compare::run::{self, Chosen, Ran};
use compare::split::Split;
use compare::{edges, predicates};
use oracle::cases::{EVERY, PARTS};
use std::process::ExitCode;
use std::time::Instant;

/// How it is called.
const USAGE: &str = "usage: compare parse --exhaustive LENGTH
       compare parse --parts LENGTH
       compare split --exhaustive ATOMS
       compare parse|split --edges
       compare parse|spelled|split|lookup|value --cases COUNT --seed SEED [--from CASE]
       compare all --cases COUNT --seed SEED
       compare all --seed SEED

--exhaustive: every string of up to LENGTH tokens over the 34 tokens of expressions,
              or every tree of AND, OR and NOT over up to ATOMS atoms.
--parts:      every string of up to LENGTH tokens over 19, one for each part they play.
--edges:      the limits from both sides.
--cases:      COUNT cases by chance, at least one, the first of them number CASE (0).
all:          all five entries in turn, ten thousand cases a turn, so COUNT is rounded up
              to whole turns; without a COUNT, until it is stopped.

Options may stand in any order.";

/// Runs one comparison; none if there is no such run.
fn run(entry: &str, which: Which) -> Option<Ran> {
    Some(match (entry, which) {
        ("parse", Which::Edges) => {
            run::listed(&mut Parse::of(&Library), edges::of_parse().into_iter())
        }
        ("parse", Which::Exhaustive(longest)) => run::every_string(&Library, EVERY, longest),
        ("parse", Which::Parts(longest)) => run::every_string(&Library, PARTS, longest),
        ("split", Which::Edges) => {
            run::listed(&mut Split::of(&Library), edges::of_split().into_iter())
        }
        ("split", Which::Exhaustive(atoms)) => {
            run::listed(&mut Split::of(&Library), predicates::every_small(atoms))
        }
        ("all", Which::Chance(Chosen { seed, from: 0, cases })) => {
            all::turns(seed, cases.div_ceil(all::TURN), |tally| println!("{tally}\n"))
        }
        ("all", Which::Endless(seed)) => all::turns(seed, u64::MAX, |tally| println!("{tally}\n")),
        (entry, Which::Chance(chosen)) => return all::entry_by_chance(entry, chosen),
        _ => return None,
    })
}

/// Says why there is no run, and how one is asked for.
fn unusable(why: &str) -> ExitCode {
    eprintln!("compare: {why}\n\n{USAGE}");
    ExitCode::from(2)
}

fn main() -> ExitCode {
    let arguments: Vec<String> = std::env::args().skip(1).collect();
    let arguments: Vec<&str> = arguments.iter().map(String::as_str).collect();
    let (entry, which) = match asked(&arguments) {
        Ok(asked) => asked,
        Err(why) => return unusable(&why),
    };
    let start = Instant::now();
    // The original has no limit on levels, and trees are as deep as they are long.
    match oracle::on_large_stack(|| run(entry, which)) {
        None => unusable(&format!("`{entry}` has no such run")),
        Some(Ok(tally)) => {
            println!("{tally}");
            println!("{:.1} seconds", start.elapsed().as_secs_f64());
            ExitCode::SUCCESS
        }
        Some(Err(difference)) => {
            println!("{difference}");
            ExitCode::FAILURE
        }
    }
}
