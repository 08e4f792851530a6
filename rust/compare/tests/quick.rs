//! A quick run of every comparison. The command `compare` makes long ones.

use compare::entries::Library;
use compare::lookup::{self, Lookup, Value};
use compare::parse::Parse;
use compare::run::{self, Chosen, Ran, Tally};
use compare::spelled::{self, Spelled};
use compare::split::{self, Split};
use compare::{edges, predicates, tokens};
use oracle::cases::{EVERY, PARTS};
use oracle::plain::refusal::*;

/// Fewer where the code is not optimised.
fn cases(most: u64) -> Chosen {
    let cases = if cfg!(debug_assertions) { most / 100 } else { most };
    Chosen { seed: 7, from: 0, cases }
}

/// Shorter where the code is not optimised.
fn length(most: usize) -> usize {
    if cfg!(debug_assertions) { most - 1 } else { most }
}

/// Runs a comparison on a large stack, as the original needs it, and fails at a
/// difference.
fn holds(work: impl FnOnce() -> Ran + Send) -> Tally {
    match oracle::on_large_stack(work) {
        Ok(tally) => {
            println!("{tally}");
            tally
        }
        Err(difference) => panic!("{difference}"),
    }
}

/// Fails if an answer, or one of these refusals, never came up.
fn came_up(tally: &Tally, refusals: &[u32]) {
    assert_ne!(tally.answered(), 0, "no case was answered");
    for number in refusals {
        assert!(tally.refused.contains_key(number), "no case was refused with {number}");
    }
}

#[test]
fn every_short_string() {
    let tally = holds(|| run::every_string(&Library, EVERY, length(4)));
    came_up(&tally, &[END, NO_ATOM, WRONG_TOKEN, LEFT_OVER, BAD_NUMBER]);
    assert_eq!(tally.same, tally.cases);
}

#[test]
fn every_string_of_five_parts() {
    let tally = holds(|| run::every_string(&Library, PARTS, length(5)));
    assert_eq!(tally.same, tally.cases);
}

#[test]
fn edges_of_parse() {
    let cases = edges::of_parse().into_iter();
    let tally = holds(|| run::listed(&mut Parse::of(&Library), cases));
    came_up(&tally, &[TOO_LONG, BAD_TABLE, END, NO_ATOM, LEFT_OVER, BAD_NUMBER, TOO_DEEP, NO_ROOM]);
}

#[test]
fn parse_by_chance() {
    let tally =
        holds(|| run::by_chance(&mut Parse::of(&Library), cases(500_000), tokens::random_case));
    came_up(
        &tally,
        &[TOO_LONG, BAD_TABLE, END, NO_ATOM, WRONG_TOKEN, LEFT_OVER, BAD_NUMBER, TOO_DEEP, NO_ROOM],
    );
}

#[test]
fn spelled_by_chance() {
    holds(|| run::by_chance(&mut Spelled(&Library), cases(300_000), spelled::random_case));
}

#[test]
fn edges_of_split() {
    let tally = holds(|| {
        let cases = edges::of_split().into_iter();
        run::listed(&mut Split::of(&Library), cases)
    });
    came_up(&tally, &[TOO_LONG, BAD_TREE, TOO_MANY, NO_LIST]);
}

#[test]
fn every_small_tree() {
    let atoms = length(4);
    holds(|| run::listed(&mut Split::of(&Library), predicates::every_small(atoms)));
}

#[test]
fn split_by_chance() {
    let tally =
        holds(|| run::by_chance(&mut Split::of(&Library), cases(30_000), split::random_case));
    came_up(&tally, &[TOO_LONG, BAD_TREE, TOO_MANY, NO_LIST]);
    assert!(tally.classes.contains_key(&16), "no atom was rewritten inside");
}

#[test]
fn lookup_by_chance() {
    let tally = holds(|| run::by_chance(&mut Lookup(&Library), cases(30_000), lookup::random_case));
    came_up(&tally, &[TOO_LONG, BAD_TREE, TOO_MANY, NOT_LOOKUP, NO_SUCH]);
}

#[test]
fn value_by_chance() {
    let tally = holds(|| run::by_chance(&mut Value(&Library), cases(30_000), lookup::random_case));
    came_up(&tally, &[TOO_LONG, BAD_TREE, TOO_MANY, NOT_LOOKUP, NO_SUCH]);
}

#[test]
fn all_entries_in_turn() {
    let turns = cases(5).cases;
    let tally = holds(move || compare::all::turns(7, turns, |_| ()));
    assert_eq!(tally.cases, turns * compare::all::TURN);
}

/// The safe functions hand out what the C functions say.
#[test]
fn the_safe_face_says_the_same() {
    for n in 0..cases(30_000).cases {
        let case = tokens::random_case(&mut run::dice(3, n));
        let (mut safe, mut plain) = (vec![1; case.slots], vec![1; case.slots]);
        let said = match fontrisc::parse(&case.text, &case.tokens, &mut safe) {
            Ok(rows) => (0, rows as u64),
            Err(refused) => (refused.why.number(), refused.place as u64),
        };
        assert_eq!(said, fontrisc::numbers::parse(&case.text, &case.tokens, &mut plain));
        assert_eq!(safe, plain);
        for token in 0..case.tokens.len().min(9) {
            let part = fontrisc::spelled(&case.text, &case.tokens, token);
            let (start, length) = oracle::plain::spelled(&case.text, &case.tokens, token);
            assert_eq!(part, &case.text[start as usize..][..length as usize]);
        }
    }
}
