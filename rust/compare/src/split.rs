//! The comparison of `split`.

use crate::entries::{Rules, Splits};
use crate::lent::Lent;
use crate::original::{self, Verdict};
use crate::predicates;
use crate::run::{Comparison, Outcome};
use crate::shrink::{Shrinks, smaller_numbers};
use oracle::cases::{Dice, Predicate};
use oracle::layout::ROW_WIDTH;
use std::fmt::{Display, Formatter};

/// What `split` is lent: a predicate, and two lists of so many places.
#[derive(Clone, Debug, PartialEq, Eq)]
pub struct Case {
    /// The text.
    pub text: Vec<u8>,
    /// The predicate rows.
    pub rows: Vec<u64>,
    /// The length of the list of literals.
    pub literals: usize,
    /// The length of the list of ends.
    pub ends: usize,
}

/// Makes a case by chance.
pub fn random_case(dice: &mut Dice) -> Case {
    let made = predicates::random_predicate(dice);
    let (clauses, literals) = predicates::counts(&made);
    let literals = length_near(dice, literals);
    let ends = length_near(dice, clauses);
    Case { text: made.text, rows: made.rows, literals, ends }
}

/// A length for a list that needs so many places.
fn length_near(dice: &mut Dice, needed: usize) -> usize {
    match dice.below(12) {
        0 => needed.saturating_sub(1),
        1 => dice.below(needed + 1),
        2 => 0,
        3..8 => needed,
        _ => needed + dice.below(20),
    }
}

/// Compares `split` of a side with the rules and with the original.
pub struct Split<'s, S> {
    side: &'s S,
    ours: Lists,
    rules: Lists,
}

/// The two lists that are lent.
struct Lists {
    literals: Lent<u32>,
    ends: Lent<u32>,
}

impl Lists {
    fn new() -> Self {
        Lists { literals: Lent::new(0), ends: Lent::new(0) }
    }

    fn renew(&mut self, case: &Case) {
        self.literals.renew(case.literals);
        self.ends.renew(case.ends);
    }

    fn lend(&mut self, side: &impl Splits, case: &Case) -> (u32, u64, u64) {
        side.split(&case.text, &case.rows, self.literals.part(), self.ends.part())
    }
}

impl<'s, S: Splits> Split<'s, S> {
    /// A comparison of one side.
    pub fn of(side: &'s S) -> Self {
        Split { side, ours: Lists::new(), rules: Lists::new() }
    }

    /// How an answer stands to the original's.
    fn verdict(&self, case: &Case, (number, clauses, literals): (u32, u64, u64)) -> Verdict {
        if number != 0 {
            return Verdict::NotAsked;
        }
        let Some(made) = original::clauses(&case.text, &case.rows, clauses) else {
            return Verdict::NotAsked;
        };
        let literals = &self.ours.literals.seen()[..literals as usize];
        original::verdict_on_split(&made, literals, &self.ours.ends.seen()[..clauses as usize])
    }
}

impl<S: Splits> Comparison for Split<'_, S> {
    type Case = Case;

    fn compare(&mut self, case: &Case) -> Outcome {
        let kept = case.clone();
        self.ours.renew(case);
        self.rules.renew(case);
        let ours = self.ours.lend(self.side, case);
        let rules = self.rules.lend(&Rules, case);
        if kept != *case {
            return Outcome::Differs("the text or the rows were written to".to_string());
        }
        if ours != rules {
            return Outcome::Differs(format!("answer: {ours:?}; by the rules {rules:?}"));
        }
        let lists = [
            ("literals", self.ours.literals.differs_from(&self.rules.literals)),
            ("ends", self.ours.ends.differs_from(&self.rules.ends)),
        ];
        for (name, place) in lists {
            if let Some(place) = place {
                let ours = format!("{:?} {:?}", self.ours.literals.seen(), self.ours.ends.seen());
                let rules =
                    format!("{:?} {:?}", self.rules.literals.seen(), self.rules.ends.seen());
                let parted = format!("the list of {name} parts at {place}:");
                return Outcome::Differs(format!("{parted} {ours} by the rules {rules}"));
            }
        }
        Outcome::of(&format!("answer: {ours:?};"), ours.0, self.verdict(case, ours))
    }
}

impl Shrinks for Case {
    fn smaller(&self) -> Box<dyn Iterator<Item = Case> + '_> {
        let fewer = predicates::fewer(&self.text, &self.rows)
            .map(|Predicate { text, rows }| Case { text, rows, ..self.clone() });
        let literals =
            smaller_numbers(self.literals).map(|literals| Case { literals, ..self.clone() });
        let ends = smaller_numbers(self.ends).map(|ends| Case { ends, ..self.clone() });
        Box::new(fewer.chain(literals).chain(ends))
    }
}

impl Display for Case {
    fn fmt(&self, f: &mut Formatter<'_>) -> std::fmt::Result {
        write_predicate(f, &self.text, &self.rows)?;
        write!(f, "lists of {} literals and {} ends", self.literals, self.ends)
    }
}

/// Writes a predicate, a line for its text and one for its rows.
pub fn write_predicate(f: &mut Formatter<'_>, text: &[u8], rows: &[u64]) -> std::fmt::Result {
    writeln!(f, "text of {} bytes: \"{}\"", text.len(), text.escape_ascii())?;
    writeln!(f, "rows: {:?}", rows.chunks(ROW_WIDTH).collect::<Vec<_>>())
}
