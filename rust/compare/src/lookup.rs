//! The comparison of `lookup` and `value_at`.

use crate::entries::{LooksUp, Rules};
use crate::original::{self, Verdict};
use crate::predicates;
use crate::run::{Comparison, Outcome};
use crate::shrink::{Shrinks, smaller_numbers};
use crate::split::write_predicate;
use oracle::cases::{Dice, Predicate, predicate_of};
use oracle::expression::Clause;
use oracle::layout::Constant;
use oracle::plain;
use oracle::plain::refusal::{NO_SUCH, NOT_LOOKUP};
use std::fmt::{Display, Formatter};

/// What the lookup entries are lent and asked.
#[derive(Clone, Debug, PartialEq, Eq)]
pub struct Case {
    /// The text.
    pub text: Vec<u8>,
    /// The predicate rows.
    pub rows: Vec<u64>,
    /// The number of the clause.
    pub clause: usize,
    /// The number of the value; `lookup` does not ask it.
    pub n: usize,
}

/// Makes a case by chance.
pub fn random_case(dice: &mut Dice) -> Case {
    let made = match dice.below(3) {
        0 => predicates::random_predicate(dice),
        _ => predicate_of(&predicates::lookups(dice)),
    };
    let (clauses, _) = predicates::counts(&made);
    let clause = number(dice, clauses);
    let values = plain::lookup(&made.text, &made.rows, clause).map_or(0, |l| l.values.len());
    let n = number(dice, values);
    Case { text: made.text, rows: made.rows, clause, n }
}

/// A number below a count, most of the time.
fn number(dice: &mut Dice, count: usize) -> usize {
    match dice.below(12) {
        0 => count,
        1 => dice.pick(&[usize::MAX, 1 << 32, 1 << 16, count + 1]),
        2 => 0,
        3 => count.saturating_sub(1),
        _ => dice.below(count.max(1)),
    }
}

/// The original's clauses of a case, if the clause asked for is among them.
fn clauses(case: &Case, number: u32) -> Option<Vec<Clause>> {
    if number != 0 && number != NOT_LOOKUP && number != NO_SUCH {
        return None;
    }
    let list = plain::split(&case.text, &case.rows).ok()?;
    if case.clause >= list.len() {
        return None;
    }
    original::clauses(&case.text, &case.rows, list.len() as u64)
}

/// Compares `lookup` of a side with the rules and with the original.
pub struct Lookup<'s, S>(pub &'s S);

impl<S: LooksUp> Comparison for Lookup<'_, S> {
    type Case = Case;

    fn compare(&mut self, case: &Case) -> Outcome {
        let ours = self.0.lookup(&case.text, &case.rows, case.clause);
        let rules = Rules.lookup(&case.text, &case.rows, case.clause);
        if ours != rules {
            return Outcome::Differs(format!("answer: {ours:?}; by the rules {rules:?}"));
        }
        let found = (ours.0 == 0).then_some((ours.1, ours.2));
        let verdict = clauses(case, ours.0).map_or(Verdict::NotAsked, |made| {
            original::verdict_on_lookup(&made, case.clause, found)
        });
        Outcome::of(&format!("answer: {ours:?};"), ours.0, verdict)
    }
}

/// Compares `value_at` of a side with the rules and with the original.
pub struct Value<'s, S>(pub &'s S);

impl<S: LooksUp> Comparison for Value<'_, S> {
    type Case = Case;

    fn compare(&mut self, case: &Case) -> Outcome {
        let ours = self.0.value(&case.text, &case.rows, case.clause, case.n);
        let rules = Rules.value(&case.text, &case.rows, case.clause, case.n);
        if ours != rules {
            return Outcome::Differs(format!("answer: {ours:?}; by the rules {rules:?}"));
        }
        let verdict = clauses(case, ours.0).map_or(Verdict::NotAsked, |made| {
            let constant = (ours.0 == 0).then_some(ours.1);
            verdict_on_value(&made, case, ours.0, constant)
        });
        Outcome::of(&format!("answer: {ours:?};"), ours.0, verdict)
    }
}

/// Holds a value to the original's value with that number.
fn verdict_on_value(made: &[Clause], case: &Case, number: u32, ours: Option<Constant>) -> Verdict {
    if made.iter().any(|clause| clause.literals.is_none()) {
        return Verdict::Class(10);
    }
    let clause = &made[case.clause];
    let theirs = clause.lookup.as_ref().and_then(|lookup| lookup.constants.get(case.n).copied());
    if theirs == ours {
        Verdict::Same
    } else if clause.altered && number == NOT_LOOKUP {
        Verdict::Class(9)
    } else {
        Verdict::Other(format!("{theirs:?}"))
    }
}

impl Shrinks for Case {
    fn smaller(&self) -> Box<dyn Iterator<Item = Case> + '_> {
        let n = smaller_numbers(self.n).map(|n| Case { n, ..self.clone() });
        let clause = smaller_numbers(self.clause).map(|clause| Case { clause, ..self.clone() });
        let fewer =
            predicates::fewer(&self.text, &self.rows).flat_map(|Predicate { text, rows }| {
                let case = |(clause, n)| Case { text: text.clone(), rows: rows.clone(), clause, n };
                self.asked_of_fewer().into_iter().map(case).collect::<Vec<_>>()
            });
        Box::new(n.chain(clause).chain(fewer))
    }
}

impl Case {
    /// The numbers of a clause and a value to ask a smaller predicate for: what is
    /// gone may have stood before them.
    fn asked_of_fewer(&self) -> Vec<(usize, usize)> {
        let (clause, n) = (self.clause, self.n);
        let before = clause.saturating_sub(1);
        let mut asked = vec![(clause, n), (0, n), (before, n), (clause, n.saturating_sub(1))];
        asked.sort_unstable();
        asked.dedup();
        asked
    }
}

impl Display for Case {
    fn fmt(&self, f: &mut Formatter<'_>) -> std::fmt::Result {
        write_predicate(f, &self.text, &self.rows)?;
        write!(f, "clause {}, value {}", self.clause, self.n)
    }
}
