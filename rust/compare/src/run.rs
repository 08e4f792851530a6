//! Many cases one after another: every short one, or as many as asked for by
//! chance.

use crate::entries::Reads;
use crate::original::Verdict;
use crate::parse::{self, Parse};
use crate::shrink::{Shrinks, shrink};
use fontrisc::Refusal;
use oracle::cases::{Dice, Tokens, words};
use oracle::layout::{ROW_WIDTH, TOKEN_WIDTH};
use std::collections::BTreeMap;
use std::fmt::{Display, Formatter};

/// What came of one case.
#[derive(Clone, Debug, PartialEq, Eq)]
pub enum Outcome {
    /// The library and the rules agree: the number returned, and how the
    /// original's answer stands to it.
    Agrees(u32, Verdict),
    /// They differ, or the original differs outside its classes: both answers.
    Differs(String),
}

impl Outcome {
    /// What comes of equal answers, put in words, and a verdict.
    pub fn of(ours: &str, number: u32, verdict: Verdict) -> Self {
        match verdict {
            Verdict::Other(theirs) => Outcome::Differs(format!("{ours} by the original {theirs}")),
            verdict => Outcome::Agrees(number, verdict),
        }
    }
}

/// A comparison of one entry.
pub trait Comparison {
    /// What the entry is lent.
    type Case: Shrinks + Display;

    /// Compares one case.
    fn compare(&mut self, case: &Self::Case) -> Outcome;
}

/// How many cases were compared, and what came of them.
#[derive(Clone, Debug, Default, PartialEq, Eq)]
pub struct Tally {
    /// How many cases there were.
    pub cases: u64,
    /// How many were refused, by the refusal's number.
    pub refused: BTreeMap<u32, u64>,
    /// How many times the original's answer was the same.
    pub same: u64,
    /// How many times it was not asked.
    pub not_asked: u64,
    /// How many times its answer was another, by the class in docs/DIFFERENCES.md.
    pub classes: BTreeMap<usize, u64>,
}

impl Tally {
    /// Counts one case that agrees.
    fn count(&mut self, number: u32, verdict: &Verdict) {
        self.cases += 1;
        if number != 0 {
            *self.refused.entry(number).or_default() += 1;
        }
        match verdict {
            Verdict::Same => self.same += 1,
            Verdict::NotAsked => self.not_asked += 1,
            Verdict::Class(class) => *self.classes.entry(*class).or_default() += 1,
            Verdict::Other(_) => unreachable!("such a case differs"),
        }
    }

    /// How many cases were answered.
    pub fn answered(&self) -> u64 {
        self.cases - self.refused.values().sum::<u64>()
    }

    /// Adds the cases of another run.
    pub fn add(&mut self, other: &Tally) {
        self.cases += other.cases;
        self.same += other.same;
        self.not_asked += other.not_asked;
        other.refused.iter().for_each(|(n, more)| *self.refused.entry(*n).or_default() += more);
        other.classes.iter().for_each(|(n, more)| *self.classes.entry(*n).or_default() += more);
    }
}

impl Display for Tally {
    fn fmt(&self, f: &mut Formatter<'_>) -> std::fmt::Result {
        writeln!(f, "{} cases agree: {} answered", self.cases, self.answered())?;
        for (number, count) in &self.refused {
            let name = Refusal::of(*number).map_or("of no refusal's number", Refusal::name);
            writeln!(f, "  {count} {name}")?;
        }
        write!(f, "the original: {} the same, {} not asked", self.same, self.not_asked)?;
        self.classes.iter().try_for_each(|(class, count)| write!(f, ", {count} in class {class}"))
    }
}

/// A difference: where it came up, the case made small, both answers.
#[derive(Clone, Debug, PartialEq, Eq)]
pub struct Difference {
    /// Which case of the run it was.
    pub origin: String,
    /// The smallest case found that still differs.
    pub smallest: String,
    /// Both answers to it.
    pub answers: String,
}

impl Display for Difference {
    fn fmt(&self, f: &mut Formatter<'_>) -> std::fmt::Result {
        write!(f, "a difference at {}\n{}\n{}", self.origin, self.smallest, self.answers)
    }
}

/// What a run comes to: its tally, or the first difference.
pub type Ran = Result<Tally, Box<Difference>>;

/// Makes a difference small.
fn shrunk_difference<C: Comparison>(
    comparison: &mut C,
    case: &C::Case,
    origin: String,
) -> Box<Difference> {
    let differs = |outcome: Outcome| matches!(outcome, Outcome::Differs(_));
    let smallest = shrink(case, |smaller| differs(comparison.compare(smaller)));
    let answers = match comparison.compare(&smallest) {
        Outcome::Differs(answers) => answers,
        Outcome::Agrees(..) => "not the same when asked again".to_string(),
    };
    Box::new(Difference { origin, smallest: smallest.to_string(), answers })
}

/// The chance of one case of a run: its own, so that it can be made alone.
pub fn dice(seed: u64, case: u64) -> Dice {
    let mut dice = Dice::new(seed.wrapping_mul(0xd129_0b27_79c5_5ec5).wrapping_add(case));
    for _ in 0..4 {
        dice.roll();
    }
    dice
}

/// The cases of a run by chance.
#[derive(Clone, Copy, Debug, PartialEq, Eq)]
pub struct Chosen {
    /// The seed.
    pub seed: u64,
    /// The first case.
    pub from: u64,
    /// How many cases.
    pub cases: u64,
}

impl Chosen {
    /// The number after the last case's; none where there are not so many numbers.
    pub fn end(&self) -> Option<u64> {
        self.from.checked_add(self.cases)
    }
}

/// Compares cases made by chance.
pub fn by_chance<C: Comparison>(
    comparison: &mut C,
    chosen: Chosen,
    random_case: impl Fn(&mut Dice) -> C::Case,
) -> Ran {
    let mut tally = Tally::default();
    let end = chosen.end().expect("each case has a number");
    for n in chosen.from..end {
        let case = random_case(&mut dice(chosen.seed, n));
        match comparison.compare(&case) {
            Outcome::Agrees(number, verdict) => tally.count(number, &verdict),
            Outcome::Differs(_) => {
                let origin = format!("seed {}, case {n}", chosen.seed);
                return Err(shrunk_difference(comparison, &case, origin));
            }
        }
    }
    Ok(tally)
}

/// Compares cases that are listed.
pub fn listed<C: Comparison>(comparison: &mut C, cases: impl Iterator<Item = C::Case>) -> Ran {
    let mut tally = Tally::default();
    for (n, case) in cases.enumerate() {
        match comparison.compare(&case) {
            Outcome::Agrees(number, verdict) => tally.count(number, &verdict),
            Outcome::Differs(_) => {
                return Err(shrunk_difference(comparison, &case, format!("listed case {n}")));
            }
        }
    }
    Ok(tally)
}

/// Compares every string of up to `longest` tokens out of those given as words.
///
/// Each is read twice: into a table with room for every row, where the original
/// is asked too, and into one of a length that goes round from 0 upwards.
pub fn every_string<S: Reads>(side: &S, of: &str, longest: usize) -> Ran {
    let made = words(of);
    let mut comparison = Parse::of(side);
    let mut tally = Tally::default();
    for length in 0..=longest {
        strings_of(&mut comparison, &made, length, &mut tally)?;
    }
    Ok(tally)
}

/// The same for the strings of one length.
fn strings_of<S: Reads>(
    comparison: &mut Parse<'_, S>,
    made: &Tokens,
    length: usize,
    tally: &mut Tally,
) -> Result<(), Box<Difference>> {
    let choices = made.tokens.as_chunks().0;
    let ample = ROW_WIDTH * (length + 1) - 1;
    let mut digits = vec![0; length];
    let mut string = vec![choices[0]; length];
    for n in 0..(choices.len() as u64).pow(length as u32) {
        if n > 0 {
            next_string(&mut digits, &mut string, choices);
        }
        for asked in [true, false] {
            let slots = if asked { ample } else { n as usize % ample };
            match comparison.lend(&made.text, string.as_flattened(), slots, asked) {
                Outcome::Agrees(number, verdict) if asked => tally.count(number, &verdict),
                Outcome::Agrees(..) => {}
                Outcome::Differs(_) => {
                    let (text, tokens) = (made.text.clone(), string.concat());
                    let case = parse::Case { text, tokens, slots };
                    let origin = format!("string {n} of length {length}");
                    return Err(shrunk_difference(comparison, &case, origin));
                }
            }
        }
    }
    Ok(())
}

/// A token in numbers.
type Token = [u32; TOKEN_WIDTH];

/// Goes on to the next string, the first token running fastest. `digits` are the
/// numbers of its tokens among the choices.
fn next_string(digits: &mut [usize], string: &mut [Token], choices: &[Token]) {
    for (digit, token) in digits.iter_mut().zip(string) {
        *digit = (*digit + 1) % choices.len();
        *token = choices[*digit];
        if *digit > 0 {
            return;
        }
    }
}
