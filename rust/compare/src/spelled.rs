//! The comparison of `spelled`.

use crate::entries::{Reads, Rules};
use crate::original::Verdict;
use crate::run::{Comparison, Outcome};
use crate::shrink::{Shrinks, cuts, smaller_numbers, smaller_spans, tokens_without_unused_bytes};
use crate::tokens;
use oracle::cases::Dice;
use oracle::layout::{TOKEN_WIDTH, token_count};
use std::fmt::{Display, Formatter};

/// What `spelled` is lent, and the token asked for.
#[derive(Clone, Debug, PartialEq, Eq)]
pub struct Case {
    /// The text.
    pub text: Vec<u8>,
    /// The token table.
    pub tokens: Vec<u32>,
    /// The number of the token.
    pub n: usize,
}

/// Makes a case by chance: tables of every sort, bad ones included.
pub fn random_case(dice: &mut Dice) -> Case {
    let table =
        if dice.below(2) == 0 { tokens::bad_table(dice) } else { tokens::random_case(dice) };
    let count = token_count(&table.tokens);
    let n = match dice.below(12) {
        0 => count,
        1 => {
            // The place of such a token's numbers would be past all that can be counted.
            let first = usize::MAX / TOKEN_WIDTH;
            dice.pick(&[usize::MAX, first, first + 1, 1 << 32, 1 << 62])
        }
        2 => count + dice.below(5),
        _ => dice.below(count.max(1)),
    };
    Case { text: table.text, tokens: table.tokens, n }
}

/// Compares `spelled` of a side with the rules.
pub struct Spelled<'s, S>(pub &'s S);

impl<S: Reads> Comparison for Spelled<'_, S> {
    type Case = Case;

    fn compare(&mut self, case: &Case) -> Outcome {
        let ours = self.0.spelled(&case.text, &case.tokens, case.n);
        let rules = Rules.spelled(&case.text, &case.tokens, case.n);
        if ours == rules {
            Outcome::Agrees(0, Verdict::NotAsked)
        } else {
            Outcome::Differs(format!("answer: {ours:?}; by the rules {rules:?}"))
        }
    }
}

impl Shrinks for Case {
    fn smaller(&self) -> Box<dyn Iterator<Item = Case> + '_> {
        // Tokens cut out before the one asked for change its number.
        let tokens = cuts(token_count(&self.tokens)).map(|cut| {
            let before = if cut.end <= self.n { cut.len() } else { 0 };
            let mut tokens = self.tokens.clone();
            tokens.drain(TOKEN_WIDTH * cut.start..TOKEN_WIDTH * cut.end);
            Case { tokens, n: self.n - before, ..self.clone() }
        });
        let ragged = self
            .tokens
            .split_last()
            .map(|(_, tokens)| Case { tokens: tokens.to_vec(), ..self.clone() });
        let n = smaller_numbers(self.n).map(|n| Case { n, ..self.clone() });
        let text = smaller_numbers(self.text.len())
            .map(|length| Case { text: self.text[..length].to_vec(), ..self.clone() });
        let used_bytes = tokens_without_unused_bytes(&self.text, &self.tokens)
            .map(|(text, tokens)| Case { text, tokens, ..self.clone() });
        let spans =
            smaller_spans(&self.text, &self.tokens).map(|tokens| Case { tokens, ..self.clone() });
        Box::new(tokens.chain(ragged).chain(n).chain(used_bytes).chain(text).chain(spans))
    }
}

impl Display for Case {
    fn fmt(&self, f: &mut Formatter<'_>) -> std::fmt::Result {
        writeln!(f, "text of {} bytes: \"{}\"", self.text.len(), self.text.escape_ascii())?;
        writeln!(f, "tokens: {:?}", self.tokens)?;
        write!(f, "token number {}", self.n)
    }
}
