//! The comparison of `parse`.

use crate::entries::{Reads, Rules};
use crate::lent::Lent;
use crate::original::{self, Verdict};
use crate::run::{Comparison, Outcome};
use crate::shrink::{Shrinks, cuts, smaller_numbers, smaller_spans, tokens_without_unused_bytes};
use fontrisc::token::{CLOSE_PAREN, IDENT, NUMBER, OPEN_PAREN, OR, STRING, WRITE};
use oracle::layout::{ROW_WIDTH, TOKEN_WIDTH, token_count};
use oracle::plain::{self, limit};
use std::fmt::{Display, Formatter};

/// What `parse` is lent: text, tokens, and a table of so many numbers.
#[derive(Clone, Debug, PartialEq, Eq)]
pub struct Case {
    /// The text.
    pub text: Vec<u8>,
    /// The token table.
    pub tokens: Vec<u32>,
    /// The length of the row table.
    pub slots: usize,
}

/// Compares `parse` of a side with the rules and with the original.
pub struct Parse<'s, S> {
    side: &'s S,
    ours: Lent<u64>,
    rules: Lent<u64>,
}

impl<'s, S: Reads> Parse<'s, S> {
    /// A comparison of one side.
    pub fn of(side: &'s S) -> Self {
        Parse { side, ours: Lent::new(0), rules: Lent::new(0) }
    }

    /// One case: the answers must be the same, number for number, and so must
    /// be the table. `asked` says whether the original is asked too.
    pub fn lend(&mut self, text: &[u8], tokens: &[u32], slots: usize, asked: bool) -> Outcome {
        self.ours.renew(slots);
        self.rules.renew(slots);
        let ours = self.side.parse(text, tokens, self.ours.part());
        let rules = Rules.parse(text, tokens, self.rules.part());
        if ours != rules {
            return Outcome::Differs(format!("{} by the rules {}", said(ours), said(rules)));
        }
        if let Some(place) = self.ours.differs_from(&self.rules) {
            return Outcome::Differs(self.numbers_at(said(ours), place));
        }
        let verdict = match asked {
            true => original::verdict_on_parse(text, tokens, ours.0, ours.1, self.ours.seen()),
            false => Verdict::NotAsked,
        };
        Outcome::of(&said(ours), ours.0, verdict)
    }

    /// Both tables where they part.
    fn numbers_at(&self, said: String, place: isize) -> String {
        let at = |lent: &Lent<u64>| {
            usize::try_from(place).ok().and_then(|n| lent.seen().get(n).copied())
        };
        match (at(&self.ours), at(&self.rules)) {
            (Some(ours), Some(rules)) => {
                format!("{said} table number {place} is {ours} by the rules {rules}")
            }
            _ => format!("{said} a number was written at {place}, outside the table"),
        }
    }
}

/// An answer for people.
fn said((number, at): (u32, u64)) -> String {
    match fontrisc::Refusal::of(number) {
        None if number == 0 => format!("answer: {at} rows;"),
        None => format!("answer: unknown number {number} with {at};"),
        Some(refusal) => format!("answer: {refusal} at {at};"),
    }
}

impl<S: Reads> Comparison for Parse<'_, S> {
    type Case = Case;

    fn compare(&mut self, case: &Case) -> Outcome {
        let kept = case.clone();
        let outcome = self.lend(&case.text, &case.tokens, case.slots, true);
        if kept != *case {
            return Outcome::Differs("the text or the tokens were written to".to_string());
        }
        outcome
    }
}

impl Shrinks for Case {
    fn smaller(&self) -> Box<dyn Iterator<Item = Case> + '_> {
        let count = token_count(&self.tokens);
        let needed = self.needed();
        let cut = cuts(count).map(|cut| self.without(cut));
        let unwrapped = self
            .pairs()
            .into_iter()
            .flat_map(|(open, close)| self.without_parentheses(open, close));
        let tokens = cut.chain(unwrapped).flat_map(move |fewer| {
            let matching = needed.and_then(|needed| fewer.with_matching_table(needed));
            [Some(fewer), matching].into_iter().flatten()
        });
        let ragged = (!self.tokens.len().is_multiple_of(TOKEN_WIDTH))
            .then(|| Case { tokens: self.tokens[..TOKEN_WIDTH * count].to_vec(), ..self.clone() });
        let slots = smaller_numbers(self.slots).map(|slots| Case { slots, ..self.clone() });
        let used_bytes = tokens_without_unused_bytes(&self.text, &self.tokens)
            .map(|(text, tokens)| Case { text, tokens, ..self.clone() });
        let text = smaller_numbers(self.text.len())
            .map(|length| Case { text: self.text[..length].to_vec(), ..self.clone() });
        let spans = (0..count).filter_map(|n| self.with_plain_span(n));
        let shorter =
            smaller_spans(&self.text, &self.tokens).map(|tokens| Case { tokens, ..self.clone() });
        let tokens = self.with_empty_spans().into_iter().chain(tokens).chain(ragged);
        Box::new(tokens.chain(slots).chain(used_bytes).chain(text).chain(spans).chain(shorter))
    }
}

impl Case {
    /// The case without some of its tokens.
    fn without(&self, cut: std::ops::Range<usize>) -> Case {
        let mut tokens = self.tokens.clone();
        tokens.drain(TOKEN_WIDTH * cut.start..TOKEN_WIDTH * cut.end);
        Case { tokens, ..self.clone() }
    }

    /// The parentheses that belong together, inner ones before outer ones.
    fn pairs(&self) -> Vec<(usize, usize)> {
        let (mut open, mut pairs) = (Vec::new(), Vec::new());
        for (n, token) in self.tokens.chunks_exact(TOKEN_WIDTH).enumerate() {
            match token[0] {
                OPEN_PAREN => open.push(n),
                CLOSE_PAREN => pairs.extend(open.pop().map(|open| (open, n))),
                _ => {}
            }
        }
        pairs
    }

    /// The case without a pair of parentheses, and without the name before it too
    /// if there is one.
    fn without_parentheses(&self, open: usize, close: usize) -> impl Iterator<Item = Case> + use<> {
        let without = self.without(close..close + 1).without(open..open + 1);
        let name = open.checked_sub(1).filter(|name| self.tokens[TOKEN_WIDTH * name] == IDENT);
        let bare = name.map(|name| without.without(name..name + 1));
        bare.into_iter().chain([without])
    }

    /// How many numbers of the table the rows would fill if there were room.
    fn needed(&self) -> Option<usize> {
        let rows = plain::parse(&self.text, &self.tokens, limit::ROWS, limit::LEVELS);
        rows.ok().map(|rows| ROW_WIDTH * rows.len())
    }

    /// The case with its table as much longer or shorter than needed as it was
    /// when so many numbers were.
    fn with_matching_table(&self, needed: usize) -> Option<Case> {
        let slots = (self.needed()? + self.slots).checked_sub(needed)?;
        (slots != self.slots).then(|| Case { slots, ..self.clone() })
    }

    /// The case with no bytes for any token but numbers, the only ones that are read
    /// by their bytes.
    fn with_empty_spans(&self) -> Option<Case> {
        let mut tokens = self.tokens.clone();
        let others = tokens.chunks_exact_mut(TOKEN_WIDTH).filter(|token| token[0] != NUMBER);
        others.for_each(|token| token[1..].fill(0));
        (tokens != self.tokens).then(|| Case { tokens, ..self.clone() })
    }

    /// The case with the first byte, or no bytes, as the span of a token.
    fn with_plain_span(&self, n: usize) -> Option<Case> {
        let plain = [0, self.text.len().min(1) as u32];
        let mut tokens = self.tokens.clone();
        let span = &mut tokens.as_chunks_mut::<TOKEN_WIDTH>().0[n][1..];
        if *span == plain || *span == [0, 0] {
            return None;
        }
        span.copy_from_slice(&plain);
        Some(Case { tokens, ..self.clone() })
    }
}

impl Display for Case {
    fn fmt(&self, f: &mut Formatter<'_>) -> std::fmt::Result {
        writeln!(f, "text of {} bytes: \"{}\"", self.text.len(), self.text.escape_ascii())?;
        writeln!(f, "tokens: {:?}", self.tokens)?;
        let words = self.tokens.chunks(TOKEN_WIDTH).map(|token| word(token[0]));
        writeln!(f, "kinds: {}", words.collect::<Vec<_>>().join(" "))?;
        write!(f, "row table of {} numbers", self.slots)
    }
}

/// A word for a token's kind.
fn word(kind: u32) -> String {
    match kind {
        NUMBER => "Number".to_string(),
        STRING => "String".to_string(),
        IDENT => "Ident".to_string(),
        OR..=WRITE => oracle::cases::word_of(kind).to_string(),
        _ => format!("?{kind}"),
    }
}
