//! The comparison itself put to the test: the rules with one fault in them must
//! be found out, and the case made small.

use compare::entries::{LooksUp, Reads, Rules, Splits, write_rows};
use compare::lookup::{self, Lookup, Value};
use compare::parse::Parse;
use compare::run::{self, Chosen, Comparison, Difference};
use compare::spelled::{self, Spelled};
use compare::split::{self, Split};
use compare::tokens;
use fontrisc::{predicate, syntax};
use oracle::cases::Dice;
use oracle::layout::{Constant, ROW_WIDTH, TOKEN_WIDTH, row_count, rows_of};
use oracle::plain::refusal::*;
use oracle::plain::{self, limit};

/// The rules, with something done to each answer.
struct Faulty<F>(F);

/// Looks for a difference that must be there.
fn found<C: Comparison + Send>(
    mut comparison: C,
    random_case: impl Fn(&mut Dice) -> C::Case + Send,
) -> Difference {
    let chosen = Chosen { seed: 5, from: 0, cases: 200_000 };
    let run = oracle::on_large_stack(|| run::by_chance(&mut comparison, chosen, random_case));
    *run.expect_err("the fault was not found")
}

/// The numbers in a line of a difference that starts with a word.
fn numbers(difference: &Difference, line: &str) -> usize {
    let line = difference.smallest.lines().find(|l| l.starts_with(line)).expect("the line");
    line.split(|c: char| !c.is_ascii_digit()).filter(|part| !part.is_empty()).count()
}

/// How many bytes of text the smallest case has.
fn bytes(difference: &Difference) -> usize {
    let line = difference.smallest.strip_prefix("text of ").expect("a case starts with its text");
    line.split(' ').next().and_then(|count| count.parse().ok()).expect("a number of bytes")
}

impl<F: Fn(&[u8], &[u32], &mut [u64], (u32, u64)) -> (u32, u64)> Reads for Faulty<F> {
    fn parse(&self, text: &[u8], tokens: &[u32], rows: &mut [u64]) -> (u32, u64) {
        let said = Rules.parse(text, tokens, rows);
        (self.0)(text, tokens, rows, said)
    }

    fn spelled(&self, text: &[u8], tokens: &[u32], n: usize) -> (u64, u64) {
        // An empty part that fits stands at its own start, not at 0.
        let (start, length) = Rules.spelled(text, tokens, n);
        if length == 0 { (0, 0) } else { (start, length) }
    }
}

/// A fault of `parse` is found and comes down to so many tokens over so much text.
fn parse_fault(
    (tokens, text): (usize, usize),
    fault: impl Fn(&[u8], &[u32], &mut [u64], (u32, u64)) -> (u32, u64) + Send + Sync,
) {
    let side = Faulty(fault);
    let difference = found(Parse::of(&side), tokens::random_case);
    println!("{difference}");
    assert!(numbers(&difference, "tokens:") <= TOKEN_WIDTH * tokens, "{difference}");
    assert!(bytes(&difference) <= text, "{difference}");
}

#[test]
fn one_level_too_many() {
    parse_fault((129, 0), |text, tokens, rows, said| {
        let deeper = plain::parse(text, tokens, row_count(rows), limit::LEVELS + 1);
        deeper.map_or(said, |made| (0, write_rows(rows, &made)))
    });
}

#[test]
fn a_wrong_kind_of_row() {
    parse_fault((3, 1), |_, _, rows, (number, at)| {
        let written = if number == 0 { ROW_WIDTH * at as usize } else { 0 };
        for row in rows[..written].chunks_mut(ROW_WIDTH) {
            row[0] -= u64::from(row[0] == syntax::LESS_THAN_OR_EQUAL);
        }
        (number, at)
    });
}

#[test]
fn a_row_that_is_not_cleared() {
    parse_fault((0, 0), |_, _, rows, (number, at)| {
        if let (1.., Some(last)) = (number, rows.last_mut()) {
            *last = 1;
        }
        (number, at)
    });
}

#[test]
fn a_number_written_after_the_rows() {
    parse_fault((1, 0), |_, _, rows, (number, at)| {
        if let (0, Some(after)) = (number, rows.get_mut(ROW_WIDTH * at as usize)) {
            *after = 0;
        }
        (number, at)
    });
}

#[test]
fn no_room_one_token_early() {
    parse_fault((1, 0), |_, _, _, (number, at)| (number, at - u64::from(number == NO_ROOM)));
}

#[test]
fn a_span_that_wraps_round() {
    parse_fault((1, 0), |text, tokens, rows, said| {
        let mut fitted = tokens.to_vec();
        for token in fitted.chunks_exact_mut(TOKEN_WIDTH) {
            if token[1].wrapping_add(token[2]) <= text.len() as u32 {
                token[1..].fill(0);
            }
        }
        let wrapped = plain::table_fault(text, &fitted).is_none();
        if said.0 == BAD_TABLE && wrapped { Rules.parse(text, &fitted, rows) } else { said }
    });
}

#[test]
fn a_large_integer_taken_for_a_float() {
    parse_fault((1, 19), |text, tokens, rows, (number, at)| {
        let (start, length) = plain::spelled(text, tokens, at as usize);
        let bytes = &text[start as usize..][..length as usize];
        let digits = !bytes.is_empty() && bytes.iter().all(u8::is_ascii_digit);
        if number == BAD_NUMBER && digits && tokens.len() == TOKEN_WIDTH && row_count(rows) > 0 {
            rows[0] = syntax::FLOAT;
            return (0, 1);
        }
        (number, at)
    });
}

#[test]
fn an_empty_part_at_the_start() {
    let side = Faulty(|_: &[u8], _: &[u32], _: &mut [u64], said| said);
    let difference = found(Spelled(&side), spelled::random_case);
    assert_eq!(numbers(&difference, "tokens:"), TOKEN_WIDTH, "{difference}");
    assert_eq!(bytes(&difference), 1, "{difference}");
}

/// What is done to an answer of `split`.
struct FaultySplit<F>(F);

impl<F: Fn(&mut [u32], &mut [u32], (u32, u64, u64)) -> (u32, u64, u64)> Splits for FaultySplit<F> {
    fn split(
        &self,
        text: &[u8],
        rows: &[u64],
        literals: &mut [u32],
        ends: &mut [u32],
    ) -> (u32, u64, u64) {
        let said = Rules.split(text, rows, literals, ends);
        (self.0)(literals, ends, said)
    }
}

/// A fault of `split` is found and comes down to so many rows.
fn split_fault(
    most: usize,
    fault: impl Fn(&mut [u32], &mut [u32], (u32, u64, u64)) -> (u32, u64, u64) + Send + Sync,
) {
    let side = FaultySplit(fault);
    let difference = found(Split::of(&side), split::random_case);
    println!("{difference}");
    assert!(numbers(&difference, "rows:") <= ROW_WIDTH * most, "{difference}");
    assert_eq!(bytes(&difference), 0, "{difference}");
}

#[test]
fn literals_in_another_order() {
    split_fault(7, |literals, ends, said| {
        if said.0 == 0 && said.1 > 2 && ends[2] - ends[1] > 1 {
            literals.swap(ends[1] as usize, ends[1] as usize + 1);
        }
        said
    });
}

#[test]
fn a_list_written_before_it_is_refused() {
    split_fault(1, |literals, _, said| {
        if said.0 == NO_LIST && literals.len() > 1 {
            literals[0] = 0;
        }
        said
    });
}

#[test]
fn more_literals_than_allowed() {
    // A NOT over two chains of ORs, of 33 and 32 columns.
    split_fault(130, |_, _, said| if said.0 == TOO_MANY { (0, 0, 0) } else { said });
}

#[test]
fn a_bad_row_placed_one_row_early() {
    split_fault(2, |_, _, (number, place, total)| {
        (number, if number == BAD_TREE { place.saturating_sub(1) } else { place }, total)
    });
}

/// The rules with two faults in lookups: -0.0 loses its sign, and a value that
/// is not given is counted.
struct FaultyLookup;

impl LooksUp for FaultyLookup {
    fn lookup(&self, text: &[u8], rows: &[u64], clause: usize) -> (u32, u64, u64) {
        let (number, column, count) = Rules.lookup(text, rows, clause);
        let nulls = rows_of(rows).iter().filter(|row| row.kind == predicate::NULL).count() as u64;
        if number == 0 { (number, column, count + nulls) } else { (number, column, count) }
    }

    fn value(&self, text: &[u8], rows: &[u64], clause: usize, n: usize) -> (u32, Constant) {
        match Rules.value(text, rows, clause, n) {
            (0, [predicate::FLOAT, bits, 0]) if bits == 1 << 63 => (0, [predicate::FLOAT, 0, 0]),
            said => said,
        }
    }
}

#[test]
fn a_value_that_is_not_given_is_counted() {
    let difference = found(Lookup(&FaultyLookup), lookup::random_case);
    println!("{difference}");
    assert!(numbers(&difference, "rows:") <= 3 * ROW_WIDTH, "{difference}");
    assert!(difference.smallest.ends_with("clause 0, value 0"), "{difference}");
}

#[test]
fn a_zero_that_loses_its_sign() {
    let difference = found(Value(&FaultyLookup), lookup::random_case);
    println!("{difference}");
    assert!(numbers(&difference, "rows:") <= 3 * ROW_WIDTH, "{difference}");
}
