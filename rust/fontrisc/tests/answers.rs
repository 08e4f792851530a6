//! Answers and refusals as the safe functions give them.

use fontrisc::predicate::{
    AND, BOOLEAN, COLUMN, EQUAL, FLOAT, INTEGER, IS, LESS_THAN, NOT, NULL, OR, STRING,
};
use fontrisc::token::{self, IDENT, NUMBER};
use fontrisc::{
    Listed, LookedUp, Refusal, Refused, Row, Value, clauses, lookup, parse, spelled, split, syntax,
    value_at, values,
};

/// The tokens of `a IS 3`.
const IS_THREE: [u32; 9] = [IDENT, 0, 1, token::IS, 2, 2, NUMBER, 5, 1];

/// The table of rows that are given by kind, x and y.
fn table(rows: &[(u64, u64, u64)]) -> Vec<u64> {
    rows.iter().flat_map(|&(kind, x, y)| Row { kind, x, y }.numbers()).collect()
}

#[test]
fn an_answer_leaves_the_rest_of_the_table() {
    let mut rows = [5; 8];
    assert_eq!(parse(b"a", &[IDENT, 0, 1], &mut rows), Ok(1));
    let column = table(&[(syntax::COLUMN, 0, 0)]);
    let (written, rest) = rows.split_at(column.len());
    assert_eq!(written, column);
    assert!(rest.iter().all(|number| *number == 5));
}

#[test]
fn a_refusal_clears_the_table() {
    let mut rows = [5; 8];
    let refused = Refused { why: Refusal::WrongToken, place: 2 };
    assert_eq!(parse(b"a IS 3", &IS_THREE, &mut rows), Err(refused));
    assert_eq!(rows, [0; 8]);
}

#[test]
fn nothing_at_all_is_lent() {
    let refused = Refused { why: Refusal::End, place: 0 };
    assert_eq!(parse(&[], &[], &mut []), Err(refused));
    assert_eq!(spelled(&[], &[], 0), b"");
}

#[test]
fn an_empty_part_stands_where_it_was_said_to() {
    let text = b"abc";
    let part = spelled(text, &[IDENT, 2, 0], 0);
    assert!(part.is_empty() && std::ptr::eq(part.as_ptr(), &text[2]));
    let none = spelled(text, &[IDENT, 2, 9], 0);
    assert!(none.is_empty() && std::ptr::eq(none.as_ptr(), &text[0]));
}

#[test]
fn a_refusal_reads_as_a_sentence() {
    let refused = parse(b"a IS 3", &IS_THREE, &mut [0; 9]).unwrap_err();
    let error: &dyn std::error::Error = &refused;
    assert!(error.to_string().starts_with("WRONG_TOKEN (5) at token 2: something else"));
}

#[test]
fn a_refusal_without_a_place_names_none() {
    for why in Refusal::ALL.iter().copied() {
        let said = Refused { why, place: 77 }.to_string();
        let named = format!("{} ({})", why.name(), why.number());
        assert!(said.starts_with(&named), "{said}");
        assert_eq!(said.contains("77"), why.place_of().is_some(), "{said}");
    }
}

#[test]
fn names_and_sentences_differ() {
    for (n, one) in Refusal::ALL.iter().enumerate() {
        for other in &Refusal::ALL[..n] {
            assert!(other.number() < one.number());
            assert_ne!(one.name(), other.name());
            assert_ne!(one.sentence(), other.sentence());
        }
    }
}

#[test]
fn a_number_leads_to_its_refusal() {
    for number in 0..=1_000 {
        let named = Refusal::ALL.iter().copied().filter(|refusal| refusal.number() == number);
        assert_eq!(named.collect::<Vec<_>>(), Vec::from_iter(Refusal::of(number)));
    }
    assert_eq!(Refusal::of(u32::MAX), None);
}

/// `p OR NOT (q AND r)` of FORMAT §8.7.
fn predicate() -> Vec<u64> {
    let equal = [(COLUMN, 4, 0), (INTEGER, 7, 0), (EQUAL, 0, 1)];
    let rest = [(COLUMN, 5, 0), (COLUMN, 6, 0), (AND, 3, 4), (NOT, 5, 0), (OR, 2, 6)];
    table(&[&equal[..], &rest].concat())
}

#[test]
fn the_example_of_the_format() {
    let (mut literals, mut ends) = ([9; 4], [9; 2]);
    let listed = Listed { clauses: 1, literals: 3 };
    assert_eq!(split(b"", &predicate(), &mut literals, &mut ends), Ok(listed));
    assert_eq!((literals, ends), ([4, 7, 9, 9], [3, 9]));
}

#[test]
fn a_refusal_leaves_the_lists() {
    let (mut literals, mut ends) = ([9; 2], [9; 2]);
    let refused = Refused { why: Refusal::NoList, place: 0 };
    assert_eq!(split(b"", &predicate(), &mut literals, &mut ends), Err(refused));
    assert_eq!((literals, ends), ([9; 2], [9; 2]));
    let refused = Refused { why: Refusal::BadTree, place: 7 };
    let mut ragged = predicate();
    ragged.pop();
    assert_eq!(split(b"", &ragged, &mut literals, &mut ends), Err(refused));
}

#[test]
fn a_clause_outlives_the_ends() {
    let literals = [4, 7, 9];
    let last = {
        let ends = vec![2, 3];
        clauses(&literals, &ends).last()
    };
    assert_eq!(last.unwrap().next(), Some(9.into()));
}

/// `c = 'no' OR c IS NAN OR -0.0 = c OR c = TRUE OR c = NULL` on column 9,
/// the string at the end of the text.
fn five_tests() -> Vec<u64> {
    let zero = (-0.0f64).to_bits();
    table(&[
        (COLUMN, 9, 0),
        (STRING, 1, 2),
        (EQUAL, 0, 1),
        (COLUMN, 9, 0),
        (IS, 3, 1),
        (OR, 2, 4),
        (FLOAT, zero, 0),
        (COLUMN, 9, 0),
        (EQUAL, 6, 7),
        (OR, 5, 8),
        (COLUMN, 9, 0),
        (BOOLEAN, 1, 0),
        (EQUAL, 10, 11),
        (OR, 9, 12),
        (COLUMN, 9, 0),
        (NULL, 0, 0),
        (EQUAL, 14, 15),
        (OR, 13, 16),
    ])
}

#[test]
fn values_of_each_sort() {
    let rows = five_tests();
    assert_eq!(lookup(b"?no", &rows, 0), Ok(LookedUp { column: 9, values: 4 }));
    let value = |n| value_at(b"?no", &rows, 0, n);
    assert_eq!(value(0), Ok(Value::String(b"no")));
    assert!(matches!(value(1), Ok(Value::Float(x)) if x.is_nan()));
    assert!(matches!(value(2), Ok(Value::Float(x)) if x == 0.0 && x.is_sign_negative()));
    assert_eq!(value(3), Ok(Value::Boolean(true)));
    assert_eq!(value(4).unwrap_err().why, Refusal::NoSuch);
}

#[test]
fn values_outlive_the_rows() {
    let text = b"?no".to_vec();
    let found: Vec<Value> = {
        let rows = five_tests();
        values(&text, &rows, 0).unwrap().collect()
    };
    assert_eq!((found.len(), found[0]), (4, Value::String(b"no")));
}

#[test]
fn values_read_as_in_a_filter() {
    let said = |value: Value| value.to_string();
    assert_eq!(said(Value::String("''ø\n".as_bytes())), "'''''ø\n'");
    assert_eq!(said(Value::String(b"a\xffb\xc3")), "'a\u{fffd}b\u{fffd}'");
    assert_eq!(said(Value::String(b"")), "''");
    assert_eq!(said(Value::Boolean(false)), "FALSE");
    let floats = [f64::NAN, f64::INFINITY, -0.0, 1e300].map(|x| said(Value::Float(x)));
    assert_eq!(floats, ["NAN", "INFINITY", "-0.0", "1e300"]);
    assert_eq!(said(Value::Float(f64::NEG_INFINITY)), "-INFINITY");
}

#[test]
fn what_is_no_lookup() {
    let compared = |kind| table(&[(COLUMN, 0, 0), (INTEGER, u64::MAX, 0), (kind, 0, 1)]);
    let less = compared(LESS_THAN);
    assert_eq!(lookup(b"", &less, 0).unwrap_err().why, Refusal::NotLookup);
    assert_eq!(lookup(b"", &less, 1).unwrap_err().why, Refusal::NoSuch);
    assert_eq!(value_at(b"", &compared(EQUAL), 0, 0), Ok(Value::Integer(-1)));
}
