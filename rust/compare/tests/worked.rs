//! The worked examples of docs/FORMAT.md, §12, and those at its limits, run on
//! the library. The starred ones are proved as well, in the crate `worked`.

use fontrisc::{Listed, ROW_WIDTH, Refusal, Refused, Value, limit, lookup, parse, split, value_at};
use oracle::cases::*;
use oracle::examples::{self, Split};

/// A refusal.
fn refused<T>(why: Refusal, place: usize) -> Result<T, Refused> {
    Err(Refused { why, place })
}

/// What the library reads in words, into a table of `numbers` numbers. Behind
/// the rows the table must be as it was; refused, it must hold zeros.
fn read_into(made: &Tokens, numbers: usize) -> Result<Vec<u64>, Refused> {
    let mut table = vec![77; numbers];
    let answer = parse(&made.text, &made.tokens, &mut table);
    match answer {
        Ok(rows) => {
            assert!(table[ROW_WIDTH * rows..].iter().all(|n| *n == 77));
            table.truncate(ROW_WIDTH * rows);
            Ok(table)
        }
        Err(why) => {
            assert!(table.iter().all(|n| *n == 0));
            Err(why)
        }
    }
}

/// What the library reads in words, with room enough.
fn read(line: &str) -> Result<Vec<u64>, Refused> {
    read_into(&words(line), ROW_WIDTH * limit::ROWS)
}

#[test]
fn accepted_expressions() {
    for (line, rows) in examples::READ {
        assert_eq!(read(line), Ok(rows.concat()), "{line}");
    }
    assert_eq!(read("9223372036854775807"), Ok(vec![2, i64::MAX as u64, 0]));
}

#[test]
fn refused_expressions() {
    for (line, number, place) in examples::REFUSED {
        let why = Refusal::of(number).expect("a refusal's number");
        assert_eq!(read(line), refused(why, place as usize), "{line}");
    }
    assert_eq!(read("a = 1 IS NULL AND b"), refused(Refusal::LeftOver, 5));
}

/// The deepest reading by each way down, and the first that is too deep: the
/// whole is level 1, `n` repetitions of `open` bring it to n + 1.
#[test]
fn the_deepest_level_by_each_way() {
    for (open, inside, close) in [
        ("( ", "1 ", ") "),
        ("- ", "1 ", ""),
        ("NOT ", "1 ", ""),
        ("1 ^ ", "1 ", ""),
        ("f ( ", "1 ", ") "),
    ] {
        let nested = |n: usize| format!("{}{inside}{}", open.repeat(n), close.repeat(n));
        let per = open.split_whitespace().count();
        assert!(read(nested(63).trim_end()).is_ok(), "{open}");
        assert_eq!(read(nested(64).trim_end()), refused(Refusal::TooDeep, 64 * per), "{open}");
    }
}

/// `a = 1 + b` makes five rows, after tokens 0, 2, 4, 4 and 4: a table that is
/// too short for a row is refused at the token after it, and a full one is not.
#[test]
fn tables_too_short() {
    let made = words("a = 1 + b");
    let enough = 5 * ROW_WIDTH;
    for numbers in 0..enough {
        let place = [1, 3, 5, 5, 5][numbers / ROW_WIDTH];
        assert_eq!(read_into(&made, numbers), refused(Refusal::NoRoom, place), "{numbers} numbers");
    }
    for numbers in enough..enough + ROW_WIDTH {
        assert_eq!(read_into(&made, numbers).map(|rows| rows.len()), Ok(enough));
    }
}

/// The clauses that the library lists.
fn clauses(tree: &Tree) -> Result<Vec<Vec<u32>>, Refused> {
    let made = predicate_of(tree);
    let (mut literals, mut ends) = (vec![77; limit::LITERALS], vec![77; limit::CLAUSES]);
    let Listed { clauses, literals: total } =
        split(&made.text, &made.rows, &mut literals, &mut ends)?;
    assert!(literals[total..].iter().chain(&ends[clauses..]).all(|n| *n == 77));
    let starts = [0].into_iter().chain(ends.iter().copied());
    Ok(starts
        .zip(&ends)
        .take(clauses)
        .map(|(from, to)| literals[from as usize..*to as usize].to_vec())
        .collect())
}

#[test]
fn clause_lists() {
    for Split { tree, clauses: list, .. } in examples::splits() {
        let narrow = |clause: &Vec<u64>| clause.iter().map(|l| *l as u32).collect();
        assert_eq!(clauses(&tree), Ok(list.iter().map(narrow).collect()), "{tree:?}");
    }
}

#[test]
fn clause_limits() {
    let list = clauses(&or_of_ands(&examples::MOST_LITERALS)).unwrap();
    assert_eq!((list.len(), list.concat().len()), (limit::CLAUSES, limit::LITERALS));
    // 1,024 clauses of nine literals: 9,216.
    assert_eq!(clauses(&or_of_ands(&examples::TOO_MANY_LITERALS)), refused(Refusal::TooMany, 0));
    // 1,025 clauses.
    let most = or_of_ands(&[32, 32]);
    assert_eq!(clauses(&most).map(|list| list.len()), Ok(limit::CLAUSES));
    assert_eq!(clauses(&and(most, Tree::Column(9))), refused(Refusal::TooMany, 0));
}

/// The column and the values of a predicate's first clause.
fn looked(tree: &Tree) -> Result<(u16, Vec<String>), Refused> {
    let made = predicate_of(tree);
    let found = lookup(&made.text, &made.rows, 0)?;
    assert_eq!(value_at(&made.text, &made.rows, 0, found.values), refused(Refusal::NoSuch, 0));
    let values = (0..found.values).map(|n| match value_at(&made.text, &made.rows, 0, n).unwrap() {
        Value::Float(f) => format!("bits {:x}", f.to_bits()),
        other => format!("{other:?}"),
    });
    Ok((found.column, values.collect()))
}

#[test]
fn lookups() {
    for (tree, values) in examples::lookups() {
        // Both sides' values print alike, but for floats.
        let said = |values: Vec<_>| values.iter().map(|value| format!("{value:?}")).collect();
        let expected = match values.map(said) {
            Some(values) => Ok((examples::LOOKED_UP as u16, values)),
            None => refused(Refusal::NotLookup, 0),
        };
        assert_eq!(looked(&tree), expected, "{tree:?}");
    }
}

#[test]
fn lookups_at_the_edges() {
    let c = || Tree::Column(7);
    let gives = |values: &[&str]| Ok((7, values.iter().map(|v| v.to_string()).collect::<Vec<_>>()));
    // Every NaN, whatever its sign and payload, matches nothing; the numbers next to them do.
    for bits in [
        0x7ff0_0000_0000_0001,
        0x7fff_ffff_ffff_ffff,
        0xfff0_0000_0000_0001,
        u64::MAX,
        0x7ff8_0000_0000_0000,
    ] {
        assert_eq!(looked(&equal(c(), Tree::Float(bits))), gives(&[]));
    }
    for value in [f64::INFINITY, f64::NEG_INFINITY, 0.0, -0.0, f64::MAX, f64::MIN_POSITIVE] {
        let bits = format!("bits {:x}", value.to_bits());
        assert_eq!(looked(&equal(c(), float(value))), gives(&[&bits]));
    }
    for value in [i64::MIN, -1, 0, i64::MAX] {
        assert_eq!(
            looked(&equal(c(), Tree::Integer(value))),
            gives(&[&format!("Integer({value})")])
        );
    }
    assert_eq!(looked(&equal(c(), string(""))), gives(&["String([])"]));
    assert_eq!(looked(&equal(c(), string("a"))), gives(&["String([97])"]));
    assert_eq!(looked(&is(c(), 1)), gives(&["bits 7ff8000000000000"]));
    // No lookups: a negated equality, two columns, two constants, a test of something else than a column.
    let one = || Tree::Integer(1);
    for tree in [
        not(equal(c(), one())),
        equal(c(), c()),
        equal(one(), one()),
        is(one(), 0),
        is(equal(c(), one()), 0),
    ] {
        assert_eq!(looked(&tree), refused(Refusal::NotLookup, 0), "{tree:?}");
    }
}
