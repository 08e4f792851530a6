//! Predicates by chance, every small one, and smaller ones from large ones.

use crate::shrink::{cuts, smaller_numbers, without_unused_bytes};
use crate::split::Case;
use fontrisc::predicate::{AND, COLUMN, LIKE, NEGATE, NOT, NULL, OR, STRING};
use oracle::cases::*;
use oracle::layout::{ROW_WIDTH, Row, row_at, rows_of, table_of};
use oracle::plain::predicate::operands;
use oracle::plain::{self, limit};

/// Makes a predicate by chance, good or bad.
pub fn random_predicate(dice: &mut Dice) -> Predicate {
    match dice.below(40) {
        0..18 => predicate_of(&small(dice)),
        18..25 => {
            let made = predicate_of(&small(dice));
            damaged(dice, made)
        }
        25..32 => predicate_of(&lookups(dice)),
        32..36 => predicate_of(&product(dice)),
        36..38 => predicate_of(&dressed(&medium(dice), dice)),
        38 => odd(dice),
        _ => predicate_of(&long(dice)),
    }
}

/// A small tree over atoms of every sort.
fn small(dice: &mut Dice) -> Tree {
    let depth = dice.below(7);
    random_tree(dice, depth, &random_atom)
}

/// A conjunction of lookups, most of them on one column.
pub fn lookups(dice: &mut Dice) -> Tree {
    let clause = |dice: &mut Dice| {
        let literals = if dice.below(12) == 0 { 40 } else { dice.below(5) };
        let first = looking(dice);
        (0..literals).fold(first, |tree, _| or(tree, looking(dice)))
    };
    let first = clause(dice);
    (0..dice.below(4)).fold(first, |tree, _| and(tree, clause(dice)))
}

/// A literal of the lookup sort; now and then one that only the original takes
/// for one, because it rewrites below atoms.
fn looking(dice: &mut Dice) -> Tree {
    let doubled = || not(not(Tree::Column(0)));
    match dice.below(60) {
        0 => is(doubled(), dice.below(2) as u64),
        1 => equal(doubled(), random_constant(dice)),
        _ => random_lookup(dice),
    }
}

/// A chain of one kind over columns, to the left, to the right or balanced.
fn random_chain(dice: &mut Dice, kind: u64, atoms: usize) -> Tree {
    let lean = dice.below(3);
    leaning(lean, kind, 0, atoms.max(1) as u64)
}

/// A chain over the columns from `first` on.
fn leaning(lean: usize, kind: u64, first: u64, atoms: u64) -> Tree {
    if atoms == 1 {
        return Tree::Column(first);
    }
    let left = match lean {
        0 => atoms - 1,
        1 => 1,
        _ => atoms / 2,
    };
    let right = leaning(lean, kind, first + left, atoms - left);
    binary(kind, leaning(lean, kind, first, left), right)
}

/// ANDs joined by ORs, or the same under a NOT: close to as many clauses and
/// literals as allowed, or past it.
fn product(dice: &mut Dice) -> Tree {
    let (inner, outer) = dice.pick(&[(AND, OR), (OR, AND)]);
    let shapes: &[&[usize]] = &[
        &[2, 2, 2, 2, 2, 2, 4, 4],
        &[2, 2, 2, 2, 2, 2, 2, 2, 4],
        &[32, 32],
        &[33, 32],
        &[32, 31],
        &[1, 33, 31],
        &[10, 10, 10],
        &[2, 2, 2, 2, 2, 2, 2, 2, 2, 2],
        &[16, 8, 8],
        &[16, 8, 8, 1],
        &[3, 3, 3, 3, 3, 3],
    ];
    let sizes = dice.pick(shapes);
    let mut parts = sizes.iter().map(|size| random_chain(dice, inner, *size)).collect::<Vec<_>>();
    while parts.len() > 1 {
        let at = dice.below(parts.len() - 1);
        let right = parts.remove(at + 1);
        let left = std::mem::replace(&mut parts[at], Tree::Null);
        parts[at] = binary(outer, left, right);
    }
    let tree = parts.pop().expect("one part is left");
    if inner == OR || dice.below(8) == 0 { not(tree) } else { tree }
}

/// A tree of some fifty rows in a shape that is split far.
fn medium(dice: &mut Dice) -> Tree {
    let outer = dice.pick(&[AND, OR]);
    let parts = 1 + dice.below(3);
    let mut tree = random_chain(dice, outer, 1);
    for _ in 0..parts {
        let inner = dice.pick(&[AND, OR]);
        let atoms = 1 + dice.below(12);
        let part = random_chain(dice, inner, atoms);
        let part = if dice.below(3) == 0 { not(part) } else { part };
        tree = binary(outer, tree, part);
    }
    tree
}

/// The tree with its columns replaced by atoms that have operands.
fn dressed(tree: &Tree, dice: &mut Dice) -> Tree {
    match tree {
        Tree::Unary(NOT, inner) => not(dressed(inner, dice)),
        Tree::Binary(kind, left, right) => binary(*kind, dressed(left, dice), dressed(right, dice)),
        _ => match dice.below(4) {
            // An AND below an atom is the atom's own affair.
            0 => equal(and(Tree::Column(1), not(Tree::Column(2))), Tree::Boolean(true)),
            1 => is(or(Tree::Null, Tree::Column(3)), 0),
            _ => random_atom(dice),
        },
    }
}

/// A tree with about as many rows as allowed.
fn long(dice: &mut Dice) -> Tree {
    // A chain has twice as many rows as atoms, but for one.
    let most = limit::ROWS / 2;
    let atoms = dice.pick(&[most, most - 1, most - 2, 1_000, 511, 200]);
    let (kind, other) = dice.pick(&[(AND, OR), (OR, AND)]);
    let tree = match dice.below(6) {
        0 => random_chain(dice, kind, atoms),
        1 => {
            let left = random_chain(dice, kind, atoms - 1);
            binary(other, left, Tree::Column(9))
        }
        2 => {
            let right = random_chain(dice, kind, atoms - 1);
            binary(other, Tree::Column(9), right)
        }
        3 => (0..2 * atoms - 1).fold(Tree::Column(0), |tree, _| not(tree)),
        4 => (0..atoms / 2).fold(Tree::Column(0), |tree, n| {
            let kind = if n % 2 == 0 { kind } else { other };
            not(binary(kind, Tree::Column(1), tree))
        }),
        _ => (0..2 * atoms - 1).fold(Tree::Column(0), |tree, _| unary(NEGATE, tree)),
    };
    let nots = dice.below(3);
    (0..nots).fold(tree, |tree, _| not(tree))
}

/// Numbers that do damage in a row: small ones, and those past a bound.
const ODD_NUMBERS: [u64; 8] =
    [0, 1, 2, LIKE + 1, limit::COLUMN, limit::COLUMN + 1, 1 << 32, u64::MAX];

/// A predicate with a few numbers changed, rows dropped or swapped, or a ragged
/// end.
fn damaged(dice: &mut Dice, mut made: Predicate) -> Predicate {
    for _ in 0..1 + dice.below(2) {
        if made.rows.is_empty() {
            break;
        }
        let at = dice.below(made.rows.len());
        let row = at / ROW_WIDTH * ROW_WIDTH;
        match dice.below(9) {
            0 => made.rows[at] = made.rows[at].wrapping_add(1),
            1 => made.rows[at] = made.rows[at].wrapping_sub(1),
            2 => made.rows[at] = dice.pick(&ODD_NUMBERS),
            3 => made.rows[row] = 1 + dice.below(LIKE as usize + 1) as u64,
            4 => drop(made.rows.drain(row..(row + ROW_WIDTH).min(made.rows.len()))),
            5 => made.rows.truncate(at),
            6 if made.rows.len().is_multiple_of(ROW_WIDTH) => made.rows.swap(row + 1, row + 2),
            7 => {
                let column = Row::new(COLUMN, dice.below(4) as u64, 0);
                made.rows.extend(column.numbers().iter().take(1 + dice.below(ROW_WIDTH)));
            }
            _ => {
                let start = u64::MAX - dice.below(3) as u64;
                let length = dice.below(4) as u64;
                made.rows.extend(Row::new(STRING, start, length.wrapping_sub(start)).numbers());
            }
        }
    }
    made
}

/// Texts and tables at their limits, and nothing at all.
fn odd(dice: &mut Dice) -> Predicate {
    let rows = match dice.below(5) {
        0 => Vec::new(),
        1 => Row::new(NULL, 0, 0).numbers().repeat(limit::ROWS + dice.below(3) - 1),
        2 => {
            let most = Row::new(COLUMN, 1, 0).numbers().repeat(limit::ROWS);
            [most, vec![NOT; 1 + dice.below(ROW_WIDTH - 1)]].concat()
        }
        3 => {
            let string = Row::new(STRING, limit::TEXT as u64 - 1, dice.below(3) as u64);
            string.numbers().to_vec()
        }
        _ => predicate_of(&small(dice)).rows,
    };
    let length = dice.pick(&[0, 1, limit::TEXT - 1, limit::TEXT, limit::TEXT + 1]);
    Predicate { text: vec![b's'; length], rows }
}

/// Every tree of AND, OR and NOT over up to so many columns, and the same with
/// other atoms, each with lists that are long enough and with some that are
/// not. The fewer atoms, the more NOTs on each node.
pub fn every_small(atoms: usize) -> impl Iterator<Item = Case> {
    let nots = [9, 4, 2, 2, 1];
    let counts = (1..=atoms.min(nots.len())).flat_map(move |count| {
        let trees = every_tree(0, count as u64, nots[count - 1]);
        trees.into_iter().enumerate()
    });
    counts.flat_map(|(n, tree)| {
        let other = dressed(&tree, &mut Dice::new(n as u64));
        [tree, other].into_iter().flat_map(move |tree| with_list_lengths(predicate_of(&tree), n))
    })
}

/// A predicate with lists just long enough, one too short, and a little longer.
fn with_list_lengths(made: Predicate, n: usize) -> impl Iterator<Item = Case> {
    let (clauses, literals) = counts(&made);
    let lengths = [
        (literals, clauses),
        (literals + n % 5, clauses + n % 3),
        (literals.saturating_sub(1), clauses),
        (literals, clauses.saturating_sub(1)),
    ];
    lengths.into_iter().map(move |(literals, ends)| Case {
        text: made.text.clone(),
        rows: made.rows.clone(),
        literals,
        ends,
    })
}

/// How many clauses and literals a predicate comes to; none if it is refused.
pub fn counts(made: &Predicate) -> (usize, usize) {
    let clauses = plain::split(&made.text, &made.rows).unwrap_or_default();
    (clauses.len(), clauses.iter().map(Vec::len).sum())
}

/// Smaller predicates than these rows over this text.
pub fn fewer(text: &[u8], rows: &[u64]) -> std::vec::IntoIter<Predicate> {
    let made = Predicate { text: text.to_vec(), rows: rows.to_vec() };
    smaller(&made).collect::<Vec<_>>().into_iter()
}

/// Smaller predicates, the boldest first: an operand in the place of a row, a
/// column in the place of a row, rows cut out, less text, shorter strings.
pub fn smaller(made: &Predicate) -> Box<dyn Iterator<Item = Predicate> + '_> {
    let text = smaller_numbers(made.text.len())
        .map(|length| Predicate { text: made.text[..length].to_vec(), rows: made.rows.clone() });
    let text = without_unused_text(made).into_iter().chain(text).chain(with_shorter_strings(made));
    let Some(starts) = starts(made) else {
        let cut = cuts(made.rows.len()).map(|cut| {
            let mut rows = made.rows.clone();
            rows.drain(cut);
            Predicate { text: made.text.clone(), rows }
        });
        return Box::new(cut.chain(text));
    };
    let all = (0..starts.len()).rev();
    let hoisted = all.flat_map(move |r| {
        let starts = starts.clone();
        let leaf = (starts[r] < r).then(|| with_leaf(made, &starts, r));
        let parts = operands(&row_at(&made.rows, r)).into_iter();
        parts.map(move |o| with_operand(made, &starts, r, o as usize)).chain(leaf)
    });
    Box::new(hoisted.chain(text))
}

/// The rows that are strings, each with its number.
fn strings(made: &Predicate) -> impl Iterator<Item = (usize, Row)> {
    rows_of(&made.rows).into_iter().enumerate().filter(|(_, row)| row.kind == STRING)
}

/// The predicate with other numbers in a row.
fn with_row(made: &Predicate, r: usize, row: Row) -> Predicate {
    let mut rows = made.rows.clone();
    rows.as_chunks_mut().0[r] = row.numbers();
    Predicate { text: made.text.clone(), rows }
}

/// The predicate without the bytes that no string uses.
fn without_unused_text(made: &Predicate) -> Option<Predicate> {
    let spans: Vec<_> = strings(made).map(|(_, string)| (string.x, string.y)).collect();
    let (text, spans) = without_unused_bytes(&made.text, &spans)?;
    let moved = strings(made).zip(spans).fold(made.clone(), |made, ((r, string), (x, y))| {
        with_row(&made, r, Row { x, y, ..string })
    });
    Some(Predicate { text, rows: moved.rows })
}

/// The predicate with one of its strings cut short.
fn with_shorter_strings(made: &Predicate) -> impl Iterator<Item = Predicate> {
    strings(made).flat_map(move |(r, string)| {
        let lengths = smaller_numbers(string.y as usize);
        lengths.map(move |length| with_row(made, r, Row { y: length as u64, ..string }))
    })
}

/// The first row of each row's subtree, if the predicate is a good one.
fn starts(made: &Predicate) -> Option<Vec<usize>> {
    let rows = plain::check(&made.text, &made.rows).ok()?;
    let mut starts: Vec<usize> = Vec::new();
    for (r, row) in rows.iter().enumerate() {
        let first = operands(row).first().map_or(r, |o| starts[*o as usize]);
        starts.push(first);
    }
    Some(starts)
}

/// The predicate with the subtree of row `r` replaced by that of its operand.
fn with_operand(made: &Predicate, starts: &[usize], r: usize, operand: usize) -> Predicate {
    let (first, shift) = (starts[r], starts[operand] - starts[r]);
    let kept: Vec<Row> = (starts[operand]..=operand)
        .map(|n| {
            let row = row_at(&made.rows, n);
            moved(row, |o| if o < starts[operand] { o } else { o - shift })
        })
        .collect();
    replaced(made, first..r + 1, &kept)
}

/// The predicate with the subtree of row `r` replaced by a column.
fn with_leaf(made: &Predicate, starts: &[usize], r: usize) -> Predicate {
    replaced(made, starts[r]..r + 1, &[Row::new(COLUMN, 0, 0)])
}

/// The predicate with the rows of a subtree replaced by those of another.
fn replaced(made: &Predicate, gone: std::ops::Range<usize>, by: &[Row]) -> Predicate {
    let fewer = gone.len() - by.len();
    let rows = rows_of(&made.rows);
    let after = rows[gone.end..].iter();
    let after = after.map(|row| moved(*row, |o| if o < gone.start { o } else { o - fewer }));
    let kept: Vec<Row> = rows[..gone.start].iter().chain(by).copied().chain(after).collect();
    Predicate { text: made.text.clone(), rows: table_of(&kept) }
}

/// A row with its operands' numbers changed.
fn moved(row: Row, number: impl Fn(usize) -> usize) -> Row {
    let number = |n: u64| number(n as usize) as u64;
    match operands(&row).len() {
        0 => row,
        1 => Row { x: number(row.x), ..row },
        _ => Row { x: number(row.x), y: number(row.y), ..row },
    }
}
