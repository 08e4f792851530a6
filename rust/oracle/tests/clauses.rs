//! The plain clause list against the original's, on every small tree
//! and on random ones.

use oracle::cases::*;
use oracle::expression;
use oracle::layout::row_at;
use oracle::plain::cells::Kleene;
use oracle::plain::predicate::kind::{AND, IDENTITY, NOT, OR};
use oracle::plain::refusal::*;
use oracle::plain::{self, Refusal, limit};

/// Whether an AND, or a NOT over something other than an atom, is left.
type Left = (bool, bool);

/// Compares the lists of one tree. They agree where the original leaves
/// nothing, and their atoms where it rewrites nothing inside them; answers what
/// it left.
fn compare(tree: &Tree) -> Left {
    let made = predicate_of(tree);
    let expected = plain::split(&made.text, &made.rows).expect("a small tree");
    let clauses = expression::split(&made.text, &made.rows);
    let left = (clauses.iter().any(|c| c.and_left), clauses.iter().any(|c| c.not_left));
    assert_eq!(clauses.iter().any(|c| c.altered), altered_below(tree), "{tree:?}");
    let lists: Option<Vec<Vec<u64>>> = clauses.into_iter().map(|c| c.literals).collect();
    match lists {
        Some(lists) => {
            assert_eq!(left, (false, false));
            assert_eq!(lists, expected, "{tree:?}");
        }
        None => assert_ne!(left, (false, false)),
    }
    left
}

/// What the original will leave, told from the tree alone.
///
/// It rewrites a node once, before it goes on to the operands. Where two NOTs
/// stand on one another both go, and if the next is a NOT again, that one stays
/// and work goes on below it. So a run of NOTs (the one that a negated AND or
/// OR hands down counted in) leaves at most one over an atom if it is up to
/// three long, or five, and none over AND or OR if it is up to two long. After
/// that, an OR is distributed over an AND that is its own operand, never over
/// one that only turns up below.
fn predicted(tree: &Tree) -> Left {
    match pushed(tree, false) {
        None => (false, true),
        Some(tree) => (and_below_or(&tree), false),
    }
}

/// The tree with NOTs only on atoms, if the source gets that far.
fn pushed(tree: &Tree, mut handed_down: bool) -> Option<Tree> {
    let mut nots = usize::from(handed_down);
    let mut tree = tree;
    while let Tree::Unary(NOT, inner) = tree {
        nots += 1;
        tree = inner;
    }
    match tree {
        Tree::Binary(kind @ (AND | OR), left, right) if nots <= 2 => {
            handed_down = nots == 1;
            let is_and = (*kind == AND) != handed_down;
            let left = pushed(left, handed_down)?;
            let right = pushed(right, handed_down)?;
            Some(if is_and { and(left, right) } else { or(left, right) })
        }
        Tree::Binary(AND | OR, ..) => None,
        atom if nots <= 3 || nots == 5 => {
            Some(if nots % 2 == 1 { not(atom.clone()) } else { atom.clone() })
        }
        _ => None,
    }
}

/// Whether an AND will be left under an OR.
fn and_below_or(tree: &Tree) -> bool {
    match tree {
        Tree::Binary(AND, left, right) => and_below_or(left) || and_below_or(right),
        Tree::Binary(OR, left, right) => match (left.as_ref(), right.as_ref()) {
            (Tree::Binary(AND, a, b), r) => or_leaves(a, r) || or_leaves(b, r),
            (l, Tree::Binary(AND, a, b)) => or_leaves(l, a) || or_leaves(l, b),
            (l, r) => has_and(l) || has_and(r),
        },
        _ => false,
    }
}

/// The same for an OR that distributing makes.
fn or_leaves(left: &Tree, right: &Tree) -> bool {
    and_below_or(&or(left.clone(), right.clone()))
}

/// Whether an AND stands in a tree without NOTs over it.
fn has_and(tree: &Tree) -> bool {
    match tree {
        Tree::Binary(AND, ..) => true,
        Tree::Binary(OR, left, right) => has_and(left) || has_and(right),
        _ => false,
    }
}

/// Whether the source will rewrite something inside an atom, told from the tree
/// alone.
fn altered_below(tree: &Tree) -> bool {
    match tree {
        Tree::Unary(NOT, inner) => altered_below(inner),
        Tree::Binary(AND | OR, left, right) => altered_below(left) || altered_below(right),
        atom => is_rewritten(atom),
    }
}

/// Whether there is a NOT of a NOT, an AND or an OR in a tree, or an OR of an AND.
fn is_rewritten(tree: &Tree) -> bool {
    let has = |t: &Tree, kinds: &[u64]| match t {
        Tree::Unary(kind, _) | Tree::Binary(kind, ..) => kinds.contains(kind),
        _ => false,
    };
    match tree {
        Tree::Unary(kind, inner) => {
            (*kind == NOT && has(inner, &[AND, OR, NOT])) || is_rewritten(inner)
        }
        Tree::Binary(kind, left, right) => {
            let over_and = *kind == OR && (has(left, &[AND]) || has(right, &[AND]));
            over_and || is_rewritten(left) || is_rewritten(right)
        }
        Tree::Is(inner, _) => is_rewritten(inner),
        _ => false,
    }
}

/// Compares many trees and holds each to the prediction.
fn compare_all(name: &str, trees: &[Tree]) {
    let (mut ands, mut nots, mut shared) = (0, 0, 0);
    for tree in trees {
        let left = compare(tree);
        let expected = predicted(tree);
        assert_eq!(left.1, expected.1, "{tree:?}");
        assert!(left.1 || left.0 == expected.0, "{tree:?}");
        ands += usize::from(left.0);
        nots += usize::from(left.1);
        shared += usize::from(left == (false, false));
    }
    println!("{name}: {} trees, {shared} shared, {ands} AND left, {nots} NOT left", trees.len());
}

#[test]
fn every_small_tree() {
    compare_all("one atom", &every_tree(0, 1, 9));
    compare_all("two atoms", &every_tree(0, 2, 4));
    compare_all("three atoms", &every_tree(0, 3, 2));
    compare_all("four atoms", &every_tree(0, 4, if cfg!(debug_assertions) { 1 } else { 2 }));
}

#[test]
fn random_trees() {
    let rounds = if cfg!(debug_assertions) { 500 } else { 30_000 };
    let mut dice = Dice::new(21);
    let small = |tree: &Tree| {
        let made = predicate_of(tree);
        plain::split(&made.text, &made.rows).is_ok_and(|list| list.len() < 300)
    };
    let trees: Vec<Tree> = (0..rounds)
        .map(|n| random_tree(&mut dice, 1 + n % 6, &random_atom))
        .filter(small)
        .collect();
    compare_all("random", &trees);
}

#[test]
fn rewriting_inside_atoms_is_told_from_the_tree() {
    let rounds = if cfg!(debug_assertions) { 500 } else { 30_000 };
    let atom = |dice: &mut Dice| {
        let depth = dice.below(4);
        let inside =
            random_tree(dice, depth, &|dice: &mut Dice| Tree::Column(dice.below(4) as u64));
        match dice.below(4) {
            0 => is(inside, 1),
            1 => equal(Tree::Null, inside),
            2 => unary(IDENTITY, inside),
            _ => random_atom(dice),
        }
    };
    let mut dice = Dice::new(22);
    let trees: Vec<Tree> = (0..rounds).map(|n| random_tree(&mut dice, n % 4, &atom)).collect();
    let rewritten = trees.iter().filter(|tree| altered_below(tree)).count();
    assert!(rewritten > rounds / 10 && rewritten < rounds * 9 / 10, "{rewritten}");
    compare_all("inside atoms", &trees);
}

/// The Kleene value of a tree whose atoms are columns, by their cells.
fn value(tree: &Tree, cells: &[Kleene]) -> Kleene {
    match tree {
        Tree::Column(c) => cells[*c as usize],
        Tree::Unary(NOT, inner) => value(inner, cells).not(),
        Tree::Binary(AND, left, right) => value(left, cells).and(value(right, cells)),
        Tree::Binary(OR, left, right) => value(left, cells).or(value(right, cells)),
        _ => unreachable!("these trees have no other nodes"),
    }
}

/// Every choice of Kleene values for some cells.
fn choices(cells: u32) -> Vec<Vec<Kleene>> {
    let cell = |n: usize, place: u32| Kleene::ALL[n / 3usize.pow(place) % 3];
    (0..3usize.pow(cells)).map(|n| (0..cells).map(|place| cell(n, place)).collect()).collect()
}

/// Holds the plain list, and what the original makes of the tree, to
/// the tree's own value, whatever its cells.
fn keeps_value(tree: &Tree, choices: &[Vec<Kleene>]) {
    let made = predicate_of(tree);
    let clauses = plain::split(&made.text, &made.rows).unwrap();
    for cells in choices {
        let expected = value(tree, cells);
        let cell = |row: usize| cells[row_at(&made.rows, row).x as usize];
        let literal = |l: &u64| {
            let cell = cell(*l as usize / 2);
            if l % 2 == 1 { cell.not() } else { cell }
        };
        let clause = |c: &Vec<u64>| c.iter().map(literal).fold(Kleene::False, Kleene::or);
        let list = clauses.iter().map(clause).fold(Kleene::True, Kleene::and);
        assert_eq!(list, expected, "{tree:?}");
        assert_eq!(expression::conjunction(&made.rows, &cell), expected, "{tree:?}");
    }
}

#[test]
fn lists_keep_the_kleene_value() {
    for (atoms, nots) in [(1, 9), (2, 4), (3, 2), (4, 1)] {
        let choices = choices(atoms);
        every_tree(0, u64::from(atoms), nots).iter().for_each(|tree| keeps_value(tree, &choices));
    }
}

#[test]
fn long_chains_are_shared() {
    let column = Tree::Column;
    let trees = [
        chain(AND, 1_024),
        chain(OR, 1_024),
        not(chain(AND, 1_023)),
        not(chain(OR, 1_023)),
        or(column(0), chain(AND, 1_000)),
        or(chain(AND, 32), chain(AND, 32)),
    ];
    for tree in trees {
        assert_eq!(oracle::on_large_stack(|| compare(&tree)), (false, false));
    }
}

/// The refusal of rows that are no predicate.
fn fault(text: &[u8], rows: &[u64]) -> Refusal {
    plain::check(text, rows).unwrap_err()
}

/// The rows are a predicate.
fn good(text: &[u8], rows: &[u64]) {
    assert!(plain::check(text, rows).is_ok(), "{rows:?}");
}

#[test]
fn checks_of_rows() {
    assert_eq!(fault(b"", &[]), (BAD_TREE, 0));
    assert_eq!(fault(b"", &[1, 0]), (BAD_TREE, 0));
    assert_eq!(fault(b"", &[0, 0, 0, 1]), (BAD_TREE, 1));
    assert_eq!(fault(&[0; limit::TEXT + 1], &[]), (TOO_LONG, 0));
    assert_eq!(fault(b"", &[1, 0, 0].repeat(limit::ROWS + 1)), (TOO_LONG, 0));
    assert_eq!(fault(b"", &[1, 0, 0].repeat(limit::ROWS)), (BAD_TREE, limit::ROWS as u64 - 1));
    assert_eq!(
        fault(b"", &[[1, 0, 0].repeat(limit::ROWS), vec![1]].concat()),
        (BAD_TREE, limit::ROWS as u64)
    );
    for bad in [0, 25, u64::MAX] {
        assert_eq!(fault(b"", &[bad, 0, 0]), (BAD_TREE, 0));
    }
    for bad in [[1, 1, 0], [1, 0, 1], [2, 2, 0], [2, 0, 1], [3, 0, 1], [4, 0, 1], [6, 0, 1]] {
        assert_eq!(fault(b"", &bad), (BAD_TREE, 0), "{bad:?}");
    }
    assert_eq!(fault(b"", &[6, limit::COLUMN + 1, 0]), (BAD_TREE, 0));
    good(b"", &[6, limit::COLUMN, 0]);
    good(b"", &[3, u64::MAX, 0]);
    good(b"", &[4, u64::MAX, 0]);
    good(b"ab", &[5, 1, 1]);
    good(b"ab", &[5, 2, 0]);
    assert_eq!(fault(b"ab", &[5, 1, 2]), (BAD_TREE, 0));
    assert_eq!(fault(b"ab", &[5, u64::MAX, 3]), (BAD_TREE, 0));
    // Is takes 0 or 1; the first bad row wins over several roots.
    good(b"", &[6, 0, 0, 13, 0, 1]);
    assert_eq!(fault(b"", &[6, 0, 0, 13, 0, 2]), (BAD_TREE, 1));
    assert_eq!(fault(b"", &[1, 0, 0, 1, 0, 0, 0, 0, 0]), (BAD_TREE, 2));
}

/// Operands must be the whole subtrees directly before their row.
#[test]
fn checks_of_operands() {
    good(b"", &[6, 0, 0, 9, 0, 0]);
    assert_eq!(fault(b"", &[6, 0, 0, 9, 0, 1]), (BAD_TREE, 1));
    assert_eq!(fault(b"", &[6, 0, 0, 9, 1, 0]), (BAD_TREE, 1));
    assert_eq!(fault(b"", &[9, 0, 0]), (BAD_TREE, 0));
    assert_eq!(fault(b"", &[6, 0, 0, 7, 0, 0]), (BAD_TREE, 1));
    good(b"", &[6, 0, 0, 6, 1, 0, 7, 0, 1]);
    assert_eq!(fault(b"", &[6, 0, 0, 6, 1, 0, 7, 1, 0]), (BAD_TREE, 2));
    assert_eq!(fault(b"", &[6, 0, 0, 6, 1, 0, 9, 0, 0]), (BAD_TREE, 2));
    assert_eq!(fault(b"", &[6, 0, 0, 6, 1, 0, 9, 1, 0]), (BAD_TREE, 2));
    good(b"", &[6, 0, 0, 6, 1, 0, 9, 1, 0, 7, 0, 2]);
    assert_eq!(fault(b"", &[6, 0, 0, 6, 1, 0, 9, 1, 0, 7, 1, 2]), (BAD_TREE, 3));
}

#[test]
fn lists_that_are_too_short() {
    let made = predicate_of(&or(and(Tree::Column(0), Tree::Column(1)), Tree::Column(2)));
    let into = |literals, ends| plain::split_into(&made.text, &made.rows, literals, ends);
    assert_eq!(into(4, 2), Ok((vec![0, 6, 2, 6], vec![2, 4])));
    assert_eq!(into(3, 2), Err((NO_LIST, 0)));
    assert_eq!(into(4, 1), Err((NO_LIST, 0)));
}
