//! The times of `parse` beside those of the original's parser.

use crate::clock::{best, nanoseconds, print_head, print_row, ratio, shown};
use fontrisc::{ROW_WIDTH, limit};
use oracle::cases::{Tokens, words};
use oracle::layout::token_count;
use oracle::parser::{tokens_of, tree_of_copied, tree_of_given};
use std::hint::black_box;

/// What was measured and how, before the table.
const NOTES: &str = "\
## parse

Times are for one call, the best of many batches. Both sides get the same token
lists, made beforehand. The library writes into a table of 2,048 rows that is lent
again and again and not cleared in between.

The original hands its parser a copy of each token, with the token's string where
it has one, as its lexer makes a string for each, and its tree is freed: both are
part of its time. `Bare` is without them: the tokens are handed over as they are,
and the tree is kept.
";

/// The token lists: what each is called, and its words.
fn lists() -> Vec<(String, String)> {
    let mut lists = Vec::new();
    let mut list = |name: &str, line: String| lists.push((name.to_string(), line));
    list("short: `a = 1`", "a = 1".to_string());
    list("filter", "size >= 64 AND kind = 'free".to_string());
    list(
        "filter with NOT, IS NULL and parentheses",
        "thread = 7 AND ( size > 4096 OR fence IS NULL ) AND NOT freed".to_string(),
    );
    list(
        "filter with functions and qualified names",
        "lower ( e . site ) LIKE 'alloc% AND e . size * 2 + 16 <= most ( 3 , e . age ) \
         AND owner IS NOT NULL"
            .to_string(),
    );
    for names in [64, 256, 1_024] {
        list("sum of qualified names", chain("t . c", "+", names));
    }
    for tests in [64, 256, 512] {
        list("AND of comparisons", chain("size > 64", "AND", tests));
    }
    list("one call, many arguments", format!("f ( {} )", chain("x", ",", 2_047)));
    list("60 parentheses", format!("{}1{}", "( ".repeat(60), " )".repeat(60)));
    list("60 prefix minuses", format!("{}1", "- ".repeat(60)));
    list("60 times `^`", chain("1", "^", 61));
    lists
}

/// The same words over and over, with a word in between.
fn chain(part: &str, between: &str, count: usize) -> String {
    vec![part; count].join(&format!(" {between} "))
}

/// Prints the table.
pub fn table() {
    println!("{NOTES}");
    print_head(&[
        "token list",
        "tokens",
        "library",
        "per token",
        "original",
        "per token",
        "ratio",
        "bare original",
        "ratio",
    ]);
    for (name, line) in lists() {
        measure(&name, &words(&line));
    }
    println!("\nA refusal clears the table that was lent, so its length counts:\n");
    print_head(&["refused", "numbers in the table", "library"]);
    for rows in [4, 32, limit::ROWS] {
        measure_refused("a = 1 AND", ROW_WIDTH * rows);
    }
    println!();
}

/// Prints the row of a token list that is refused at its end.
fn measure_refused(line: &str, numbers: usize) {
    let made = words(line);
    let mut rows = vec![0; numbers];
    let [time] = best([&mut || {
        let parse = |()| fontrisc::parse(black_box(&made.text), &made.tokens, &mut rows);
        nanoseconds(numbers, || (), parse)
    }]);
    print_row(&[format!("`{line}`"), numbers.to_string(), shown(time)]);
}

/// Prints the row of one token list.
fn measure(name: &str, made: &Tokens) {
    let count = token_count(&made.tokens);
    let mut rows = vec![0; ROW_WIDTH * limit::ROWS];
    let (text, tokens) = (&made.text[..], &made.tokens[..]);
    fontrisc::parse(text, tokens, &mut rows).expect("the list is a good one");
    let ready = tokens_of(text, tokens);
    tree_of_copied(&ready).expect("the original takes it too");
    let [ours, theirs, bare] = best([
        &mut || {
            let parse = |()| fontrisc::parse(black_box(text), black_box(tokens), &mut rows);
            nanoseconds(count, || (), parse)
        },
        &mut || nanoseconds(count, || (), |()| tree_of_copied(black_box(&ready)).is_some()),
        &mut || nanoseconds(count, || ready.clone(), tree_of_given),
    ]);
    let each = |time: f64| format!("{:.1} ns", time / count as f64);
    print_row(&[
        name.to_string(),
        count.to_string(),
        shown(ours),
        each(ours),
        shown(theirs),
        each(theirs),
        ratio(ours, theirs),
        shown(bare),
        ratio(ours, bare),
    ]);
}
