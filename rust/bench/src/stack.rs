//! How much stack the library's calls need at their worst inputs.
//!
//! Each call runs on a new thread. The system gives a thread's stack its memory
//! page by page as it is first touched, and says which pages those are: the
//! deepest one tells how far the call went, to the next page. Threads are kept
//! until the end, so that no stack is used twice.

use crate::shapes::{AND, NOT, OR, Rows, rows};
use fontrisc::predicate::NEGATE;
use fontrisc::{ROW_WIDTH, limit};
use oracle::cases::words;
use oracle::layout::{row_count, token_count};
use std::collections::BTreeMap;
use std::fs::File;
use std::io::{Read, Seek, SeekFrom};
use std::process::ExitCode;
use std::sync::mpsc;
use std::thread::{self, Scope};

/// What a page of memory has, in bytes.
const PAGE: usize = 4_096;

/// The stack of each thread: more than any call needs.
const STACK: usize = 8 << 20;

/// A call.
type Call = Box<dyn FnOnce() + Send>;

/// A call that is measured: its entry, what it is lent, the call itself.
type Measured = (&'static str, String, Call);

/// The calls that are measured.
fn calls() -> Vec<Measured> {
    let nothing = "what measuring itself needs, at most".to_string();
    let mut calls: Vec<Measured> = vec![("nothing", nothing, Box::new(|| ()))];
    calls.extend(deep_lists().into_iter().map(|(name, line)| parse_call(name, &line)));
    for (name, rows) in deep_predicates() {
        calls.extend(predicate_calls(&name, rows));
    }
    calls
}

/// The call of `parse` with words.
fn parse_call(name: &str, line: &str) -> Measured {
    let made = words(line);
    let name = format!("{name}, {} tokens", token_count(&made.tokens));
    let parse = move || {
        let mut table = vec![0; ROW_WIDTH * limit::ROWS];
        let read = fontrisc::parse(&made.text, &made.tokens, &mut table);
        assert!(read.is_ok(), "{read:?}");
    };
    ("parse", name, Box::new(parse))
}

/// Token lists 64 levels deep, each by another way, as long as they may be.
fn deep_lists() -> Vec<(&'static str, String)> {
    let wrapped = |levels: usize, open: &str, close: &str| {
        let names = vec!["t . c"; 900].join(" + ");
        format!("{}{names}{}", open.repeat(levels), close.repeat(levels))
    };
    let arguments = format!("f ( {}", "t . c , ".repeat(14));
    vec![
        // Where the sum is read inside, its right sides are one level further down.
        ("64 levels of parentheses", wrapped(62, "( ", " )")),
        ("64 levels of prefix minuses", wrapped(63, "- ", "")),
        ("64 levels of prefix NOTs", wrapped(62, "NOT ", "")),
        ("64 levels of right sides", wrapped(63, "1 ^ ", "")),
        ("64 levels of arguments", wrapped(62, "f ( ", " )")),
        (
            "64 levels of arguments, each after others",
            format!("{}1{}", arguments.repeat(63), " )".repeat(63)),
        ),
        (
            "64 levels of parentheses and right sides",
            format!("{}1{}", "( 1 = - 1 ^ ".repeat(21), " )".repeat(21)),
        ),
    ]
}

/// Predicates of about 2,048 rows, in every shape of a chain.
fn deep_predicates() -> Vec<(String, Vec<u64>)> {
    let mut all = Vec::new();
    for (kind, other, name) in [(AND, OR, "AND"), (OR, AND, "OR")] {
        let mut add = |shape: String, make: &dyn Fn(&mut Rows)| {
            let plain = rows(make);
            let negated = rows(|made| {
                make(made);
                made.over(NOT);
            });
            all.push((format!("{shape}, {} rows", row_count(&plain)), plain));
            all.push((format!("NOT of {shape}, {} rows", row_count(&negated)), negated));
        };
        add(format!("{name} chain to the left"), &|made| {
            made.left_chain(kind, 1_024);
        });
        add(format!("{name} chain to the right"), &|made| {
            made.right_chain(kind, 1_024);
        });
        add(format!("x before an {name} chain"), &|made| {
            let x = made.column(0);
            let chain = made.right_chain(kind, 1_022);
            made.join(other, x, chain);
        });
        add(format!("an {name} chain before x"), &|made| {
            let chain = made.left_chain(kind, 1_022);
            let x = made.column(0);
            made.join(other, chain, x);
        });
    }
    all.push(("NOT chain, 2,048 rows".to_string(), rows(|made| chain_of(made, NOT))));
    all.push((
        "Negate chain (one atom), 2,048 rows".to_string(),
        rows(|made| chain_of(made, NEGATE)),
    ));
    all.push(("AND chain with a NOT at each step".to_string(), rows(alternating)));
    all
}

/// One operand row over another, up to 2,048 rows.
fn chain_of(made: &mut Rows, kind: u64) {
    made.column(0);
    for _ in 1..limit::ROWS {
        made.over(kind);
    }
}

/// x AND NOT (x OR NOT (x AND NOT ..)): 2,044 rows.
fn alternating(made: &mut Rows) {
    let columns: Vec<u64> = (0..682).map(|n| made.column(n)).collect();
    for (n, column) in columns.iter().rev().skip(1).enumerate() {
        let negated = made.over(NOT);
        made.join(if n % 2 == 0 { AND } else { OR }, *column, negated);
    }
}

/// The calls of the entries that take a predicate.
fn predicate_calls(name: &str, rows: Vec<u64>) -> [Measured; 3] {
    // What a call needs can depend on the clause: the first and the last are asked for.
    let clauses = oracle::plain::split(b"", &rows).map_or(1, |clauses| clauses.len());
    let asked = [0, clauses - 1];
    let [split_rows, lookup_rows, value_rows] = [rows.clone(), rows.clone(), rows];
    let split = move || {
        let (mut literals, mut ends) = (vec![0; limit::LITERALS], vec![0; limit::CLAUSES]);
        let listed = fontrisc::split(b"", &split_rows, &mut literals, &mut ends);
        assert!(listed.is_ok(), "{listed:?}");
    };
    let lookup = move || {
        for clause in asked {
            let _ = fontrisc::lookup(b"", &lookup_rows, clause);
        }
    };
    let value = move || {
        for clause in asked {
            let _ = fontrisc::value_at(b"", &value_rows, clause, 0);
        }
    };
    [
        ("split", name.to_string(), Box::new(split)),
        ("lookup", name.to_string(), Box::new(lookup)),
        ("value_at", name.to_string(), Box::new(value)),
    ]
}

/// Measures every call and prints the table.
pub fn table() -> ExitCode {
    println!("## stack\n\nTo the next page of {PAGE} bytes.\n");
    crate::clock::print_head(&["entry and input", "stack"]);
    let (done, wait) = mpsc::channel::<()>();
    let wait = std::sync::Mutex::new(wait);
    let mut most = BTreeMap::new();
    let measured = thread::scope(|scope| {
        let measured = calls().into_iter().try_for_each(|(entry, name, call)| {
            let kilobytes = depth(scope, call, &wait)?.div_ceil(1_024);
            crate::clock::print_row(&[format!("{entry}: {name}"), format!("{kilobytes} KB")]);
            let so_far: &mut usize = most.entry(entry).or_default();
            *so_far = kilobytes.max(*so_far);
            Some(())
        });
        drop(done);
        measured
    });
    if measured.is_none() {
        eprintln!("this system does not say which pages of a stack were touched");
        return ExitCode::FAILURE;
    }
    println!("\nThe most of each entry: {most:?} KB.");
    ExitCode::SUCCESS
}

/// How deep a call goes on a new thread, in bytes. The thread then waits until
/// the other end of `wait` is gone.
fn depth<'s>(
    scope: &'s Scope<'s, '_>,
    call: Call,
    wait: &'s std::sync::Mutex<mpsc::Receiver<()>>,
) -> Option<usize> {
    let (tell, told) = mpsc::channel();
    let work = move || {
        let here = 0u8;
        call();
        let _ = tell.send(std::ptr::from_ref(&here) as usize);
        // Nothing is ever sent: this ends when the sender is dropped.
        drop(wait.lock().map(|end| end.recv()));
    };
    thread::Builder::new().stack_size(STACK).spawn_scoped(scope, work).ok()?;
    let here = told.recv().ok()?;
    let deepest = deepest_page(here)?;
    Some(here.saturating_sub(deepest))
}

/// The lowest page that was touched in the mapping that holds an address.
fn deepest_page(address: usize) -> Option<usize> {
    let start = mapping_start(address)?;
    let mut pages = File::open("/proc/self/pagemap").ok()?;
    pages.seek(SeekFrom::Start((start / PAGE * 8) as u64)).ok()?;
    let mut entries = vec![0; (address / PAGE + 1 - start / PAGE) * 8];
    pages.read_exact(&mut entries).ok()?;
    let touched = |entry: &[u8]| entry[7] & 0b1100_0000 != 0;
    let first = entries.chunks(8).position(touched)?;
    Some(start + first * PAGE)
}

/// Where the mapping that holds an address starts.
fn mapping_start(address: usize) -> Option<usize> {
    let maps = std::fs::read_to_string("/proc/self/maps").ok()?;
    let bounds = |line: &str| {
        let (start, rest) = line.split_once('-')?;
        let end = rest.split(' ').next()?;
        Some((usize::from_str_radix(start, 16).ok()?, usize::from_str_radix(end, 16).ok()?))
    };
    let mut all = maps.lines().filter_map(bounds);
    all.find(|(start, end)| (*start..*end).contains(&address)).map(|(start, _)| start)
}

#[cfg(test)]
mod tests {
    use super::*;
    use fontrisc::stack::{LOOKUP, PARSE, SPLIT};
    use std::hint::black_box;

    /// What a thread needs for itself.
    const THREAD: usize = 16 << 10;

    /// The stack that suffices for an entry, as the crate `fontrisc` says it.
    fn suffices(entry: &str) -> usize {
        match entry {
            "nothing" => 0,
            "parse" => PARSE,
            "split" => SPLIT,
            _ => LOOKUP,
        }
    }

    /// Where one does not suffice the whole test is stopped, with the thread's name.
    #[test]
    fn the_stack_that_is_said_suffices() {
        for (entry, name, call) in calls() {
            let thread = thread::Builder::new().name(format!("{entry}: {name}"));
            let thread = thread.stack_size(suffices(entry) + THREAD).spawn(call);
            assert!(thread.expect("a thread").join().is_ok(), "{entry}: {name}");
        }
    }

    #[test]
    fn a_known_depth_is_measured() {
        let (done, wait) = mpsc::channel::<()>();
        let wait = std::sync::Mutex::new(wait);
        let large = || {
            black_box([1u8; 300 * 1_024]);
        };
        let depths = thread::scope(|scope| {
            let depths =
                [depth(scope, Box::new(|| ()), &wait), depth(scope, Box::new(large), &wait)];
            drop(done);
            depths.map(|depth| depth.expect("this system says what was touched"))
        });
        assert!(depths[0] <= 2 * PAGE, "{depths:?}");
        // An unoptimised call keeps a copy or two.
        assert!(depths[1] >= 300 * 1_024 && depths[1] <= 920 * 1_024, "{depths:?}");
    }
}
