//! The header for C, the declarations in `src/ffi.rs` and one table of
//! functions say the same: names, parameters, their order, results.

/// The header.
const HEADER: &str = include_str!("../../../include/fontrisc.h");

/// The source with the declarations.
const FFI: &str = include_str!("../src/ffi.rs");

/// What a parameter or a result is, in C and in Rust.
const TYPES: [(&str, &str); 8] = [
    ("const uint8_t *", "*const u8"),
    ("const uint32_t *", "*const u32"),
    ("const uint64_t *", "*const u64"),
    ("uint32_t *", "*mut u32"),
    ("uint64_t *", "*mut u64"),
    ("size_t ", "usize"),
    ("uint32_t ", "u32"),
    ("void ", "()"),
];

/// A function: its name, its result and its parameters, in Rust's words.
#[derive(Debug, PartialEq, Eq)]
struct Function {
    name: String,
    result: String,
    parameters: Vec<(String, String)>,
}

/// The five functions.
fn table() -> Vec<Function> {
    let text = "text: *const u8, text_len: usize";
    let tokens = "tokens: *const u32, tokens_len: usize";
    let rows = "rows: *const u64, rows_len: usize";
    vec![
        function(
            "fontrisc_parse",
            &format!("{text}, {tokens}, rows: *mut u64, rows_len: usize, at: *mut u64"),
            "u32",
        ),
        function(
            "fontrisc_spelled",
            &format!("{text}, {tokens}, n: usize, start: *mut u64, length: *mut u64"),
            "()",
        ),
        function(
            "fontrisc_split",
            &format!(
                "{text}, {rows}, literals: *mut u32, literals_len: usize, \
                 ends: *mut u32, ends_len: usize, clauses: *mut u64, total: *mut u64"
            ),
            "u32",
        ),
        function(
            "fontrisc_lookup",
            &format!("{text}, {rows}, clause: usize, column: *mut u64, count: *mut u64"),
            "u32",
        ),
        function(
            "fontrisc_value",
            &format!(
                "{text}, {rows}, clause: usize, n: usize, kind: *mut u64, x: *mut u64, y: *mut u64"
            ),
            "u32",
        ),
    ]
}

/// A function from Rust's spelling of its parameters.
fn function(name: &str, parameters: &str, result: &str) -> Function {
    let parameter = |part: &str| {
        let (name, kind) = part.split_once(':').expect("a name and a type");
        (name.trim().to_string(), kind.trim().to_string())
    };
    let parts = parameters.split(',').filter(|part| !part.trim().is_empty());
    Function {
        name: name.to_string(),
        result: result.to_string(),
        parameters: parts.map(parameter).collect(),
    }
}

/// A source with runs of space made one space, without `/* */` comments and
/// lines that start with `#`.
fn flat(source: &str) -> String {
    let mut rest = source;
    let mut kept = String::new();
    while let Some((before, after)) = rest.split_once("/*") {
        kept.push_str(before);
        rest = after.split_once("*/").expect("a comment ends").1;
    }
    kept.push_str(rest);
    let lines = kept.lines().filter(|line| !line.starts_with('#'));
    lines.flat_map(str::split_whitespace).collect::<Vec<_>>().join(" ")
}

/// A C declaration's name, and its type in Rust's words.
fn from_c(declared: &str) -> (String, String) {
    let fits = |(c, _): &&(&str, &str)| declared.starts_with(c);
    let (c, rust) = TYPES.iter().find(fits).unwrap_or_else(|| panic!("unknown: {declared}"));
    (declared[c.len()..].to_string(), rust.to_string())
}

/// The functions that the header declares.
fn declared_in_header() -> Vec<Function> {
    let body = flat(HEADER);
    let prototypes = body.split(';').filter(|part| part.contains("fontrisc_"));
    let prototype = |part: &str| {
        let (head, parameters) = part.split_once('(').expect("parameters");
        let head = head.rsplit_once("{ ").map_or(head, |(_, head)| head).trim();
        let (name, result) = from_c(head);
        let parameters = parameters.trim_end().strip_suffix(')').expect("a closing `)`");
        let parameters = parameters.split(',').map(|part| from_c(part.trim())).collect();
        Function { name, result, parameters }
    };
    prototypes.map(prototype).collect()
}

/// The functions that the extern block declares.
fn declared_in_ffi() -> Vec<Function> {
    let from = FFI.find("unsafe extern \"C\" {").expect("an extern block");
    let block = &FFI[from..];
    let block = &block[..block.find("\n}").expect("its end")];
    let mut functions = Vec::new();
    for part in block.split("fn ").skip(1) {
        let (declared, _) = part.split_once(';').expect("a declaration");
        let (name, rest) = declared.split_once('(').expect("parameters");
        let (parameters, result) = rest.rsplit_once(')').expect("a closing `)`");
        let result = result.trim().strip_prefix("->").map_or("()", str::trim);
        functions.push(function(name, parameters, result));
    }
    functions
}

#[test]
fn the_header_is_the_table() {
    assert_eq!(declared_in_header(), table());
}

#[test]
fn the_extern_block_is_the_table() {
    assert_eq!(declared_in_ffi(), table());
}

/// The number that a `#define` of the header gives a name.
fn defined(name: &str) -> usize {
    let line = format!("#define FONTRISC_{name} ");
    let found = HEADER.lines().find_map(|l| l.strip_prefix(&line));
    let number = found.unwrap_or_else(|| panic!("no {name}"));
    number.split_whitespace().next().and_then(|n| n.parse().ok()).expect("a number")
}

/// The names and numbers that the header's `#define`s give, but for limits and
/// sizes of stacks.
fn refusals_in_header() -> Vec<(&'static str, u32)> {
    let lines = HEADER.lines().filter_map(|line| line.strip_prefix("#define FONTRISC_"));
    let other = |name: &str| name.starts_with("MAX_") || name.starts_with("STACK_");
    let refusals = lines.filter_map(|line| {
        let mut words = line.split_whitespace();
        let (name, number) = (words.next()?, words.next()?);
        (!other(name)).then(|| (name, number.parse().expect("a number")))
    });
    refusals.collect()
}

#[test]
fn the_refusals_have_their_numbers() {
    let refusals = fontrisc::Refusal::ALL.iter();
    let ours: Vec<_> = refusals.map(|refusal| (refusal.name(), refusal.number())).collect();
    assert_eq!(refusals_in_header(), ours);
}

#[test]
fn the_limits_have_their_numbers() {
    use fontrisc::limit::*;
    let limits = [TEXT, TOKENS, ROWS, LEVELS, CLAUSES, LITERALS];
    let names = ["TEXT", "TOKENS", "ROWS", "LEVELS", "CLAUSES", "LITERALS"];
    for (name, limit) in names.iter().zip(limits) {
        assert_eq!(defined(&format!("MAX_{name}")), limit);
    }
}

/// The library's own limits.
const LIMITS: &str = include_str!("../../../crates/limits/src/lib.rt");

#[test]
fn the_limits_are_those_of_the_library() {
    use fontrisc::limit::*;
    let limits = [TEXT, TOKENS, ROWS, LEVELS, CLAUSES, LITERALS, COLUMN as usize];
    let names = ["TEXT", "TOKENS", "ROWS", "LEVELS", "CLAUSES", "LITERALS", "COLUMN"];
    for (name, limit) in names.iter().zip(limits) {
        let line = format!("pub const {name}_MAX: ");
        let rest = LIMITS.lines().find_map(|l| l.strip_prefix(&line));
        let number = rest.and_then(|rest| rest.split([' ', ';']).nth(2)?.parse().ok());
        assert_eq!(number, Some(limit), "{name}");
    }
}

#[test]
fn the_stacks_have_their_sizes() {
    use fontrisc::stack::*;
    for (name, size) in [("PARSE", PARSE), ("SPLIT", SPLIT), ("LOOKUP", LOOKUP)] {
        assert_eq!(defined(&format!("STACK_{name}")), size);
    }
}
