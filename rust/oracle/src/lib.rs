//! The original reader and splitter, compiled byte for byte as they were
//! published, beside a plain reading of the format in docs/FORMAT.md.
//!
//! * [`parser`] asks the original parser for its answer to a token table.
//! * [`expression`] asks the original expression source for its clauses,
//!   lookups and values.
//! * [`plain`] is a small reading of docs/FORMAT.md itself, limits included. It
//!   takes nothing from the other two, who put their answers in its terms: they
//!   share the layout, the numbers of kinds and refusals, and the type of values.
//! * [`layout`] says how tokens, rows and constants lie in memory.
//! * [`cases`] makes inputs; [`examples`] are those of docs/FORMAT.md, with their
//!   answers; [`list`] writes the stored answers in crates/replay/data/.
//!
//! Nothing of the original's sources stands in this repository. The folder that
//! holds them is named by the environment variable `TOYDB_SRC` at build time.

pub mod cases;
pub mod error;
pub mod examples;
pub mod expression;
pub mod layout;
pub mod list;
pub mod parser;
pub mod plain;
pub mod sql;

/// Runs something that recurses far, if it is `deep`, on a large stack, and else on the
/// caller's own.
pub fn on_large_stack_if<T: Send>(deep: bool, work: impl FnOnce() -> T + Send) -> T {
    if deep { on_large_stack(work) } else { work() }
}

/// Runs something that may recurse far on a stack that is large enough for
/// every input the format admits.
pub fn on_large_stack<T: Send>(work: impl FnOnce() -> T + Send) -> T {
    std::thread::scope(|scope| {
        let builder = std::thread::Builder::new().stack_size(256 << 20);
        let thread = builder.spawn_scoped(scope, work).expect("a thread can be started");
        match thread.join() {
            Ok(answer) => answer,
            Err(panic) => std::panic::resume_unwind(panic),
        }
    })
}
