//! The import of N-Triples (document 02, Point 3): an independent implementation, and its comparison with the static library.
//!
//! - `reader`: the Point part by part. `compare`: one text put to two implementations.
//! - `cases`: texts with answers written by hand. `systematic`: all texts of some kinds. `texts`: random ones.
//! - `variants`: broken implementations, each of which the comparison must catch.
pub mod cases;
pub mod compare;
pub mod reader;
pub mod systematic;
pub mod texts;
pub mod variants;

use compare::Import;

/// The inputs of a test: the library must pass them all, and every broken variant must fail on one.
pub fn test_inputs() -> impl Iterator<Item = Import> {
    inputs(1, 100_000)
}

/// Random inputs alone, one in a thousand of them long.
pub fn random_inputs(seed: u64, count: usize) -> impl Iterator<Item = Import> {
    texts::long_imports(seed, count / 1000).chain(texts::imports(seed, count - count / 1000))
}

/// Every input of a run: as many random ones as asked for, and all of some kinds. Those that show most of what may be wrong come
/// first.
pub fn inputs(seed: u64, random: usize) -> impl Iterator<Item = Import> {
    let first = texts::imports(seed, random / 20);
    let rest = random_inputs(seed + 1, random - random / 20);
    cases::imports().chain(systematic::short()).chain(first).chain(systematic::long()).chain(rest)
}
