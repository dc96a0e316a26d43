//! An independent implementation of document 01 with Points 1 to 3 of document 02, and its comparison with the static library
//! and the program `factbox`.
//!
//! - `facts`, `lines`: terms, facts, answers; five-column fields.
//! - `parts`: document 01 part by part. `fewest`: f by three algorithms. `chosen`: which shortest derivation is printed.
//! - `calls`: the calls as C sees them. `library`: the static library and the program (feature `library`).
//! - `generate`, `systematic`, `gaps`: the inputs. `compare`: one input put to two implementations.
//! - `import`: the import of N-Triples (document 02, Point 3), with inputs, comparison and broken variants of its own.
//! - `shown`: what an input shows of refusal 12. `stored`: inputs whose outputs of before are stored.
//! - `variants`: broken implementations, each of which the comparison must catch. `cases`: document 01's own cases.
pub mod calls;
pub mod cases;
pub mod chosen;
pub mod compare;
pub mod facts;
pub mod fewest;
pub mod gaps;
pub mod generate;
pub mod import;
#[cfg(feature = "library")]
pub mod library;
pub mod lines;
pub mod parts;
pub mod shown;
pub mod stored;
pub mod systematic;
pub mod variants;
