//! An implementation of the rules under docs/ in plain Rust, for comparison.
//!
//! It shares no text with the proved program. Each module follows one page:
//! `source`, `facts` and `fault` follow FORMAT.md, FACTS.md and REFUSALS.md;
//! `registers` REGISTERS.md; `round`, `rewrite` and `compile` ALLOCATION.md;
//! `rehearse` REHEARSAL.md; `lines` CASES.md. `draft` and `random` make files
//! for tests and for the program `generate`.

pub mod compile;
pub mod draft;
pub mod facts;
pub mod fault;
pub mod lines;
pub mod nodes;
pub mod random;
pub mod registers;
pub mod rehearse;
pub mod rewrite;
pub mod round;
pub mod source;
