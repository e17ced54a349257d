//! The crate's own text. Where a line begins with `whole` or `verbatim`, the script `assemble.py`
//! puts in that file, or that item of it, unchanged.

#[macro_use]
pub mod token;
pub mod expr;
pub mod lifetime;
pub mod lit;
pub mod op;
pub mod precedence;
pub mod stmt;
