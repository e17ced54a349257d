//! Stands in for what the crate's text leans on and is not taken from it: its cursor, its
//! streams, its errors, and the tokens of the crate below it. Written anew for a page.

pub mod bigint;
pub mod buffer;
pub mod error;
pub mod parse;
pub mod parts;
pub mod punctuated;
pub mod tokens;

pub use parse::{group, lookahead, span};
pub use tokens::{ext, ident};
