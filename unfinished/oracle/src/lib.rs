//! The expression parser of the crate syn, as given, over a stand-in cursor and stand-in hosts.
//!
//! - `given` holds the crate's own text.
//! - `standins` stands in for the files of the crate, and of the crate below it, that it leans on.
//! - `page` and `hosts` are written from the rules of the port: what a page is, what hosts read.
//! - `tree` turns the crate's syntax tree into numbered nodes.
//! - `requests` answers a line, `generators` make lines, `typed` makes a page of typed text, `judge`
//!   holds the port's answers against the crate's, `expect` tells what they must be,
//!   and `sheet` tells it of the calls of a sheet.

// The crate's text is taken as it is, also where only a part of it is used.
#![allow(dead_code, unused_imports, unused_macros, non_snake_case)]

extern crate alloc;

// The crate below names its tokens `proc_macro2::Span` and so on: here they are our own.
extern crate self as proc_macro2;

#[macro_use]
mod macros;
#[macro_use]
mod given;
mod standins;

pub mod expect;
pub mod generators;
pub mod hosts;
pub mod judge;
pub mod page;
pub mod requests;
pub mod sheet;
pub mod tree;
pub mod typed;

#[cfg(test)]
mod tests;

// The crate's text finds these names at the root.
use given::{expr, lifetime, lit, op, precedence, stmt, token};
use standins::error::{Error, Result};
use standins::parse::parse_str;
use standins::parts::{attr, generics, mac, pat, path, ty, verbatim};
use standins::tokens::{
    extra, Delimiter, Group, Ident, Literal, Punct, Spacing, Span, TokenStream, TokenTree,
};
use standins::{bigint, buffer, error, ext, group, ident, lookahead, parse, punctuated, span};
