//! Hosts: who reads paths, types, patterns, blocks, keyword expressions and arguments.

use crate::page::{is_keyword, leading_names, Kind, Token};
use alloc::boxed::Box;
use alloc::string::String;
use alloc::vec::Vec;
use proc_macro2::Delimiter;

pub type Part = u8;

pub const PATH: Part = 1;
pub const TYPE: Part = 2;
pub const PATTERN: Part = 3;
pub const BLOCK: Part = 4;
pub const KEYWORD_EXPRESSION: Part = 5;
pub const ARGUMENTS: Part = 6;

/// A refusal: the number of the host that gave it, and its code.
#[derive(Copy, Clone, PartialEq, Eq, Debug)]
pub struct Denial {
    pub host: u8,
    pub code: u8,
}

pub trait Host {
    /// How many tokens the part has that stands at the start of `level`.
    fn read(&self, part: Part, level: &[Token]) -> Result<usize, Denial>;
}

/// Takes a path that is one of its names, and the types `cents` and `days`.
pub struct NameHost {
    names: Vec<String>,
}

impl NameHost {
    /// The names are read from a page, up to its first field that is no lawful name.
    pub fn new(page: &[u8]) -> Self {
        NameHost {
            names: leading_names(page).into_iter().map(String::from).collect(),
        }
    }
}

impl Host for NameHost {
    fn read(&self, part: Part, level: &[Token]) -> Result<usize, Denial> {
        let name = level.first().and_then(Token::name);
        let (takes, code) = match part {
            PATH => (
                name.is_some_and(|name| self.names.iter().any(|known| known == name)),
                1,
            ),
            TYPE => (matches!(name, Some("cents" | "days")), 2),
            _ => (false, 2),
        };
        if takes {
            Ok(1)
        } else {
            Err(Denial { host: 1, code })
        }
    }
}

/// Takes the longest run that a small part of Rust's grammar allows.
pub struct StatementHost;

impl Host for StatementHost {
    fn read(&self, part: Part, level: &[Token]) -> Result<usize, Denial> {
        let run = match part {
            PATH => path(level),
            TYPE => type_name(level),
            PATTERN => pattern(level),
            BLOCK => group(level, Delimiter::Brace),
            KEYWORD_EXPRESSION => keyword_expression(level),
            ARGUMENTS => arguments(level),
            _ => None,
        };
        run.ok_or(Denial { host: 2, code: 3 })
    }
}

/// Whether `::` stands at `at`.
fn double_colon(level: &[Token], at: usize) -> bool {
    level
        .get(at)
        .is_some_and(|token| token.is_joined_mark(b':'))
        && level.get(at + 1).is_some_and(|token| token.is_mark(b':'))
}

/// Whether a segment of a path stands at `at`.
fn segment(level: &[Token], at: usize) -> bool {
    match level.get(at).and_then(Token::name) {
        Some("self" | "Self" | "super" | "crate") => true,
        Some(name) => !is_keyword(name),
        None => false,
    }
}

/// Perhaps `::`, then segments with `::` between them.
fn path(level: &[Token]) -> Option<usize> {
    let mut at = if double_colon(level, 0) { 2 } else { 0 };
    if !segment(level, at) {
        return None;
    }
    at += 1;
    while double_colon(level, at) && segment(level, at + 2) {
        at += 3;
    }
    Some(at)
}

/// Any number of `&`, each perhaps with `mut`, then a path.
fn type_name(level: &[Token]) -> Option<usize> {
    let mut at = 0;
    while level.get(at).is_some_and(|token| token.is_mark(b'&')) {
        at += 1;
        if level.get(at).and_then(Token::name) == Some("mut") {
            at += 1;
        }
    }
    path(&level[at..]).map(|length| at + length)
}

/// `_`, a literal, or a path and at most one `(` group.
fn pattern(level: &[Token]) -> Option<usize> {
    let first = level.first()?;
    if matches!(first.name(), Some("_" | "true" | "false"))
        || matches!(first.kind, Kind::Integer | Kind::Float | Kind::Literal)
    {
        return Some(1);
    }
    let length = path(level)?;
    let fields = group(&level[length..], Delimiter::Parenthesis);
    Some(length + fields.unwrap_or(0))
}

/// A group.
fn group(level: &[Token], wanted: Delimiter) -> Option<usize> {
    match level.first()?.kind {
        Kind::Opener { delimiter, length } if delimiter == wanted => Some(length),
        _ => None,
    }
}

/// One of five keywords and a `{` group.
fn keyword_expression(level: &[Token]) -> Option<usize> {
    match level.first()?.name()? {
        "loop" | "unsafe" | "const" | "async" | "try" => {
            group(&level[1..], Delimiter::Brace).map(|length| 1 + length)
        }
        _ => None,
    }
}

/// `::`, `<`, a type, `>`.
fn arguments(level: &[Token]) -> Option<usize> {
    if !double_colon(level, 0) || !level.get(2)?.is_mark(b'<') {
        return None;
    }
    let end = 3 + type_name(&level[3..])?;
    level.get(end)?.is_mark(b'>').then_some(end + 1)
}

/// Stands over another host and lets only some parts through.
pub struct Fence {
    pub allowed: Vec<Part>,
    pub below: Box<dyn Host>,
}

impl Host for Fence {
    fn read(&self, part: Part, level: &[Token]) -> Result<usize, Denial> {
        if self.allowed.contains(&part) {
            self.below.read(part, level)
        } else {
            Err(Denial { host: 3, code: 5 })
        }
    }
}

/// Refuses all. No request names it: it stands where a host is wanted and never asked.
pub struct NoHost;

impl Host for NoHost {
    fn read(&self, _part: Part, _level: &[Token]) -> Result<usize, Denial> {
        Err(Denial {
            host: 255,
            code: 255,
        })
    }
}
