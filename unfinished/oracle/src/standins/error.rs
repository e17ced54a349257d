//! Stands in for the crate's errors: where, and what was expected.

use crate::buffer::Cursor;
use alloc::string::{String, ToString};
use core::fmt::{self, Display};
use core::ops::Range;
use proc_macro2::Span;

pub type Result<T> = core::result::Result<T, Error>;

#[derive(Debug)]
pub struct Error {
    pub span: Span,
    pub message: String,
    /// Where a host refused: its number, the part and its code.
    pub denial: Option<[u8; 3]>,
    /// The place of the first token that was left over in a group, where one had been let go.
    pub left_over: Option<usize>,
}

impl Error {
    pub fn new<T: Display>(span: Span, message: T) -> Self {
        Error {
            span,
            message: message.to_string(),
            denial: None,
            left_over: None,
        }
    }

    pub(crate) fn new_range<T: Display>(range: Range<Cursor>, message: T) -> Self {
        let span = Span {
            from: range.start.place(),
            to: range.end.place(),
        };
        Error::new(span, message)
    }
}

impl Display for Error {
    fn fmt(&self, formatter: &mut fmt::Formatter) -> fmt::Result {
        self.message.fmt(formatter)
    }
}

pub(crate) fn new2<T: Display>(start: Span, end: Span, message: T) -> Error {
    Error::new(
        Span {
            from: start.from,
            to: end.to,
        },
        message,
    )
}
