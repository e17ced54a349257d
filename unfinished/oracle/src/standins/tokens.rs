//! Stands in for the tokens of the crate proc_macro2. A span is a run of places on the page.

use alloc::rc::Rc;
use alloc::string::{String, ToString};
use core::cmp::Ordering;
use core::fmt::{self, Display};
use core::hash::{Hash, Hasher};
use core::ops::Range;
use core::str::FromStr;

/// Where something stands: the place of its first token, and one past its last.
#[derive(Copy, Clone, Debug, PartialEq, Eq)]
pub struct Span {
    pub from: usize,
    pub to: usize,
}

impl Span {
    /// The span of what stands nowhere on the page.
    pub fn call_site() -> Self {
        Span { from: 0, to: 0 }
    }

    /// From the start of one to the end of the other.
    pub fn join(&self, other: Span) -> Option<Span> {
        Some(Span {
            from: self.from,
            to: other.to,
        })
    }
}

pub mod extra {
    use super::Span;

    /// Where a group stands.
    #[derive(Copy, Clone)]
    pub struct DelimSpan {
        pub open: Span,
        pub close: Span,
    }

    impl DelimSpan {
        pub fn join(&self) -> Span {
            Span {
                from: self.open.from,
                to: self.close.to,
            }
        }
    }
}

#[derive(Copy, Clone, PartialEq, Eq, Debug)]
pub enum Delimiter {
    Parenthesis,
    Brace,
    Bracket,
    /// An invisible group. No page has one.
    None,
}

#[derive(Copy, Clone, PartialEq, Eq)]
pub enum Spacing {
    Alone,
    Joint,
}

/// A mark.
#[derive(Copy, Clone)]
pub struct Punct {
    pub(crate) mark: u8,
    pub(crate) joined: bool,
    pub(crate) span: Span,
}

impl Punct {
    pub fn as_char(&self) -> char {
        char::from(self.mark)
    }

    pub fn spacing(&self) -> Spacing {
        if self.joined {
            Spacing::Joint
        } else {
            Spacing::Alone
        }
    }

    pub fn span(&self) -> Span {
        self.span
    }
}

/// A name, a keyword, or the name of a lifetime.
#[derive(Clone)]
pub struct Ident {
    text: Rc<str>,
    span: Span,
}

impl Ident {
    pub fn new(text: &str, span: Span) -> Self {
        Ident {
            text: Rc::from(text),
            span,
        }
    }

    pub fn new_raw(text: &str, span: Span) -> Self {
        Ident::new(text, span)
    }

    pub(crate) fn shared(text: &Rc<str>, span: Span) -> Self {
        Ident {
            text: Rc::clone(text),
            span,
        }
    }

    pub fn span(&self) -> Span {
        self.span
    }

    pub fn set_span(&mut self, span: Span) {
        self.span = span;
    }
}

impl Display for Ident {
    fn fmt(&self, formatter: &mut fmt::Formatter) -> fmt::Result {
        self.text.fmt(formatter)
    }
}

impl<T: ?Sized + AsRef<str>> PartialEq<T> for Ident {
    fn eq(&self, other: &T) -> bool {
        *self.text == *other.as_ref()
    }
}

impl PartialEq for Ident {
    fn eq(&self, other: &Ident) -> bool {
        self.text == other.text
    }
}

impl Eq for Ident {}

impl PartialOrd for Ident {
    fn partial_cmp(&self, other: &Ident) -> Option<Ordering> {
        Some(self.cmp(other))
    }
}

impl Ord for Ident {
    fn cmp(&self, other: &Ident) -> Ordering {
        self.text.cmp(&other.text)
    }
}

impl Hash for Ident {
    fn hash<H: Hasher>(&self, state: &mut H) {
        self.text.hash(state);
    }
}

/// A literal. Its text is empty where the page's tag says no more than that it is some literal.
#[derive(Clone)]
pub struct Literal {
    text: Rc<str>,
    span: Span,
}

impl Literal {
    pub(crate) fn shared(text: &Rc<str>, span: Span) -> Self {
        Literal {
            text: Rc::clone(text),
            span,
        }
    }

    pub fn span(&self) -> Span {
        self.span
    }

    pub fn set_span(&mut self, span: Span) {
        self.span = span;
    }

    /// Where a part of the literal's text stands. A float is one token, and where it makes two
    /// members the second owns it: so the part that begins the text has an empty span, just
    /// before the token.
    pub fn subspan(&self, part: Range<usize>) -> Option<Span> {
        let to = if part.start == 0 {
            self.span.from
        } else {
            self.span.to
        };
        Some(Span {
            from: self.span.from,
            to,
        })
    }
}

impl Display for Literal {
    fn fmt(&self, formatter: &mut fmt::Formatter) -> fmt::Result {
        self.text.fmt(formatter)
    }
}

impl FromStr for Literal {
    type Err = fmt::Error;

    fn from_str(text: &str) -> Result<Self, fmt::Error> {
        Ok(Literal {
            text: Rc::from(text),
            span: Span::call_site(),
        })
    }
}

/// Tokens that nobody looks into: where they stand.
pub struct TokenStream {
    pub span: Span,
}

impl TokenStream {
    pub fn new() -> Self {
        TokenStream {
            span: Span::call_site(),
        }
    }
}

/// A token or a group. It is only ever asked whether there is one.
pub struct TokenTree;

/// A group. It is only ever asked whether there is one.
pub struct Group;

pub mod ident {
    pub use super::Ident;
    use crate::buffer::Cursor;
    use crate::error::Result;
    use crate::lookahead::TokenMarker;
    use crate::page::is_keyword;
    use crate::parse::{Parse, ParseStream};
    use crate::token::Token;
    use alloc::format;

    /// The name that stands for an identifier in a peek.
    pub fn Ident(marker: TokenMarker) -> Ident {
        match marker {}
    }

    impl Token for Ident {
        fn peek(cursor: Cursor) -> bool {
            cursor.name().is_some_and(|name| !is_keyword(name))
        }

        fn display() -> &'static str {
            "identifier"
        }
    }

    impl Parse for Ident {
        fn parse(input: ParseStream) -> Result<Self> {
            input.step(|cursor| match cursor.ident() {
                Some((ident, rest)) if <Ident as Token>::peek(*cursor) => Ok((ident, rest)),
                Some((ident, _)) => {
                    Err(cursor.error(format!("expected identifier, found keyword `{ident}`")))
                }
                None => Err(cursor.error("expected identifier")),
            })
        }
    }

    pub mod parsing {
        pub fn accept_as_ident(name: &str) -> bool {
            !crate::page::is_keyword(name)
        }
    }

    /// Whether a text is spelled like a name.
    pub fn xid_ok(text: &str) -> bool {
        crate::page::spells_name(text.as_bytes())
    }
}

pub mod ext {
    use super::Ident;
    use crate::buffer::Cursor;
    use crate::lookahead::Peek;
    use crate::token::CustomToken;

    /// Peeking at any name, be it a keyword or not.
    pub trait IdentExt {
        #[allow(non_upper_case_globals)]
        const peek_any: PeekAny = PeekAny;
    }

    impl IdentExt for Ident {}

    #[derive(Copy, Clone)]
    pub struct PeekAny;

    pub struct AnyIdent;

    impl Peek for PeekAny {
        type Token = AnyIdent;
    }

    impl CustomToken for AnyIdent {
        fn peek(cursor: Cursor) -> bool {
            cursor.name().is_some()
        }

        fn display() -> &'static str {
            "identifier"
        }
    }
}
