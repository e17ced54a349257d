//! Stands in for the crate's cursor: a place in a level of the page.

use crate::error::Error;
use crate::hosts::Host;
use crate::lifetime::Lifetime;
use crate::page::{Kind, Token};
use crate::token::parsing::peek_punct;
use core::fmt::Display;
use proc_macro2::extra::DelimSpan;
use proc_macro2::{Delimiter, Group, Ident, Literal, Punct, Span, TokenTree};

/// What is read: the tokens of a page, and the host that is asked for parts.
pub struct Run<'a> {
    pub tokens: &'a [Token],
    pub host: &'a dyn Host,
}

/// A place in a level. The level ends at `end`.
#[derive(Copy, Clone)]
pub struct Cursor<'a> {
    run: &'a Run<'a>,
    place: usize,
    end: usize,
}

impl PartialEq for Cursor<'_> {
    fn eq(&self, other: &Self) -> bool {
        self.place == other.place && self.end == other.end
    }
}

impl<'a> Cursor<'a> {
    pub fn new(run: &'a Run<'a>, place: usize, end: usize) -> Self {
        Cursor { run, place, end }
    }

    pub fn run(self) -> &'a Run<'a> {
        self.run
    }

    pub fn place(self) -> usize {
        self.place
    }

    pub fn end(self) -> usize {
        self.end
    }

    pub fn eof(self) -> bool {
        self.place == self.end
    }

    /// The token at this place.
    fn token(self) -> Option<&'a Token> {
        if self.eof() {
            None
        } else {
            Some(&self.run.tokens[self.place])
        }
    }

    /// The place that is `count` tokens further on.
    fn past(self, count: usize) -> Self {
        Cursor {
            place: self.place + count,
            ..self
        }
    }

    /// Where the token at this place stands; at the end of the level an empty span.
    pub fn span(self) -> Span {
        let to = if self.eof() {
            self.place
        } else {
            self.place + 1
        };
        Span {
            from: self.place,
            to,
        }
    }

    pub fn error<T: Display>(self, message: T) -> Error {
        Error::new(self.span(), message)
    }

    /// How the name at this place is spelled.
    pub fn name(self) -> Option<&'a str> {
        match self.token() {
            Some(Token {
                kind: Kind::Name,
                text,
                ..
            }) => Some(text),
            _ => None,
        }
    }

    pub fn ident(self) -> Option<(Ident, Cursor<'a>)> {
        match self.token() {
            Some(Token {
                kind: Kind::Name,
                text,
                ..
            }) => Some((Ident::shared(text, self.span()), self.past(1))),
            _ => None,
        }
    }

    pub fn punct(self) -> Option<(Punct, Cursor<'a>)> {
        match self.token()?.kind {
            Kind::Mark { mark, joined } => Some((
                Punct {
                    mark,
                    joined,
                    span: self.span(),
                },
                self.past(1),
            )),
            _ => None,
        }
    }

    pub fn literal(self) -> Option<(Literal, Cursor<'a>)> {
        match self.token() {
            Some(Token {
                kind: Kind::Integer | Kind::Float | Kind::Literal,
                text,
                ..
            }) => Some((Literal::shared(text, self.span()), self.past(1))),
            _ => None,
        }
    }

    pub fn lifetime(self) -> Option<(Lifetime, Cursor<'a>)> {
        match self.token() {
            Some(Token {
                kind: Kind::Lifetime,
                text,
                ..
            }) => {
                let lifetime = Lifetime {
                    apostrophe: self.span(),
                    ident: Ident::shared(text, self.span()),
                };
                Some((lifetime, self.past(1)))
            }
            _ => None,
        }
    }

    /// What stands in the group at this place, where the group stands, and the place behind it.
    pub fn group(self, wanted: Delimiter) -> Option<(Cursor<'a>, DelimSpan, Cursor<'a>)> {
        match self.token()?.kind {
            Kind::Opener { delimiter, length } if delimiter == wanted => {
                let close = self.past(length - 1);
                let inside = Cursor {
                    place: self.place + 1,
                    end: close.place,
                    ..self
                };
                let span = DelimSpan {
                    open: self.span(),
                    close: close.span(),
                };
                Some((inside, span, close.past(1)))
            }
            _ => None,
        }
    }

    pub fn any_group(self) -> Option<(Group, Cursor<'a>)> {
        match self.token()?.kind {
            Kind::Opener { length, .. } => Some((Group, self.past(length))),
            _ => None,
        }
    }

    pub fn token_tree(self) -> Option<(TokenTree, Cursor<'a>)> {
        Some((TokenTree, self.skip()?))
    }

    /// The place behind the token or group at this place.
    pub fn skip(self) -> Option<Cursor<'a>> {
        match self.token()?.kind {
            Kind::Opener { length, .. } => Some(self.past(length)),
            _ => Some(self.past(1)),
        }
    }

    pub fn peek_keyword(self, keyword: &str) -> bool {
        self.name() == Some(keyword)
    }

    /// Marks that are spelled so, all but the last joined: by the crate's own function.
    pub fn peek_punct(self, marks: &str) -> bool {
        peek_punct(self, marks)
    }
}
