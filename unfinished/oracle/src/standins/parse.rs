//! Stands in for the crate's streams: what `input` is in its functions.

use crate::buffer::{Cursor, Run};
use crate::error::Error;
pub use crate::error::Result;
use crate::hosts::{Denial, Part};
use crate::lookahead::{Lookahead1, Peek};
use crate::page::Token as PageToken;
use crate::punctuated::Punctuated;
use crate::token::{CustomToken, Token};
use alloc::boxed::Box;
use alloc::format;
use alloc::rc::Rc;
use alloc::vec::Vec;
use core::cell::Cell;
use core::fmt::Display;
use proc_macro2::Span;

pub trait Parse: Sized {
    fn parse(input: ParseStream) -> Result<Self>;
}

impl<T: Parse> Parse for Box<T> {
    fn parse(input: ParseStream) -> Result<Self> {
        input.parse().map(Box::new)
    }
}

impl<T: Parse + Token> Parse for Option<T> {
    fn parse(input: ParseStream) -> Result<Self> {
        if T::peek(input.cursor()) {
            input.parse().map(Some)
        } else {
            Ok(None)
        }
    }
}

pub type ParseStream<'a> = &'a ParseBuffer<'a>;

/// A level that is being read.
pub struct ParseBuffer<'a> {
    run: &'a Run<'a>,
    place: Cell<usize>,
    end: usize,
    /// Where this is the content of a group: the place of its opener, and the end of the level
    /// around it.
    group: Option<(usize, usize)>,
    unexpected: Rc<Cell<Unexpected>>,
}

/// The place of the first token that was left over in a group. A stream shares this with the
/// streams of the groups in it.
#[derive(Copy, Clone, PartialEq, Eq)]
pub enum Unexpected {
    None,
    Some(usize),
}

/// A level that is let go before its end was reached has leftovers.
impl Drop for ParseBuffer<'_> {
    fn drop(&mut self) {
        if !self.is_empty() && self.unexpected.get() == Unexpected::None {
            self.unexpected.set(Unexpected::Some(self.place.get()));
        }
    }
}

pub(crate) fn new_parse_buffer(
    _scope: Span,
    cursor: Cursor,
    unexpected: Rc<Cell<Unexpected>>,
) -> ParseBuffer {
    ParseBuffer {
        run: cursor.run(),
        place: Cell::new(cursor.place()),
        end: cursor.end(),
        group: None,
        unexpected,
    }
}

impl<'a> ParseBuffer<'a> {
    /// The whole page.
    pub fn new(run: &'a Run<'a>) -> Self {
        let cursor = Cursor::new(run, 0, run.tokens.len());
        new_parse_buffer(
            Span::call_site(),
            cursor,
            Rc::new(Cell::new(Unexpected::None)),
        )
    }

    /// The place of the first token that was left over in a group.
    pub fn left_over(&self) -> Option<usize> {
        match self.unexpected.get() {
            Unexpected::None => None,
            Unexpected::Some(place) => Some(place),
        }
    }

    /// Refuses where a group was left before its end.
    pub fn check_unexpected(&self) -> Result<()> {
        match self.unexpected.get() {
            Unexpected::None => Ok(()),
            Unexpected::Some(place) => {
                let span = Span {
                    from: place,
                    to: place + 1,
                };
                Err(Error::new(span, "unexpected token in a group"))
            }
        }
    }

    pub fn cursor(&self) -> Cursor<'a> {
        Cursor::new(self.run, self.place.get(), self.end)
    }

    pub fn span(&self) -> Span {
        self.cursor().span()
    }

    pub fn is_empty(&self) -> bool {
        self.cursor().eof()
    }

    pub fn error<T: Display>(&self, message: T) -> Error {
        self.cursor().error(message)
    }

    pub fn parse<T: Parse>(&self) -> Result<T> {
        T::parse(self)
    }

    pub fn call<T>(&'a self, function: fn(ParseStream<'a>) -> Result<T>) -> Result<T> {
        function(self)
    }

    pub fn parse_terminated<T, P>(
        &'a self,
        parser: fn(ParseStream<'a>) -> Result<T>,
        _separator: P,
    ) -> Result<Punctuated<T, P::Token>>
    where
        P: Peek,
        P::Token: Parse,
    {
        Punctuated::parse_terminated_with(self, parser)
    }

    pub fn peek<T: Peek>(&self, _token: T) -> bool {
        T::Token::peek(self.cursor())
    }

    pub fn peek2<T: Peek>(&self, _token: T) -> bool {
        self.cursor().skip().is_some_and(T::Token::peek)
    }

    pub fn peek3<T: Peek>(&self, _token: T) -> bool {
        self.cursor()
            .skip()
            .and_then(Cursor::skip)
            .is_some_and(T::Token::peek)
    }

    pub fn lookahead1(&self) -> Lookahead1<'a> {
        Lookahead1::new(self.cursor())
    }

    /// A stream that goes on from here by itself. What it leaves over is nobody's business.
    pub fn fork(&self) -> Self {
        ParseBuffer {
            run: self.run,
            place: self.place.clone(),
            end: self.end,
            group: self.group,
            unexpected: Rc::new(Cell::new(Unexpected::None)),
        }
    }

    pub fn step<F, R>(&self, function: F) -> Result<R>
    where
        F: FnOnce(&Cursor<'a>) -> Result<(R, Cursor<'a>)>,
    {
        let (answer, rest) = function(&self.cursor())?;
        self.place.set(rest.place());
        Ok(answer)
    }

    /// Asks the host for a part at this place, and moves on past it.
    pub fn ask(&self, part: Part) -> Result<Span> {
        let from = self.place.get();
        let length = self.ask_at(part, from, self.end)?;
        self.place.set(from + length);
        Ok(Span {
            from,
            to: from + length,
        })
    }

    /// Asks the host for a part at the opener of the group that this is the content of, and
    /// moves on to the group's end.
    pub fn ask_for_group(&self, part: Part) -> Result<()> {
        let (opener, around) = self.group.expect("the content of a group");
        let length = self.ask_at(part, opener, around)?;
        assert_eq!(
            opener + length,
            self.end + 1,
            "a host that takes another part than the group"
        );
        self.place.set(self.end);
        Ok(())
    }

    fn ask_at(&self, part: Part, from: usize, end: usize) -> Result<usize> {
        let level = &self.run.tokens[from..end];
        match self.run.host.read(part, level) {
            Ok(length) => {
                assert!(
                    1 <= length && length <= level.len(),
                    "a host that keeps no meaning"
                );
                Ok(length)
            }
            Err(Denial { host, code }) => {
                let span = Span { from, to: from };
                let message = format!("host {host} refused part {part} with code {code}");
                Err(Error {
                    denial: Some([host, part, code]),
                    ..Error::new(span, message)
                })
            }
        }
    }
}

pub mod discouraged {
    use super::{ParseBuffer, Unexpected};

    pub trait Speculative {
        /// Moves on to where a fork has come.
        fn advance_to(&self, fork: &Self);
    }

    impl Speculative for ParseBuffer<'_> {
        fn advance_to(&self, fork: &Self) {
            if self.unexpected.get() == Unexpected::None {
                self.unexpected.set(fork.unexpected.get());
            }
            self.place.set(fork.place.get());
        }
    }
}

/// Stands for the end of a level in a peek.
#[derive(Copy, Clone)]
pub struct End;

impl Peek for End {
    type Token = Self;
}

impl CustomToken for End {
    fn peek(cursor: Cursor) -> bool {
        cursor.eof()
    }

    fn display() -> &'static str {
        "end"
    }
}

/// Parses a text by itself. The crate's text does so with the halves of a float, so that a minus
/// and digits are all that is understood.
pub fn parse_str<T: Parse>(text: &str) -> Result<T> {
    let (minus, digits) = match text.strip_prefix('-') {
        Some(digits) => (true, digits),
        None => (false, text),
    };
    let mut tokens = Vec::new();
    if minus {
        tokens.push(PageToken::mark(b'-', true));
    }
    tokens.push(PageToken::integer(digits));
    let run = Run {
        tokens: &tokens,
        host: &crate::hosts::NoHost,
    };
    let input = ParseBuffer::new(&run);
    let answer = input.parse()?;
    if input.is_empty() {
        Ok(answer)
    } else {
        Err(input.error("unexpected token"))
    }
}

pub mod group {
    use super::{new_parse_buffer, ParseBuffer};
    use crate::error::Result;
    use crate::token;
    use alloc::rc::Rc;
    use proc_macro2::extra::DelimSpan;
    use proc_macro2::Delimiter;

    /// Takes a group: where it stands, and a stream of what stands in it.
    pub fn parse_delimited<'a>(
        input: &ParseBuffer<'a>,
        delimiter: Delimiter,
    ) -> Result<(DelimSpan, ParseBuffer<'a>)> {
        let opener = input.cursor();
        match opener.group(delimiter) {
            Some((inside, span, rest)) => {
                let unexpected = Rc::clone(&input.unexpected);
                let mut content = new_parse_buffer(span.join(), inside, unexpected);
                content.group = Some((opener.place(), input.end));
                input.place.set(rest.place());
                Ok((span, content))
            }
            None => Err(input.error("expected a group")),
        }
    }

    /// An invisible group: no page has one.
    pub struct InvisibleGroup<'a> {
        pub token: token::Group,
        pub content: ParseBuffer<'a>,
    }

    pub fn parse_group<'a>(input: &ParseBuffer<'a>) -> Result<InvisibleGroup<'a>> {
        Err(input.error("no page has an invisible group"))
    }
}

pub mod lookahead {
    use crate::buffer::Cursor;
    use crate::error::Error;
    use crate::token::Token;
    use alloc::format;
    use core::cell::Cell;

    /// What may be peeked at: the name of a token's type, which is also a function.
    pub trait Peek {
        type Token: Token;
    }

    impl<F, T> Peek for F
    where
        F: Copy + FnOnce(TokenMarker) -> T,
        T: Token,
    {
        type Token = T;
    }

    /// The argument with which that function is never called.
    pub enum TokenMarker {}

    /// A peek that remembers what was looked for in vain.
    pub struct Lookahead1<'a> {
        cursor: Cursor<'a>,
        wanted: Cell<&'static str>,
    }

    impl<'a> Lookahead1<'a> {
        pub(crate) fn new(cursor: Cursor<'a>) -> Self {
            Lookahead1 {
                cursor,
                wanted: Cell::new(""),
            }
        }

        pub fn peek<T: Peek>(&self, _token: T) -> bool {
            let found = T::Token::peek(self.cursor);
            if !found {
                self.wanted.set(T::Token::display());
            }
            found
        }

        pub fn error(self) -> Error {
            self.cursor.error(format!("expected {}", self.wanted.get()))
        }
    }
}

pub mod span {
    use crate::lookahead::TokenMarker;
    use proc_macro2::extra::DelimSpan;
    use proc_macro2::Span;

    /// What a token's spans may be made of.
    pub trait IntoSpans<S> {
        fn into_spans(self) -> S;
    }

    impl<S> IntoSpans<S> for TokenMarker {
        fn into_spans(self) -> S {
            match self {}
        }
    }

    impl IntoSpans<Span> for Span {
        fn into_spans(self) -> Span {
            self
        }
    }

    impl<const N: usize> IntoSpans<[Span; N]> for Span {
        fn into_spans(self) -> [Span; N] {
            [self; N]
        }
    }

    impl<const N: usize> IntoSpans<[Span; N]> for [Span; N] {
        fn into_spans(self) -> [Span; N] {
            self
        }
    }

    impl IntoSpans<DelimSpan> for Span {
        fn into_spans(self) -> DelimSpan {
            DelimSpan {
                open: self,
                close: self,
            }
        }
    }

    impl IntoSpans<DelimSpan> for DelimSpan {
        fn into_spans(self) -> DelimSpan {
            self
        }
    }
}
