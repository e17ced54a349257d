//! Stands in for the crate's parsers of paths, types, patterns, arguments and macros. A path, a
//! type, a pattern or arguments are read by the host; where they stand is all that is kept.

pub mod attr {
    use crate::error::Result;
    use crate::parse::{ParseBuffer, ParseStream};
    use alloc::vec::Vec;

    /// An attribute. They are left out, so that none is ever made.
    pub enum Attribute {}

    impl Attribute {
        pub fn parse_outer(input: ParseStream) -> Result<Vec<Self>> {
            if input.peek(Token![#]) {
                parsing::single_parse_outer(input).map(|attribute| Vec::from([attribute]))
            } else {
                Ok(Vec::new())
            }
        }
    }

    pub mod parsing {
        use super::*;

        pub fn single_parse_outer(input: ParseStream) -> Result<Attribute> {
            Err(input.error("attributes are left out"))
        }

        /// Attributes at the start of a block are in the block, which the host reads.
        pub fn parse_inner(_input: &ParseBuffer, _attrs: &mut Vec<Attribute>) -> Result<()> {
            Ok(())
        }
    }
}

pub mod generics {
    pub mod parsing {
        use crate::parse::ParseStream;

        /// Whether `for` begins a closure and no loop. The host is asked for the same part
        /// either way.
        pub fn choose_generics_over_qpath_after_keyword(_input: ParseStream) -> bool {
            false
        }
    }
}

pub mod mac {
    use crate::error::Result;
    use crate::parse::ParseStream;
    use crate::path::Path;
    use proc_macro2::extra::DelimSpan;
    use proc_macro2::{Delimiter, TokenStream};

    pub struct Macro {
        pub path: Path,
        pub bang_token: Token![!],
        pub delimiter: DelimSpan,
        pub tokens: TokenStream,
    }

    /// Takes one group whole, of any delimiter.
    pub fn parse_delimiter(input: ParseStream) -> Result<(DelimSpan, TokenStream)> {
        input.step(|cursor| {
            for delimiter in [Delimiter::Parenthesis, Delimiter::Bracket, Delimiter::Brace] {
                if let Some((_, span, rest)) = cursor.group(delimiter) {
                    return Ok(((span, TokenStream { span: span.join() }), rest));
                }
            }
            Err(cursor.error("expected a group"))
        })
    }
}

pub mod pat {
    use crate::error::Result;
    use crate::hosts::PATTERN;
    use crate::parse::ParseStream;
    use proc_macro2::Span;

    pub struct Pat {
        pub span: Span,
    }

    impl Pat {
        pub fn parse_multi_with_leading_vert(input: ParseStream) -> Result<Self> {
            Ok(Pat {
                span: input.ask(PATTERN)?,
            })
        }
    }
}

pub mod path {
    use crate::error::Result;
    use crate::hosts::ARGUMENTS;
    use crate::parse::ParseStream;
    use crate::punctuated::Punctuated;
    use proc_macro2::{Ident, Span};

    /// A path. All that the host took is one segment.
    pub struct Path {
        pub leading_colon: Option<Token![::]>,
        pub segments: Punctuated<Span, Token![::]>,
    }

    impl Path {
        fn of(span: Span) -> Self {
            let mut segments = Punctuated::new();
            segments.push_value(span);
            Path {
                leading_colon: None,
                segments,
            }
        }

        pub fn is_mod_style(&self) -> bool {
            true
        }

        pub fn span(&self) -> Span {
            *self
                .segments
                .iter()
                .next()
                .expect("a path that the host took")
        }
    }

    impl From<Ident> for Path {
        fn from(name: Ident) -> Self {
            Path::of(name.span())
        }
    }

    /// The type before a path, as in `<T as Trait>::f`. The host takes the path whole, so that
    /// none is ever made.
    pub enum QSelf {}

    pub struct AngleBracketedGenericArguments {
        pub span: Span,
    }

    impl AngleBracketedGenericArguments {
        pub fn parse_turbofish(input: ParseStream) -> Result<Self> {
            Ok(AngleBracketedGenericArguments {
                span: input.ask(ARGUMENTS)?,
            })
        }
    }

    pub mod parsing {
        use super::*;
        use crate::hosts::PATH;

        pub fn qpath(input: ParseStream, _expr_style: bool) -> Result<(Option<QSelf>, Path)> {
            Ok((None, Path::of(input.ask(PATH)?)))
        }
    }
}

pub mod ty {
    use proc_macro2::Span;

    pub struct Type {
        pub span: Span,
    }

    pub enum PointerMutability {
        Const(Token![const]),
        Mut(Token![mut]),
    }

    pub mod parsing {
        use super::Type;
        use crate::error::Result;
        use crate::hosts::TYPE;
        use crate::parse::ParseStream;

        pub fn ambig_ty(
            input: ParseStream,
            _allow_plus: bool,
            _allow_group_generic: bool,
        ) -> Result<Type> {
            Ok(Type {
                span: input.ask(TYPE)?,
            })
        }
    }
}

pub mod verbatim {
    use crate::buffer::Cursor;
    use proc_macro2::{Span, TokenStream};

    /// The tokens from one place to another.
    pub fn between(begin: Cursor, end: Cursor) -> TokenStream {
        TokenStream {
            span: Span {
                from: begin.place(),
                to: end.place(),
            },
        }
    }
}
