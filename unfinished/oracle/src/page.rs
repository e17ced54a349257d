//! The page: a row of fields, each a tag, a length of two bytes (the high byte first) and a
//! value. A page that is no page has no tokens.

use alloc::rc::Rc;
use alloc::vec::Vec;
use proc_macro2::Delimiter;

/// A page has at most this many tokens.
pub const MOST_TOKENS: usize = 4096;

/// The characters of marks.
pub const MARKS: &[u8] = b"+-*/%^!&|=<>.,;:?#@$~";

pub struct Token {
    pub kind: Kind,
    /// How a name, a lifetime, an integer or a float is spelled; else empty.
    pub text: Rc<str>,
}

#[derive(Copy, Clone, PartialEq, Eq, Debug)]
pub enum Kind {
    Name,
    Mark {
        mark: u8,
        joined: bool,
    },
    Integer,
    Float,
    /// Any other literal.
    Literal,
    Lifetime,
    /// `length` is the number of tokens of the group, both delimiters counted.
    Opener {
        delimiter: Delimiter,
        length: usize,
    },
    Closer,
}

impl Token {
    pub(crate) fn mark(mark: u8, joined: bool) -> Self {
        Token {
            kind: Kind::Mark { mark, joined },
            text: Rc::from(""),
        }
    }

    pub(crate) fn integer(digits: &str) -> Self {
        Token {
            kind: Kind::Integer,
            text: Rc::from(digits),
        }
    }

    /// How this name is spelled, if it is one.
    pub fn name(&self) -> Option<&str> {
        match self.kind {
            Kind::Name => Some(&self.text),
            _ => None,
        }
    }

    /// Whether this is the mark `mark`, joined or not.
    pub fn is_mark(&self, wanted: u8) -> bool {
        matches!(self.kind, Kind::Mark { mark, .. } if mark == wanted)
    }

    /// Whether this is the mark `mark`, joined to the next.
    pub fn is_joined_mark(&self, wanted: u8) -> bool {
        self.kind
            == Kind::Mark {
                mark: wanted,
                joined: true,
            }
    }
}

macro_rules! keywords {
    ($($word:literal)*) => {
        /// The strict and reserved keywords of the Rust Reference, edition 2021, and `_`.
        pub const KEYWORDS: &[&str] = &[$($word),*];

        pub fn is_keyword(name: &str) -> bool {
            matches!(name, $($word)|*)
        }
    };
}

keywords! {
    "_" "abstract" "as" "async" "await" "become" "box" "break" "const" "continue" "crate" "do" "dyn"
    "else" "enum" "extern" "false" "final" "fn" "for" "if" "impl" "in" "let" "loop" "macro" "match"
    "mod" "move" "mut" "override" "priv" "pub" "ref" "return" "self" "Self" "static" "struct" "super"
    "trait" "true" "try" "type" "typeof" "unsafe" "unsized" "use" "virtual" "where" "while" "yield"
}

fn is_letter(byte: u8) -> bool {
    byte.is_ascii_alphabetic()
}

fn is_letter_or_line(byte: u8) -> bool {
    is_letter(byte) || byte == b'_'
}

/// Whether bytes are a letter or `_`, and then letters, digits or `_`.
pub fn spells_name(bytes: &[u8]) -> bool {
    match bytes {
        [first, rest @ ..] => {
            is_letter_or_line(*first)
                && rest
                    .iter()
                    .all(|b| is_letter_or_line(*b) || b.is_ascii_digit())
        }
        [] => false,
    }
}

/// Splits digits off the front.
fn digits(bytes: &[u8]) -> (&[u8], &[u8]) {
    let count = bytes
        .iter()
        .take_while(|byte| byte.is_ascii_digit())
        .count();
    bytes.split_at(count)
}

/// Digits, then perhaps a suffix, whose first letter is none of `b e E o x`.
fn spells_integer(bytes: &[u8]) -> bool {
    let (number, suffix) = digits(bytes);
    !number.is_empty()
        && match suffix {
            [] => true,
            [first, ..] => is_letter(*first) && !b"beEox".contains(first) && spells_name(suffix),
        }
}

/// Digits, `.`, then digits or none.
fn spells_float(bytes: &[u8]) -> bool {
    let (number, rest) = digits(bytes);
    !number.is_empty() && rest.first() == Some(&b'.') && digits(&rest[1..]).1.is_empty()
}

pub const NAME: u8 = 1;
pub const MARK: u8 = 2;
pub const INTEGER: u8 = 3;
pub const FLOAT: u8 = 4;
pub const LITERAL: u8 = 5;
pub const LIFETIME: u8 = 6;
pub const OPENER: u8 = 7;
pub const CLOSER: u8 = 8;

/// Whether a value is allowed under a tag.
fn lawful(tag: u8, value: &[u8]) -> bool {
    match tag {
        NAME | LIFETIME => value.len() <= 64 && spells_name(value),
        MARK => matches!(value, [mark, joined] if MARKS.contains(mark) && *joined <= 1),
        INTEGER => value.len() <= 20 && spells_integer(value),
        FLOAT => (2..=40).contains(&value.len()) && spells_float(value),
        LITERAL => (1..=1024).contains(&value.len()),
        OPENER => matches!(value, [b'(' | b'[' | b'{']),
        CLOSER => matches!(value, [b')' | b']' | b'}']),
        _ => false,
    }
}

/// The first field's tag and value, and what follows it; none where it is not lawful.
fn first_field(page: &[u8]) -> Option<(u8, &[u8], &[u8])> {
    let [tag, high, low, rest @ ..] = page else {
        return None;
    };
    let length = usize::from(u16::from_be_bytes([*high, *low]));
    let value = rest.get(..length)?;
    lawful(*tag, value).then(|| (*tag, value, &rest[length..]))
}

fn opened(byte: u8) -> (Delimiter, u8) {
    match byte {
        b'(' => (Delimiter::Parenthesis, b')'),
        b'[' => (Delimiter::Bracket, b']'),
        _ => (Delimiter::Brace, b'}'),
    }
}

/// The tokens of a page, or none where it is no page.
pub fn tokens(mut page: &[u8]) -> Option<Vec<Token>> {
    let nothing: Rc<str> = Rc::from("");
    let mut tokens: Vec<Token> = Vec::new();
    // The places of the openers that are not closed yet, with the closers that they want.
    let mut open: Vec<(usize, u8)> = Vec::new();
    while !page.is_empty() {
        let (tag, value, rest) = first_field(page)?;
        page = rest;
        let place = tokens.len();
        if place == MOST_TOKENS {
            return None;
        }
        let kind = match tag {
            NAME => Kind::Name,
            MARK => Kind::Mark {
                mark: value[0],
                joined: value[1] == 1,
            },
            INTEGER => Kind::Integer,
            FLOAT => Kind::Float,
            LITERAL => Kind::Literal,
            LIFETIME => Kind::Lifetime,
            OPENER => {
                let (delimiter, closer) = opened(value[0]);
                open.push((place, closer));
                Kind::Opener {
                    delimiter,
                    length: 0,
                }
            }
            _ => {
                let (opener, closer) = open.pop()?;
                if closer != value[0] {
                    return None;
                }
                if let Kind::Opener { length, .. } = &mut tokens[opener].kind {
                    *length = place - opener + 1;
                }
                Kind::Closer
            }
        };
        let text = match kind {
            Kind::Name | Kind::Integer | Kind::Float | Kind::Lifetime => {
                Rc::from(core::str::from_utf8(value).ok()?)
            }
            _ => Rc::clone(&nothing),
        };
        tokens.push(Token { kind, text });
    }
    open.is_empty().then_some(tokens)
}

/// The names on a page, up to its first field that is no lawful name.
pub fn leading_names(mut page: &[u8]) -> Vec<&str> {
    let mut names = Vec::new();
    while let Some((NAME, value, rest)) = first_field(page) {
        names.extend(core::str::from_utf8(value));
        page = rest;
    }
    names
}
