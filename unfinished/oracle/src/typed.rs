//! Makes a page of typed text, for tests by hand and for the generators.

use crate::page::{CLOSER, FLOAT, INTEGER, LIFETIME, LITERAL, MARK, MARKS, NAME, OPENER};
use alloc::vec::Vec;

/// A field of a page.
#[derive(Clone, PartialEq, Eq, Debug)]
pub struct Field {
    pub tag: u8,
    pub value: Vec<u8>,
}

impl Field {
    pub fn new(tag: u8, value: &[u8]) -> Self {
        Field {
            tag,
            value: value.to_vec(),
        }
    }

    pub fn mark(mark: u8, joined: bool) -> Self {
        Field::new(MARK, &[mark, u8::from(joined)])
    }
}

/// The page of these fields.
pub fn page(fields: &[Field]) -> Vec<u8> {
    let mut page = Vec::new();
    for field in fields {
        page.push(field.tag);
        page.extend((field.value.len() as u16).to_be_bytes());
        page.extend(&field.value);
    }
    page
}

/// The fields that a text spells, or the place of the byte that begins none. A mark is joined
/// exactly if another mark follows it directly. Digits and a dot are a float unless `.`, a letter
/// or `_` follows.
pub fn fields(text: &str) -> Result<Vec<Field>, usize> {
    let bytes = text.as_bytes();
    let mut fields = Vec::new();
    let mut at = 0;
    while at < bytes.len() {
        let rest = &bytes[at..];
        let first = rest[0];
        if first.is_ascii_whitespace() {
            at += 1;
            continue;
        }
        let (tag, skipped, length) = match first {
            b'\'' => (LIFETIME, 1, word(&rest[1..])),
            b'"' => (LITERAL, 0, string(rest)),
            b'0'..=b'9' => number(rest),
            b'(' | b'[' | b'{' => (OPENER, 0, 1),
            b')' | b']' | b'}' => (CLOSER, 0, 1),
            _ if MARKS.contains(&first) => {
                let joined = rest.get(1).is_some_and(|next| MARKS.contains(next));
                fields.push(Field::mark(first, joined));
                at += 1;
                continue;
            }
            _ => (NAME, 0, word(rest)),
        };
        if length == 0 {
            return Err(at);
        }
        fields.push(Field::new(tag, &rest[skipped..skipped + length]));
        at += skipped + length;
    }
    Ok(fields)
}

fn is_word(byte: u8) -> bool {
    byte.is_ascii_alphanumeric() || byte == b'_'
}

/// The length of the name at the start.
fn word(bytes: &[u8]) -> usize {
    match bytes.first() {
        Some(first) if is_word(*first) && !first.is_ascii_digit() => run(bytes, is_word),
        _ => 0,
    }
}

/// The length of the string at the start, with its quotes.
fn string(bytes: &[u8]) -> usize {
    let mut at = 1;
    while at < bytes.len() {
        match bytes[at] {
            b'"' => return at + 1,
            b'\\' => at += 2,
            _ => at += 1,
        }
    }
    0
}

/// The tag and length of the number at the start.
fn number(bytes: &[u8]) -> (u8, usize, usize) {
    let whole = run(bytes, |byte| byte.is_ascii_digit());
    if bytes.get(whole) == Some(&b'.') {
        let fraction = &bytes[whole + 1..];
        if !fraction
            .first()
            .is_some_and(|next| *next == b'.' || is_word(*next) && !next.is_ascii_digit())
        {
            return (
                FLOAT,
                0,
                whole + 1 + run(fraction, |byte| byte.is_ascii_digit()),
            );
        }
    }
    (INTEGER, 0, run(bytes, is_word))
}

fn run(bytes: &[u8], belongs: impl Fn(u8) -> bool) -> usize {
    bytes.iter().take_while(|byte| belongs(**byte)).count()
}
