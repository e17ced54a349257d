//! What the port must answer, wherever a run of the crate tells it.
//!
//! An accepted tree is told by the crate, and so are most refusals, by the crate's complaint. Where
//! the two are known to differ the port's rule decides, as far as it can be applied from here. Other
//! requests are left out: pages that are no pages, and refusals where the port may have met another
//! cause before the crate's.

use crate::hosts::KEYWORD_EXPRESSION;
use crate::judge::{complaint_of, first_break};
use crate::page::{self, Kind, Token};
use crate::requests::{write_answer, Answer, Request};
use crate::tree::Node;
use alloc::format;
use alloc::string::String;
use alloc::vec::Vec;

/// The keywords at which the port asks its host for an expression, whatever follows.
const ASKED: &[&str] = &[
    "async", "become", "const", "for", "loop", "match", "move", "static", "try", "unsafe", "yield",
];

/// What a page comes to.
pub enum Outcome {
    /// The tokens used, and the nodes.
    Rule(usize, Vec<Node>),
    /// Number, place, host, part and code.
    Refused([usize; 5]),
}

/// What the page of a request must come to, if the crate tells it.
pub fn outcome(request: &Request) -> Option<Outcome> {
    let tokens = page::tokens(&request.page)?;
    match request.answer_front() {
        Answer::BadPage => None,
        Answer::Ok(used, nodes) => Some(match first_break(&nodes) {
            Some(place) => Outcome::Refused([10, place, 0, 0, 0]),
            None if request.whole && used < tokens.len() => {
                Outcome::Refused([15, used, 0, 0, 0])
            }
            None => Outcome::Rule(used, nodes),
        }),
        Answer::No(error) => {
            let complaint = complaint_of(&error);
            let place = complaint[1];
            let left_before = error.left_over.is_some_and(|left| left < place);
            if left_before || range_before(&tokens, place) {
                return None;
            }
            Some(Outcome::Refused(by_our_rule(request, &tokens, complaint)))
        }
    }
}

/// The answer that a line without a sheet must get, if the crate tells it.
pub fn expected(line: &str) -> Option<String> {
    let request = match Request::of(line) {
        Ok(request) => request,
        Err(word) => return Some(["bad ", word].concat()),
    };
    Some(match outcome(&request)? {
        Outcome::Refused(numbers) => refusal(numbers),
        Outcome::Rule(used, nodes) => {
            let mut told = String::new();
            write_answer(&Answer::Ok(used, nodes), false, &mut told);
            told
        }
    })
}

/// The answer that tells a refusal.
pub fn refusal(numbers: [usize; 5]) -> String {
    let [number, place, host, part, code] = numbers;
    format!("no {number} {place} {host} {part} {code}")
}

/// Whether a range stands before a place: the port may have refused behind it.
fn range_before(tokens: &[Token], place: usize) -> bool {
    let dots = |pair: &[Token]| pair[0].is_joined_mark(b'.') && pair[1].is_mark(b'.');
    tokens[..place.min(tokens.len())].windows(2).any(dots)
}

/// What the port makes of a complaint: a label before a colon is refused at once, and a keyword
/// that the host reads is left to the host.
fn by_our_rule(request: &Request, tokens: &[Token], complaint: [usize; 5]) -> [usize; 5] {
    let [number, place, ..] = complaint;
    if number == 16 && label_before_colon(tokens, place) {
        return [14, place, 0, 0, 0];
    }
    let asked = |token: &Token| token.name().is_some_and(|name| ASKED.contains(&name));
    if number == 6 && tokens.get(place).is_some_and(asked) {
        if let Err(denial) = request.host.read(KEYWORD_EXPRESSION, &tokens[place..]) {
            let part = usize::from(KEYWORD_EXPRESSION);
            return [16, place, denial.host.into(), part, denial.code.into()];
        }
    }
    complaint
}

/// Whether the label of a `break` stands here, before `:` that is no `::`.
fn label_before_colon(tokens: &[Token], place: usize) -> bool {
    let label = tokens.get(place).is_some_and(|token| token.kind == Kind::Lifetime);
    let behind = &tokens[tokens.len().min(place + 1)..];
    let colon = match behind {
        [first, second, ..] if first.is_joined_mark(b':') => !second.is_mark(b':'),
        [first, ..] => first.is_mark(b':'),
        [] => false,
    };
    let broken = place > 0 && tokens[place - 1].name() == Some("break");
    label && colon && broken
}
