//! Answers requests. A request is a line, and so is its answer.
//!
//! `enter HOST FLAG PAGE` reads one expression that is the whole page, `front HOST FLAG PAGE` one
//! that the page begins with. HOST is `statement`, `name:PAGE` or `fence:PARTS:HOST`; FLAG is
//! `yes` or `no`: whether struct literals are allowed; PAGE is in hex, `-` for the empty one.

use crate::buffer::Run;
use crate::error::{Error, Result};
use crate::expr::Expr;
use crate::hosts::{Fence, Host, NameHost, StatementHost};
use crate::page;
use crate::parse::{Parse, ParseBuffer};
use crate::tree::{self, Node};
use alloc::boxed::Box;
use alloc::string::String;
use alloc::vec::Vec;
use core::fmt::Write;

/// What is asked of the crate.
pub struct Request {
    /// Whether the expression must be the whole page.
    pub whole: bool,
    pub host: Box<dyn Host>,
    /// Whether struct literals are allowed.
    pub allow_struct: bool,
    pub page: Vec<u8>,
}

/// What the crate says.
pub enum Answer {
    BadPage,
    /// Refused: what the crate complains of.
    No(Error),
    /// The tokens that were used, and the nodes.
    Ok(usize, Vec<Node>),
}

impl Request {
    /// The request that a line is, or what is wrong with it.
    pub fn of(line: &str) -> core::result::Result<Self, &'static str> {
        let words: Vec<&str> = line.split(' ').collect();
        let [call, host, flag, page] = words[..] else {
            return Err("line");
        };
        Ok(Request {
            whole: match call {
                "enter" => true,
                "front" => false,
                _ => return Err("call"),
            },
            host: host_of(host)?,
            allow_struct: match flag {
                "yes" => true,
                "no" => false,
                _ => return Err("flag"),
            },
            page: bytes_of(page).ok_or("hex")?,
        })
    }

    /// Reads the page by the crate's functions.
    pub fn answer(&self) -> Answer {
        self.answer_by(self.whole)
    }

    /// The same as far as it goes, whatever is left over on the page.
    pub fn answer_front(&self) -> Answer {
        self.answer_by(false)
    }

    /// Reads tokens by the crate's functions, and answers how many are used, if they are accepted.
    pub fn parse(&self, tokens: &[page::Token]) -> Option<usize> {
        let host = &*self.host;
        let read = self.read(&Run { tokens, host }, self.whole);
        read.ok().map(|(used, _)| used)
    }

    fn answer_by(&self, whole: bool) -> Answer {
        let Some(tokens) = page::tokens(&self.page) else {
            return Answer::BadPage;
        };
        let run = Run {
            tokens: &tokens,
            host: &*self.host,
        };
        match self.read(&run, whole) {
            Ok((used, expr)) => Answer::Ok(used, tree::nodes(&expr)),
            Err(error) => Answer::No(error),
        }
    }

    fn read(&self, run: &Run, whole: bool) -> Result<(usize, Expr)> {
        let input = ParseBuffer::new(run);
        let expr = if self.allow_struct {
            input.parse::<Expr>()
        } else {
            Expr::parse_without_eager_brace(&input)
        };
        let expr = expr.map_err(|error| Error {
            left_over: input.left_over(),
            ..error
        })?;
        input.check_unexpected()?;
        if whole && !input.is_empty() {
            return Err(input.error("unexpected token"));
        }
        Ok((input.cursor().place(), expr))
    }
}

/// The host that a word names.
fn host_of(word: &str) -> core::result::Result<Box<dyn Host>, &'static str> {
    if word == "statement" {
        return Ok(Box::new(StatementHost));
    }
    if let Some(columns) = word.strip_prefix("name:") {
        return Ok(Box::new(NameHost::new(&bytes_of(columns).ok_or("hex")?)));
    }
    let rest = word.strip_prefix("fence:").ok_or("host")?;
    let (parts, below) = rest.split_once(':').ok_or("host")?;
    let allowed = match parts {
        "-" => Vec::new(),
        _ => parts
            .split(',')
            .map(|part| {
                part.parse()
                    .ok()
                    .filter(|part| (1..=6).contains(part))
                    .ok_or("part")
            })
            .collect::<core::result::Result<_, _>>()?,
    };
    Ok(Box::new(Fence {
        allowed,
        below: host_of(below)?,
    }))
}

/// The bytes that are written in hex.
pub fn bytes_of(hex: &str) -> Option<Vec<u8>> {
    if hex == "-" {
        return Some(Vec::new());
    }
    let digit = |byte: u8| char::from(byte).to_digit(16).map(|digit| digit as u8);
    if hex.is_empty() || !hex.len().is_multiple_of(2) {
        return None;
    }
    hex.as_bytes()
        .chunks(2)
        .map(|pair| Some(digit(pair[0])? * 16 + digit(pair[1])?))
        .collect()
}

/// Bytes in hex.
pub fn hex_of(bytes: &[u8]) -> String {
    const DIGITS: &[u8; 16] = b"0123456789ABCDEF";
    if bytes.is_empty() {
        return String::from("-");
    }
    let mut hex = String::with_capacity(2 * bytes.len());
    for byte in bytes {
        hex.push(char::from(DIGITS[usize::from(byte >> 4)]));
        hex.push(char::from(DIGITS[usize::from(byte & 15)]));
    }
    hex
}

/// Writes the answer to a line at the end of `out`.
pub fn answer_line(line: &str, why: bool, out: &mut String) {
    match Request::of(line) {
        Ok(request) => write_answer(&request.answer(), why, out),
        Err(word) => {
            out.push_str("bad ");
            out.push_str(word);
        }
    }
}

/// Writes an answer at the end of `out`. With `why`, a refusal tells the crate's complaint.
pub fn write_answer(answer: &Answer, why: bool, out: &mut String) {
    match answer {
        Answer::BadPage => out.push_str("bad page"),
        Answer::No(error) if why => {
            let _ = write!(out, "no at {}: {}", error.span.from, error.message);
        }
        Answer::No(_) => out.push_str("no"),
        Answer::Ok(used, nodes) => {
            let _ = write!(out, "ok {used} ");
            for (number, node) in nodes.iter().enumerate() {
                if number > 0 {
                    out.push(';');
                }
                write_node(out, node);
            }
        }
    }
}

/// Writes a node: `kind,op,from,to,first,next`.
pub fn write_node(out: &mut String, node: &Node) {
    let _ = write!(out, "{},{},{},{},", node.kind, node.op, node.from, node.to);
    write_link(out, node.first);
    out.push(',');
    write_link(out, node.next);
}

fn write_link(out: &mut String, link: Option<usize>) {
    match link {
        Some(number) => {
            let _ = write!(out, "{number}");
        }
        None => out.push('-'),
    }
}
