//! Holds answers of the port against the crate's.
//!
//! The port answers `ok USED NODES`, as the oracle does, or `no NUMBER PLACE HOST PART CODE`. What
//! must agree: which pages are accepted, their nodes and the tokens used. One difference is known:
//! where a tree of the crate breaks the binding rule, the port refuses 10 at the operator that
//! does so.
//!
//! The crate's complaints have no numbers. Each is held to be the refusal that it comes nearest to,
//! and where both refuse, number and place are compared too. Some other causes are known there, all
//! of them met before the crate's.

use crate::error::Error;
use crate::requests::{write_answer, Answer, Request};
use crate::tree::{Node, ASSIGN, BINARY, CAST, RANGE};
use alloc::collections::BTreeMap;
use alloc::format;
use alloc::string::{String, ToString};
use alloc::vec::Vec;
use core::cmp::Ordering;
use core::fmt::{self, Display};

/// What was found so far.
#[derive(Default)]
pub struct Verdict {
    requests: u64,
    accepted: u64,
    refused: u64,
    same_cause: u64,
    bad_pages: u64,
    broken_rule: u64,
    /// Refused by both, but not for the same cause: what the two say, how often, and the first
    /// such request.
    other_cause: BTreeMap<String, (u64, String)>,
    /// How many of these are not known.
    pub unknown_causes: u64,
    pub disagreements: u64,
}

impl Verdict {
    /// Looks at a request and the port's answer to it. Where the two disagree, it tells how.
    pub fn add(&mut self, line: &str, theirs: &str) -> Option<String> {
        self.requests += 1;
        let ours = match Request::of(line) {
            Ok(request) => request.answer(),
            Err(word) => return self.disagree(line, theirs, &["bad ", word].concat()),
        };
        let mut told = String::new();
        write_answer(&ours, false, &mut told);
        let refusal = refusal_of(theirs);
        match (&ours, refusal) {
            (Answer::Ok(_, nodes), None) if told == theirs && first_break(nodes).is_none() => {
                self.accepted += 1;
            }
            (Answer::BadPage, Some([1..=4, ..])) => self.bad_pages += 1,
            (Answer::Ok(_, nodes), Some([10, place, ..])) if first_break(nodes) == Some(place) => {
                self.broken_rule += 1;
            }
            (Answer::No(error), Some(refusal)) => {
                self.refused += 1;
                self.compare_causes(line, error, refusal);
            }
            _ => return self.disagree(line, theirs, &told),
        }
        None
    }

    fn disagree(&mut self, line: &str, theirs: &str, ours: &str) -> Option<String> {
        self.disagreements += 1;
        Some(["request ", line, "\n  port   ", theirs, "\n  oracle ", ours].concat())
    }

    /// Holds the port's refusal against the crate's complaint.
    fn compare_causes(&mut self, line: &str, error: &Error, refusal: [usize; 5]) {
        let complaint = complaint_of(error);
        if refusal == complaint {
            self.same_cause += 1;
            return;
        }
        let order = match refusal[1].cmp(&complaint[1]) {
            Ordering::Less => "earlier",
            Ordering::Equal => "there",
            Ordering::Greater => "later",
        };
        let known = match (refusal[0], order, complaint[0]) {
            // The crate goes on where the port holds to the binding rule.
            (10, "earlier", _) => true,
            // The crate looks for leftovers of groups when all is read, the port at their close.
            (15, "earlier", _) => true,
            // The crate reads on behind a label to tell how far the parentheses should go.
            (14, "there", 16) => true,
            // The crate sees that no such expression goes on so, the port leaves that to its host.
            (16, "there", 6) => true,
            _ => false,
        };
        self.unknown_causes += u64::from(!known);
        let word = if known { "known" } else { "UNKNOWN" };
        let what = format!(
            "{word}: port {} {order}, crate {}",
            refusal[0], complaint[0]
        );
        let entry = self.other_cause.entry(what);
        entry.or_insert_with(|| (0, line.to_string())).0 += 1;
    }
}

/// The five numbers of a refusal of the port.
fn refusal_of(answer: &str) -> Option<[usize; 5]> {
    let numbers: Vec<usize> = answer
        .strip_prefix("no ")?
        .split(' ')
        .map(|word| word.parse().ok())
        .collect::<Option<_>>()?;
    numbers.try_into().ok()
}

/// The refusal that a complaint of the crate comes nearest to: number, place, host, part and code.
pub fn complaint_of(error: &Error) -> [usize; 5] {
    let [host, part, code] = error.denial.unwrap_or([0; 3]).map(usize::from);
    [cause_of(error), error.span.from, host, part, code]
}

/// The number of the refusal that a complaint of the crate comes nearest to.
fn cause_of(error: &Error) -> usize {
    match error.message.as_str() {
        _ if error.denial.is_some() => 16,
        "expected an expression" => 6,
        "expected `,` or `;`" | "expected a group" | "expected curly braces" => 7,
        "expected `..=`" => 13,
        "parentheses required" => 14,
        "unexpected token" | "unexpected token in a group" => 15,
        "expected identifier or integer" | "expected unsuffixed integer" => 8,
        message if message.starts_with("comparison operators") => 9,
        message if message.starts_with("casts cannot be followed") => 11,
        message if message.starts_with("unexpected operator `<-`") => 12,
        message if message.starts_with("expected `") => 7,
        message if message.contains("number") || message.contains("digit") => 8,
        _ => 0,
    }
}

/// How strongly an infix node binds, if it is one.
fn rank(nodes: &[Node], node: &Node) -> Option<u8> {
    match node.kind {
        ASSIGN => Some(1),
        CAST => Some(12),
        RANGE => {
            let begins = |child: usize| nodes[child].from == node.from;
            node.first.is_some_and(begins).then_some(2)
        }
        BINARY => Some(match node.op {
            1..=2 => 10,
            3..=5 => 11,
            6 => 4,
            7 => 3,
            8 => 7,
            9 => 8,
            10 => 6,
            11..=12 => 9,
            13..=18 => 5,
            _ => 1,
        }),
        _ => None,
    }
}

/// The place of the first operator whose left operand breaks the binding rule: it is a range, or
/// it ranks below the operator, or no higher where that is an assignment or a comparison.
pub fn first_break(nodes: &[Node]) -> Option<usize> {
    let breaks = |node: &Node| {
        let above = rank(nodes, node)?;
        let left = &nodes[node.first?];
        let lower = rank(nodes, left)
            .is_some_and(|below| below < above || below == above && (above == 1 || above == 5));
        (left.kind == RANGE || lower).then_some(left.to)
    };
    nodes.iter().filter_map(breaks).min()
}

impl Display for Verdict {
    fn fmt(&self, out: &mut fmt::Formatter) -> fmt::Result {
        writeln!(out, "{:>12} requests", self.requests)?;
        writeln!(
            out,
            "{:>12} accepted by both, with the same tree",
            self.accepted
        )?;
        writeln!(out, "{:>12} refused by both", self.refused)?;
        writeln!(
            out,
            "{:>12}   for the same cause at the same place",
            self.same_cause
        )?;
        for (what, (count, line)) in &self.other_cause {
            writeln!(out, "{count:>12}   {what}: {line}")?;
        }
        writeln!(out, "{:>12} bad pages", self.bad_pages)?;
        writeln!(
            out,
            "{:>12} refused 10 where the crate's tree breaks the rule",
            self.broken_rule
        )?;
        writeln!(out, "{:>12} DISAGREEMENTS", self.disagreements)
    }
}
