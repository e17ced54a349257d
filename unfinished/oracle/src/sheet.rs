//! What the calls of a sheet must be answered, wherever a run of the crate tells it.
//!
//! The sheet is here what it stands for: a list of trees, each with the tokens that it used. The
//! trees are the crate's; all else is counted on the list.

use crate::expect::{expected, outcome, refusal, Outcome};
use crate::page::tokens;
use crate::requests::{bytes_of, hex_of, write_node, Request};
use crate::tree::Node;
use alloc::format;
use alloc::string::String;
use alloc::vec::Vec;

/// A sheet uses no more of its spaces, and a page has no more tokens.
const MOST_NODES: usize = 4096;
const MOST_RULES: usize = 256;

/// A line of an output must have this much room.
const LINE: usize = 32;

#[derive(Default)]
pub struct Desk {
    made: usize,
    sheet: Option<Sheet>,
}

struct Sheet {
    nodes: usize,
    rules: usize,
    list: Vec<(Vec<Node>, usize)>,
}

impl Desk {
    /// The answer that a line must get, if the crate tells it. A line of which it does not is not
    /// played: it leaves the sheet as it was.
    pub fn expected(&mut self, line: &str) -> Option<String> {
        let words: Vec<&str> = line.split(' ').collect();
        match words[..] {
            ["s", "new", nodes, rules] => Some(self.open(nodes, rules)),
            ["s", ..] => match &mut self.sheet {
                Some(sheet) => sheet.expected(&words[1..]),
                None => Some(String::from("bad sheet")),
            },
            ["text", page, place] => text(page, place),
            _ => expected(line),
        }
    }

    fn open(&mut self, nodes: &str, rules: &str) -> String {
        let (Ok(nodes), Ok(rules)) = (nodes.parse::<usize>(), rules.parse::<usize>()) else {
            return String::from("bad number");
        };
        self.sheet = Some(Sheet {
            nodes: nodes.min(MOST_NODES),
            rules: rules.min(MOST_RULES),
            list: Vec::new(),
        });
        self.made += 1;
        format!("ok {}", self.made - 1)
    }
}

impl Sheet {
    fn expected(&mut self, words: &[&str]) -> Option<String> {
        let number = |word: &str| word.parse::<usize>().ok();
        match *words {
            ["wipe"] => Some(format!("ok {}", core::mem::take(&mut self.list).len())),
            ["totals"] => Some(format!("ok {} {}", self.list.len(), self.used())),
            ["rule", i] => Some(self.rule(number(i)?)),
            ["node", i] => Some(self.told(number(i)?, |_, node| {
                let mut told = String::from("ok ");
                write_node(&mut told, node);
                told
            })),
            ["heading", room] => {
                let line = format!("rules {} nodes {}\n", self.list.len(), self.used());
                Some(written(&line, number(room)?))
            }
            ["line", i, room] => {
                let room = number(room)?;
                Some(self.told(number(i)?, |i, node| {
                    let Node { kind, op, from, to, .. } = node;
                    written(&format!("{i} {kind} {op} {from} {to}\n"), room)
                }))
            }
            [call, host, flag, page] => self.enter(&[call, host, flag, page].join(" "), MOST_NODES),
            [call, host, flag, page, space] => {
                let space = number(space.strip_prefix("space=")?)?;
                self.enter(&[call, host, flag, page].join(" "), space)
            }
            _ => None,
        }
    }

    /// How many nodes the trees have.
    fn used(&self) -> usize {
        self.list.iter().map(|(nodes, _)| nodes.len()).sum()
    }

    fn enter(&mut self, line: &str, space: usize) -> Option<String> {
        let request = match Request::of(line) {
            Ok(request) => request,
            Err(word) => return Some(["bad ", word].concat()),
        };
        let count = tokens(&request.page)?.len();
        if count > space {
            return Some(refusal([4, field(&request.page, space), 0, 0, 0]));
        }
        if count > self.nodes - self.used() || self.list.len() == self.rules {
            return Some(refusal([5, 0, 0, 0, 0]));
        }
        Some(match outcome(&request)? {
            Outcome::Refused(numbers) => refusal(numbers),
            Outcome::Rule(used, nodes) => {
                self.list.push((nodes, used));
                format!("ok {}", self.list.len() - 1)
            }
        })
    }

    fn rule(&self, i: usize) -> String {
        match self.list.get(i) {
            None => refusal([17, 0, 0, 0, 0]),
            Some((_, used)) => {
                let root: usize = self.list[..=i].iter().map(|(nodes, _)| nodes.len()).sum();
                format!("ok {} {used}", root - 1)
            }
        }
    }

    /// What is told of a node, by its number through all trees.
    fn told(&self, i: usize, tell: impl Fn(usize, &Node) -> String) -> String {
        let mut before = 0;
        for (nodes, _) in &self.list {
            if let Some(node) = nodes.get(i - before) {
                let moved = |link: Option<usize>| link.map(|number| number + before);
                let (first, next) = (moved(node.first), moved(node.next));
                return tell(i, &Node { first, next, ..*node });
            }
            before += nodes.len();
        }
        refusal([17, 0, 0, 0, 0])
    }
}

/// The answer to a line of output, for which there is so much room.
fn written(line: &str, room: usize) -> String {
    if room < LINE {
        return refusal([18, 0, 0, 0, 0]);
    }
    format!("ok {} {}", line.len(), hex_of(line.as_bytes()))
}

/// The first byte of a field of a page.
fn field(page: &[u8], place: usize) -> usize {
    let mut at = 0;
    for _ in 0..place {
        at += 3 + usize::from(u16::from_be_bytes([page[at + 1], page[at + 2]]));
    }
    at
}

/// The value of a token of a page, and where it begins.
fn text(page: &str, place: &str) -> Option<String> {
    let page = bytes_of(page)?;
    let place = place.parse::<usize>().ok()?;
    if place >= tokens(&page)?.len() {
        return Some(refusal([17, 0, 0, 0, 0]));
    }
    let (from, to) = (field(&page, place) + 3, field(&page, place + 1));
    Some(format!("ok {from} {}", hex_of(&page[from..to])))
}
