//! Makes requests. The same seed, count and kind always make the same lines.

mod alphabets;
mod limits;
mod rules;

use crate::page::{CLOSER, KEYWORDS, LITERAL, MARK, MARKS, OPENER};
use crate::requests::hex_of;
use crate::typed::{self, Field};
use rules::Writer;
use std::io::{self, Write};

/// The kinds of requests, with what they are.
pub const KINDS: &[(&str, &str)] = &[
    (
        "rows",
        "all rows over a small alphabet, short ones first; the seed is the alphabet's number",
    ),
    ("rules", "expressions of every kind"),
    (
        "chains",
        "operands and infix operators in a row, many of them ranges",
    ),
    (
        "parts",
        "what hosts read: paths, types, patterns, blocks and so on, and what looks like them",
    ),
    ("damaged", "expressions with some tokens changed"),
    ("soup", "tokens at random"),
    ("mixed", "rules, chains, parts, damaged and soup in turn"),
    (
        "limits",
        "sizes at and next to every limit of a page, good and bad pages; as many as there are",
    ),
    ("deep", "deep nesting and long chains; as many as there are"),
    ("traps", "what is easily misread; as many as there are"),
    ("script", "calls of sheets that stay, one after another"),
];

/// Prints `count` requests of a kind, or as many as there are.
pub fn generate(seed: u64, count: u64, kind: &str, out: &mut dyn Write) -> io::Result<()> {
    let mut lines = Lines {
        out,
        left: count,
        random: Random(seed),
    };
    match kind {
        "rows" => alphabets::rows(&mut lines, seed),
        "limits" => limits::limits(&mut lines),
        "deep" => limits::deep(&mut lines),
        "traps" => limits::traps(&mut lines),
        "script" => script(&mut lines),
        _ => {
            while lines.left > 0 {
                let fields = fields_of(kind, &mut lines.random)?;
                lines.at_random(&typed::page(&fields))?;
            }
            Ok(())
        }
    }
}

/// Calls of sheets, most of them small so that they fill up, with refusals and wipes among them.
fn script(lines: &mut Lines) -> io::Result<()> {
    while lines.left > 0 {
        let random = &mut lines.random;
        let number = random.below(24);
        let room = random.pick(&[0, 31, 32, 33, 64]);
        let line = match random.below(40) {
            0 => {
                let nodes = random.pick(&[0, 5, 12, 40, 100, 4096, 5000]);
                let rules = random.pick(&[0, 1, 2, 5, 256, 400]);
                format!("s new {nodes} {rules}")
            }
            1 => String::from("s wipe"),
            2..=5 => String::from("s totals"),
            6..=9 => format!("s rule {}", random.below(6)),
            10..=14 => format!("s node {number}"),
            15..=17 => format!("s heading {room}"),
            18..=22 => format!("s line {number} {room}"),
            23 => {
                let page = typed::page(&fields_of("rules", random)?);
                format!("text {} {number}", hex_of(&page))
            }
            _ => {
                let call = random.pick(&["enter", "front"]);
                let flag = random.pick(&["yes", "no"]);
                let kind = random.pick(&["rules", "chains", "parts", "damaged"]);
                let page = hex_of(&typed::page(&fields_of(kind, random)?));
                let host = host(random);
                let space = random.pick(&["", "", "", " space=8", " space=3", " space=4096"]);
                format!("s {call} {host} {flag} {page}{space}")
            }
        };
        lines.left -= 1;
        writeln!(lines.out, "{line}")?;
    }
    Ok(())
}

/// One page of a kind.
fn fields_of(kind: &str, random: &mut Random) -> io::Result<Vec<Field>> {
    let text = match kind {
        "rules" => Writer::rule(random),
        "chains" => Writer::chain(random),
        "parts" => Writer::part(random),
        "damaged" => {
            let good = random.pick(&["rules", "chains", "parts"]);
            let mut fields = fields_of(good, random)?;
            for _ in 0..=random.below(3) {
                damage(&mut fields, random);
            }
            return Ok(fields);
        }
        "soup" => {
            let mut fields = Vec::new();
            for _ in 0..=random.below(12) {
                insert_at_random(&mut fields, random);
            }
            return Ok(fields);
        }
        "mixed" => {
            let kinds = [
                "rules", "rules", "chains", "parts", "damaged", "damaged", "soup",
            ];
            return fields_of(random.pick(&kinds), random);
        }
        _ => return Err(io::Error::other(format!("there is no kind `{kind}`"))),
    };
    Ok(typed::fields(&text).expect("a text that spells fields"))
}

/// Numbers that look random.
pub struct Random(u64);

impl Random {
    fn next(&mut self) -> u64 {
        self.0 = self.0.wrapping_add(0x9E37_79B9_7F4A_7C15);
        let mut mixed = self.0;
        mixed = (mixed ^ (mixed >> 30)).wrapping_mul(0xBF58_476D_1CE4_E5B9);
        mixed = (mixed ^ (mixed >> 27)).wrapping_mul(0x94D0_49BB_1331_11EB);
        mixed ^ (mixed >> 31)
    }

    /// A number under `bound`.
    fn below(&mut self, bound: usize) -> usize {
        (self.next() % bound as u64) as usize
    }

    /// Yes in so many of a hundred cases.
    fn chance(&mut self, percent: usize) -> bool {
        self.below(100) < percent
    }

    fn pick<T: Copy>(&mut self, from: &[T]) -> T {
        from[self.below(from.len())]
    }
}

/// Where requests go, and how many are still wanted.
pub struct Lines<'o> {
    out: &'o mut dyn Write,
    left: u64,
    random: Random,
}

impl Lines<'_> {
    fn line(&mut self, call: &str, host: &str, flag: &str, page: &[u8]) -> io::Result<()> {
        if self.left == 0 {
            return Ok(());
        }
        self.left -= 1;
        writeln!(self.out, "{call} {host} {flag} {}", hex_of(page))
    }

    /// One request: any call, any host, any flag.
    fn at_random(&mut self, page: &[u8]) -> io::Result<()> {
        let call = self.random.pick(&["enter", "front"]);
        let flag = self.random.pick(&["yes", "no"]);
        let host = host(&mut self.random);
        self.line(call, &host, flag, page)
    }

    /// Both calls, both flags, under the host `statement`.
    fn four(&mut self, page: &[u8]) -> io::Result<()> {
        for call in ["enter", "front"] {
            for flag in ["yes", "no"] {
                self.line(call, "statement", flag, page)?;
            }
        }
        Ok(())
    }
}

/// Names that a host of names may know. `try` and `crate` show what a keyword does among them.
const COLUMNS: &[&str] = &[
    "a b c d x",
    "a b c x cents days",
    "a",
    "self Self super crate try a x",
    "a b c x S f raw t",
];

/// The page of some names. Sometimes a field stands behind them that ends them.
fn columns(random: &mut Random) -> String {
    let mut page = typed::page(&typed::fields(random.pick(COLUMNS)).expect("names"));
    match random.below(8) {
        0 => page.extend(typed::page(&[Field::mark(b'+', false)])),
        1 => page.extend([1, 0, 2, b'a']),
        2 => page.extend([1, 0, 1, b'1', 1, 0, 1, b'y']),
        _ => {}
    }
    hex_of(&page)
}

/// A host, as a request names it.
fn host(random: &mut Random) -> String {
    match random.below(10) {
        0..=4 => String::from("statement"),
        5..=6 => format!("name:{}", columns(random)),
        _ => {
            // Most fences let most parts through, so that the reading goes on.
            let through = random.pick(&[90, 90, 50]);
            let parts: Vec<&str> = ["1", "2", "3", "4", "5", "6"]
                .into_iter()
                .filter(|_| random.chance(through))
                .collect();
            let parts = if parts.is_empty() {
                String::from("-")
            } else {
                parts.join(",")
            };
            format!("fence:{parts}:{}", host(random))
        }
    }
}

/// A token at random. `#` is left out: no page that has it is compared.
fn token(random: &mut Random) -> Vec<Field> {
    const TEXTS: &[&str] = &[
        "a",
        "b",
        "x",
        "S",
        "t",
        "f",
        "raw",
        "union",
        "builtin",
        "0",
        "1",
        "7",
        "1u8",
        "0.1",
        "1.",
        "4294967295",
        "4294967296",
        "\"s\"",
        "'a",
        "'static",
        "()",
        "[]",
        "{}",
        "(a)",
        "[a]",
        "{a}",
        "..",
        "..=",
        "...",
        "::",
        "->",
        "=>",
        "<-",
        "&&",
        "||",
        "==",
        "!=",
        "<=",
        ">=",
        "<<",
        ">>",
        "<<=",
        ">>=",
        "+=",
        "-=",
        "*=",
        "/=",
        "%=",
        "^=",
        "&=",
        "|=",
    ];
    match random.below(10) {
        0..=3 => typed::fields(random.pick(TEXTS)).expect("fields"),
        4..=6 => {
            let mark = random.pick(MARKS);
            let mark = if mark == b'#' { b'.' } else { mark };
            vec![Field::mark(mark, random.chance(30))]
        }
        7 => vec![Field::new(LITERAL, &[random.next() as u8])],
        _ => typed::fields(random.pick(KEYWORDS)).expect("a keyword"),
    }
}

fn insert_at_random(fields: &mut Vec<Field>, random: &mut Random) {
    let at = random.below(fields.len() + 1);
    let token = token(random);
    fields.splice(at..at, token);
}

/// The place of the delimiter that belongs to the one at `at`.
fn partner(fields: &[Field], at: usize) -> usize {
    let mut depth = 0;
    let opens = fields[at].tag == OPENER;
    let mut place = at;
    loop {
        match fields[place].tag {
            OPENER => depth += 1,
            CLOSER => depth -= 1,
            _ => {}
        }
        if depth == 0 {
            return place;
        }
        place = if opens { place + 1 } else { place - 1 };
    }
}

/// Changes something, so that groups are still closed.
fn damage(fields: &mut Vec<Field>, random: &mut Random) {
    if fields.is_empty() {
        return insert_at_random(fields, random);
    }
    let at = random.below(fields.len());
    let delimiter = matches!(fields[at].tag, OPENER | CLOSER);
    match random.below(8) {
        // Take something out: a token, a pair of delimiters, or a group with what is in it.
        0 | 1 if delimiter => {
            let other = partner(fields, at);
            let (open, close) = (at.min(other), at.max(other));
            if random.chance(50) {
                fields.drain(open..=close);
            } else {
                fields.remove(close);
                fields.remove(open);
            }
        }
        0 | 1 => {
            fields.remove(at);
        }
        // Put something in.
        2 | 3 => insert_at_random(fields, random),
        // Another delimiter, or another token.
        4 if delimiter => {
            let other = partner(fields, at);
            let (open, close) = random.pick(&[("(", ")"), ("[", "]"), ("{", "}")]);
            fields[at.min(other)].value = open.into();
            fields[at.max(other)].value = close.into();
        }
        4 => {
            let token = token(random);
            fields.splice(at..=at, token);
        }
        // The same once more.
        5 if !delimiter => fields.insert(at, fields[at].clone()),
        // Two that stand side by side change places.
        6 if at + 1 < fields.len() && !delimiter => {
            if !matches!(fields[at + 1].tag, OPENER | CLOSER) {
                fields.swap(at, at + 1);
            }
        }
        // A mark is joined, or no longer.
        7 if fields[at].tag == MARK => fields[at].value[1] ^= 1,
        // The page ends early.
        _ => {
            let mut open: Vec<u8> = Vec::new();
            fields.truncate(at);
            for field in fields.iter() {
                match field.tag {
                    OPENER => open.push(field.value[0]),
                    CLOSER => {
                        open.pop();
                    }
                    _ => {}
                }
            }
            while let Some(opener) = open.pop() {
                let closer = match opener {
                    b'(' => b')',
                    b'[' => b']',
                    _ => b'}',
                };
                fields.push(Field::new(CLOSER, &[closer]));
            }
        }
    }
}
