//! All rows over a small alphabet.

use super::Lines;
use crate::page::{CLOSER, KEYWORDS, MARKS, OPENER};
use crate::typed::{self, Field};
use std::io;

/// Alphabets. Words are apart by spaces; a word that ends with `\` has its last mark joined.
const ALPHABETS: &[&str] = &[
    // Chains: operators of several ranks, and ranges.
    "a .. = + * == ( )",
    "a ..= .. < as t - && ...",
    "a .. = += || < + as t ( )",
    // Marks that are joined or not.
    "a . .\\ = =\\ 1 f",
    "a < <\\ - = > >\\",
    "a & &\\ | |\\ = !",
    "a - -\\ > = * !",
    // Groups.
    "( ) [ ] { } a , ;",
    "( ) a , .. = 'a",
    "[ ] a , ; .. 1",
    // Macros and struct literals.
    "a ! !\\ = ( ) [ ] { } ::",
    "S { } .. : :: , a 0",
    "S { } . 0 0.1 a : if",
    // Members, methods, arguments.
    "x . 0 0.1 1. f :: ( ) await ?",
    "x . f :: < t > >\\ ( ) & mut",
    "x . 1. 1 1u8 f await ( )",
    "x .f .0 ? [ ] ( ) .. -",
    // Words that rule what follows.
    "if else { } a let = while",
    "if a { } S ( ) .. return break",
    "break return continue 'a : :: a { } ..",
    "return break - = < > .. a as {}",
    "let a = == && .. + _ ( ) 1",
    "while if a { } == . ? ()",
    // Operands.
    "& && * ! - mut raw const a { }",
    "a as t & :: . ? [ ] ( ) < ..",
    "loop unsafe async try const { } ! :: a move |",
    ":: a self Self crate super < ! . f",
];

/// Prints rows over the alphabet of this number, two requests for each row under the host
/// `statement`, and one with call, host and flag at random.
pub fn rows(lines: &mut Lines, number: u64) -> io::Result<()> {
    let alphabet = alphabet(number);
    let mut rows = Rows {
        alphabet,
        row: Vec::new(),
        open: Vec::new(),
    };
    let mut length = 0;
    while lines.left > 0 {
        rows.of_length(length, lines)?;
        if lines.left > 0 {
            eprintln!("rows: all of {length} words");
        }
        length += 1;
    }
    Ok(())
}

/// The words of an alphabet. Behind those of the list come one of all marks, joined and not, and
/// one of all keywords.
fn alphabet(number: u64) -> Vec<Vec<Field>> {
    let number = (number % (ALPHABETS.len() as u64 + 2)) as usize;
    let mut words: Vec<Vec<Field>> = Vec::new();
    if let Some(list) = ALPHABETS.get(number) {
        for word in list.split(' ') {
            let joined = word.strip_suffix('\\');
            let mut fields = typed::fields(joined.unwrap_or(word)).expect("fields");
            if joined.is_some() {
                fields.last_mut().expect("a mark").value[1] = 1;
            }
            words.push(fields);
        }
    } else if number == ALPHABETS.len() {
        words.push(typed::fields("a").expect("a name"));
        for mark in MARKS.iter().filter(|mark| **mark != b'#') {
            words.push(vec![Field::mark(*mark, false)]);
            words.push(vec![Field::mark(*mark, true)]);
        }
    } else {
        for word in ["a", "{}", "()", "!", "::", "'a", "|", "1"]
            .iter()
            .chain(KEYWORDS)
        {
            words.push(typed::fields(word).expect("fields"));
        }
    }
    words
}

struct Rows {
    alphabet: Vec<Vec<Field>>,
    row: Vec<Field>,
    /// The openers that are not closed yet.
    open: Vec<u8>,
}

impl Rows {
    /// Prints the rows that go on from this one by `more` words and close all groups.
    fn of_length(&mut self, more: usize, lines: &mut Lines) -> io::Result<()> {
        if lines.left == 0 || self.open.len() > more {
            return Ok(());
        }
        if more == 0 {
            let page = typed::page(&self.row);
            lines.line("front", "statement", "yes", &page)?;
            lines.line("front", "statement", "no", &page)?;
            return lines.at_random(&page);
        }
        for number in 0..self.alphabet.len() {
            let (row, open) = (self.row.len(), self.open.clone());
            if self.extend(number) {
                self.of_length(more - 1, lines)?;
            }
            self.row.truncate(row);
            self.open = open;
        }
        Ok(())
    }

    /// Adds a word, and says whether its closers fit.
    fn extend(&mut self, number: usize) -> bool {
        for field in &self.alphabet[number] {
            match (field.tag, field.value[0]) {
                (OPENER, opener) => self.open.push(opener),
                (CLOSER, closer) => {
                    let fits = [(b'(', b')'), (b'[', b']'), (b'{', b'}')];
                    match self.open.pop() {
                        Some(opener) if fits.contains(&(opener, closer)) => {}
                        _ => return false,
                    }
                }
                _ => {}
            }
            self.row.push(field.clone());
        }
        true
    }
}
