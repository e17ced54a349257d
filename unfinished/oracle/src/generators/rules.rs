//! Expressions at random, as text.

use super::Random;

/// Writes a text word by word.
pub struct Writer<'r> {
    random: &'r mut Random,
    text: String,
    /// How often, of a hundred cases, a space stands between words that could do without.
    spaces: usize,
}

#[rustfmt::skip]
const BINARY: &[&str] = &[
    "+", "-", "*", "/", "%", "&&", "||", "^", "&", "|", "<<", ">>", "==", "<", "<=", "!=", ">=", ">",
    "+=", "-=", "*=", "/=", "%=", "^=", "&=", "|=", "<<=", ">>=",
];

/// Names that a host of names may know stand more often than others.
#[rustfmt::skip]
const NAMES: &[&str] = &[
    "a", "b", "c", "x", "a", "b", "c", "x", "a", "b", "c", "x", "d", "S", "f", "t", "self", "Self",
    "super", "crate", "raw", "union", "default", "builtin", "auto", "safe", "gen", "_a", "A1",
];

#[rustfmt::skip]
const LITERALS: &[&str] = &[
    "0", "1", "42", "007", "1u8", "9usize", "1.5", "0.1", "2.", "\"s\"", "\"a b\"", "true", "false",
];

#[rustfmt::skip]
const MEMBERS: &[&str] = &[
    "f", "x", "a", "raw", "0", "1", "7", "007", "0.1", "1.0", "2.", "4294967295", "4294967296",
    "1u8", "0.4294967295", "0.4294967296", "await", "self", "true", "_", "try", "00.00", "-1", "-1.5",
];

const TYPES: &[&str] = &[
    "t",
    "cents",
    "days",
    "&t",
    "&mut t",
    "&&t",
    "a::b",
    "::t",
    "Self",
    "& &mut days",
];

const PATTERNS: &[&str] = &[
    "x", "_", "1", "true", "\"s\"", "S(a, b)", "a::b", "a::S()", "Self(x)",
];

const GROUPS: &[&str] = &[
    "()",
    "[]",
    "{}",
    "(a)",
    "[a, b]",
    "{ a; b }",
    "(, ;)",
    "{ [ ( ) ] }",
];

const LABELS: &[&str] = &["'a", "'static", "'_", "'if"];

impl<'r> Writer<'r> {
    fn new(random: &'r mut Random) -> Self {
        let spaces = random.pick(&[100, 100, 70, 30]);
        Writer {
            random,
            text: String::new(),
            spaces,
        }
    }

    /// An expression; for a prefix to end somewhere, more may follow it.
    pub fn rule(random: &mut Random) -> String {
        let mut writer = Writer::new(random);
        let depth = writer.random.below(6);
        writer.expr(depth);
        if writer.random.chance(15) {
            writer.tail();
        }
        writer.text
    }

    /// Operands and infix operators.
    pub fn chain(random: &mut Random) -> String {
        let mut writer = Writer::new(random);
        // A chain of few operators meets itself more often.
        let narrow = writer.random.chance(50);
        writer.operand();
        for _ in 0..=writer.random.below(8) {
            match writer.random.below(10) {
                0..=2 => {
                    let range = writer.random.pick(&["..", "..", "..="]);
                    writer.put(range);
                    if writer.random.chance(30) {
                        continue;
                    }
                    if writer.random.chance(20) {
                        writer.put("..");
                    }
                }
                3 => writer.put("="),
                4 => {
                    writer.put("as");
                    writer.one_of(TYPES);
                    continue;
                }
                _ if narrow => writer.one_of(&["+", "*", "<", "=", "&&", "|="]),
                _ => writer.one_of(BINARY),
            }
            writer.operand();
        }
        writer.text
    }

    /// A form with a part that hosts read, filled with what is one or looks like one.
    pub fn part(random: &mut Random) -> String {
        let mut writer = Writer::new(random);
        match writer.random.below(10) {
            0 | 1 => {
                writer.path_like();
                writer.maybe(50, Writer::tail);
            }
            2 | 3 => {
                writer.one_of(&["a as", "a + b as", "-a as", "a.. b as", "a as t as"]);
                writer.type_like();
                writer.maybe(70, Writer::tail);
            }
            4 => {
                writer.put("let");
                match writer.random.below(3) {
                    0 => writer.one_of(PATTERNS),
                    1 => {
                        writer.path_like();
                        writer.maybe(50, |w| w.one_of(GROUPS));
                    }
                    _ => writer.one_of(&["-1", "1.5", "'a", "&x", "x | y", "x @ y", "", "mut x"]),
                }
                writer.one_of(&["=", "=", "=", "==", ""]);
                writer.expr(1);
            }
            5 | 6 => {
                writer.one_of(&["a.f", "x.1. f", "x.0", "x.await", "f(a).b"]);
                writer.one_of(&["::", "::", "::", ":", ""]);
                writer.one_of(&["<", "<", "<", "<<", "", "<="]);
                writer.type_like();
                writer.one_of(&[">", ">", ">", ">>", ">=", "", ">>="]);
                writer.maybe(80, |w| {
                    w.one_of(&["(a)", "()", "(a, b)", "(a b)", "{}", "[0]"])
                });
                writer.maybe(30, Writer::tail);
            }
            7 => {
                writer.one_of(&["if a", "while a", "if a {} else", "if a {} else if b", ""]);
                writer.one_of(GROUPS);
                writer.maybe(50, Writer::tail);
            }
            _ => {
                writer.one_of(&[
                    "loop",
                    "unsafe",
                    "const",
                    "async",
                    "try",
                    "match",
                    "move",
                    "static",
                    "for",
                    "yield",
                    "become",
                    "'a",
                    "'a:",
                    "'a: loop",
                    "async move",
                    "|",
                    "||",
                    "|=",
                    "box",
                    "try!",
                    "try::",
                    "try !=",
                    "do",
                    "await",
                ]);
                writer.maybe(80, |w| w.one_of(GROUPS));
                writer.maybe(40, Writer::tail);
            }
        }
        writer.text
    }

    /// Puts a word behind the others, apart from them where they would run together.
    fn put(&mut self, word: &str) {
        let is_word = |char: char| char.is_ascii_alphanumeric() || char == '_' || char == '"';
        let meets = match (self.text.chars().last(), word.chars().next()) {
            (Some(last), Some(first)) => is_word(last) && is_word(first),
            _ => false,
        };
        if meets || self.random.chance(self.spaces) {
            self.text.push(' ');
        }
        self.text.push_str(word);
    }

    fn one_of(&mut self, words: &[&str]) {
        let word = self.random.pick(words);
        self.put(word);
    }

    fn maybe(&mut self, percent: usize, write: impl FnOnce(&mut Self)) {
        if self.random.chance(percent) {
            write(self);
        }
    }

    /// What may or may not go on from an expression.
    fn tail(&mut self) {
        self.one_of(&[
            "b", ",", ";", "=>", "<- b", "{}", "(a)", "[0]", ".f", "?", "= b", "..", "..= b",
            "... b", ": t", ":: b", "::", "! (a)", "!= b", "as t", "as", "else {}", "+ b", "+",
            "< b", "'a", "1", "{ f: a }", "< b > c", "as t < b", "@", "->", "&& b", "- 1", "* a",
            "| b", "if a {}",
        ]);
    }

    fn path_like(&mut self) {
        self.maybe(15, |w| w.put("::"));
        for _ in 0..=self.random.below(3) {
            match self.random.below(10) {
                0 => self.one_of(&[
                    "if", "_", "true", "try", "<", "1", "crate", "super", "self", "::",
                ]),
                _ => self.one_of(NAMES),
            }
            self.maybe(40, |w| w.put("::"));
        }
    }

    fn type_like(&mut self) {
        match self.random.below(4) {
            0 => self.path_like(),
            1 => {
                for _ in 0..self.random.below(4) {
                    self.one_of(&["&", "&mut", "&&", "mut", "& mut &", "*"]);
                }
                self.path_like();
            }
            _ => self.one_of(TYPES),
        }
    }

    fn name(&mut self) {
        self.one_of(NAMES);
    }

    /// An operand of a chain.
    fn operand(&mut self) {
        match self.random.below(12) {
            0 => self.one_of(&[
                "-",
                "!",
                "*",
                "&",
                "&mut",
                "&&",
                "&raw const",
                "return",
                "break",
            ]),
            1 => self.one_of(&["let x =", "..", "return ..", "- .."]),
            2 => {
                self.put("(");
                self.expr(1);
                self.put(")");
                return;
            }
            _ => {}
        }
        match self.random.below(10) {
            0 => self.expr(1),
            1 => self.one_of(LITERALS),
            _ => self.one_of(&["a", "b", "c", "x"]),
        }
    }

    fn leaf(&mut self) {
        match self.random.below(12) {
            0..=2 => self.one_of(LITERALS),
            3 => self.put("_"),
            4 => self.path_like(),
            _ => self.name(),
        }
    }

    /// Expressions with commas between them, and perhaps behind the last.
    fn list(&mut self, depth: usize) {
        let count = self.random.pick(&[0, 1, 1, 2, 2, 3]);
        for number in 0..count {
            self.expr(depth);
            if number + 1 < count {
                self.put(",");
            } else {
                self.maybe(25, |w| w.put(","));
            }
        }
    }

    fn block(&mut self) {
        self.one_of(&["{}", "{ a }", "{ a; b }", "{ , }", "{ { } }"]);
    }

    fn fields(&mut self, depth: usize) {
        self.put("{");
        for _ in 0..self.random.below(4) {
            match self.random.below(6) {
                0 => self.one_of(&["0", "7", "4294967295", "4294967296", "1u8", "0.1"]),
                _ => self.one_of(&[
                    "a", "b", "f", "x", "a", "b", "f", "x", "raw", "self", "await",
                ]),
            }
            self.maybe(70, |w| {
                w.put(":");
                w.expr(depth);
            });
            if !self.random.chance(90) {
                break;
            }
            self.put(",");
        }
        self.maybe(30, |w| {
            w.one_of(&["..", "..", "..", "..=", "..."]);
            w.maybe(70, |w| w.expr(depth));
            w.maybe(10, |w| w.put(","));
        });
        self.put("}");
    }

    /// An expression of any kind, nested at most so deep.
    fn expr(&mut self, depth: usize) {
        if depth == 0 {
            return self.leaf();
        }
        let depth = depth - 1;
        match self.random.below(40) {
            0 | 1 => {
                self.put("(");
                self.expr(depth);
                self.put(")");
            }
            2 => {
                self.put("(");
                self.list(depth);
                self.put(")");
            }
            3 => {
                self.put("[");
                self.list(depth);
                self.put("]");
            }
            4 => {
                self.put("[");
                self.expr(depth);
                self.put(";");
                self.expr(depth);
                self.put("]");
            }
            5 | 6 => {
                self.expr(depth);
                self.put("(");
                self.list(depth);
                self.put(")");
            }
            7 | 8 => {
                self.expr(depth);
                self.put(".");
                self.name();
                self.maybe(30, |w| {
                    w.put("::");
                    w.put("<");
                    w.one_of(TYPES);
                    w.put(">");
                });
                self.put("(");
                self.list(depth);
                self.put(")");
            }
            9..=11 => {
                self.expr(depth);
                self.put(".");
                self.one_of(MEMBERS);
            }
            12 => {
                self.expr(depth);
                self.put(".");
                self.put("await");
            }
            13 => {
                self.expr(depth);
                self.put("[");
                self.expr(depth);
                self.put("]");
            }
            14 => {
                self.expr(depth);
                self.put("?");
            }
            15 | 16 => {
                self.one_of(&[
                    "-",
                    "!",
                    "*",
                    "&",
                    "&mut",
                    "&&",
                    "&raw const",
                    "&raw mut",
                    "&raw",
                ]);
                self.expr(depth);
            }
            17..=20 => {
                self.expr(depth);
                self.one_of(BINARY);
                self.expr(depth);
            }
            21 => {
                self.expr(depth);
                self.put("=");
                self.expr(depth);
            }
            22..=24 => {
                self.maybe(60, |w| w.expr(depth));
                self.one_of(&["..", "..", "..="]);
                self.maybe(70, |w| w.expr(depth));
            }
            25 | 26 => {
                self.expr(depth);
                self.put("as");
                self.one_of(TYPES);
            }
            27 => {
                self.put("let");
                self.one_of(PATTERNS);
                self.put("=");
                self.expr(depth);
            }
            28 | 29 => {
                self.put("if");
                self.expr(depth);
                self.block();
                for _ in 0..self.random.below(3) {
                    self.put("else if");
                    self.expr(depth);
                    self.block();
                }
                self.maybe(50, |w| {
                    w.put("else");
                    w.block();
                });
            }
            30 => {
                self.put("while");
                self.expr(depth);
                self.block();
            }
            31 => {
                self.put("break");
                self.maybe(30, |w| w.one_of(LABELS));
                self.maybe(60, |w| w.expr(depth));
            }
            32 => {
                self.put("continue");
                self.maybe(50, |w| w.one_of(LABELS));
            }
            33 => {
                self.put("return");
                self.maybe(70, |w| w.expr(depth));
            }
            34 => self.block(),
            35 => {
                self.one_of(&["loop", "unsafe", "const", "async", "try"]);
                self.block();
            }
            36 => {
                self.path_like();
                self.put("!");
                self.one_of(GROUPS);
            }
            37 | 38 => {
                self.name();
                self.fields(depth);
            }
            _ => self.leaf(),
        }
    }
}
