//! Pages that are made one by one: at the limits, deep ones, and those that are easily misread.

use super::Lines;
use crate::page::{
    CLOSER, FLOAT, INTEGER, LIFETIME, LITERAL, MARK, MARKS, MOST_TOKENS, NAME, OPENER,
};
use crate::typed::{self, Field};
use std::io;

fn fields(text: &str) -> Vec<Field> {
    typed::fields(text).expect("fields")
}

fn page(text: &str) -> Vec<u8> {
    typed::page(&fields(text))
}

/// Sizes at and next to every limit of a page, and bytes that are allowed or not.
pub fn limits(lines: &mut Lines) -> io::Result<()> {
    lines.four(&[])?;
    for length in [0, 1, 2, 63, 64, 65, 255, 256, 1023, 1024, 1025, 65535] {
        let letters = vec![b'a'; length];
        let digits = vec![b'7'; length];
        let zeros = [vec![b'0'; length], vec![b'1']].concat();
        for (tag, value) in [
            (NAME, &letters),
            (LIFETIME, &letters),
            (LITERAL, &letters),
            (INTEGER, &digits),
            (OPENER, &letters),
        ] {
            one_field(lines, "", tag, value, "")?;
            one_field(lines, "break", tag, value, "")?;
            one_field(lines, "x .", tag, value, "")?;
        }
        one_field(lines, "x .", INTEGER, &zeros, "")?;
    }
    for whole in 0..=41 {
        for fraction in [0, 1, 2, 38, 39, 40, 41 - whole.min(41)] {
            let value = [vec![b'0'; whole], vec![b'.'], vec![b'0'; fraction]].concat();
            one_field(lines, "x .", FLOAT, &value, "")?;
            one_field(lines, "", FLOAT, &value, "")?;
        }
        one_field(lines, "x .", INTEGER, &vec![b'0'; whole], "")?;
    }
    for number in [
        "4294967294",
        "4294967295",
        "4294967296",
        "04294967295",
        "18446744073709551615",
        "99999999999999999999",
    ] {
        lines.four(&page(&format!("x.{number}")))?;
        lines.four(&page(&format!("x.{number}.0")))?;
        lines.four(&page(&format!("x.0.{number}")))?;
        lines.four(&page(&format!("x.{number}. f")))?;
        lines.four(&page(&format!("S {{ {number}: a }}")))?;
    }
    for byte in 0..=255 {
        if byte == b'#' {
            continue;
        }
        one_field(lines, "a", MARK, &[byte, 0], "b")?;
        one_field(lines, "a", MARK, &[byte, 1], "b")?;
        one_field(lines, "a", MARK, &[b'+', byte], "b")?;
        one_field(lines, "", NAME, &[byte], "")?;
        one_field(lines, "", NAME, &[b'a', byte], "")?;
        one_field(lines, "x .", INTEGER, &[b'1', byte], "")?;
        one_field(lines, "x .", INTEGER, &[b'1', b'u', byte], "")?;
        one_field(lines, "x .", FLOAT, &[b'1', b'.', byte], "")?;
        one_field(lines, "x .", LITERAL, &[byte], "")?;
        one_field(lines, "", LITERAL, &[byte], "")?;
        one_field(lines, "", byte, b"a", "")?;
        one_field(lines, "", OPENER, &[byte], "")?;
        one_field(lines, "(", CLOSER, &[byte], "")?;
    }
    let good = page("S { a: (b + 0.1)[x.f::<t>(1)], ..c }");
    for length in 0..good.len() {
        lines.four(&good[..length])?;
    }
    for count in MOST_TOKENS - 4..=MOST_TOKENS + 2 {
        let name = fields("a");
        let mut minus = vec![Field::mark(b'-', false); count - 1];
        minus.extend(name.clone());
        lines.four(&typed::page(&minus))?;
        let mut sum: Vec<Field> = Vec::new();
        for place in 0..count {
            sum.extend(if place % 2 == 0 {
                name.clone()
            } else {
                fields("+")
            });
        }
        lines.four(&typed::page(&sum))?;
        let half = count / 2;
        let mut nested = vec![Field::new(OPENER, b"("); half];
        nested.extend(vec![name[0].clone(); count % 2]);
        nested.extend(vec![Field::new(CLOSER, b")"); half]);
        lines.four(&typed::page(&nested))?;
        let mut names = name.clone();
        names.extend(vec![Field::new(LITERAL, b"\"s\""); count - 1]);
        lines.four(&typed::page(&names))?;
    }
    Ok(())
}

/// A page of one field between others.
fn one_field(
    lines: &mut Lines,
    before: &str,
    tag: u8,
    value: &[u8],
    after: &str,
) -> io::Result<()> {
    let mut all = fields(before);
    all.push(Field::new(tag, value));
    all.extend(fields(after));
    lines.four(&typed::page(&all))
}

/// Forms that nest or go on: what is repeated before, the middle, and what is repeated behind.
const NESTS: &[(&str, &str, &str)] = &[
    ("(", "a", ")"),
    ("(", "", ")"),
    ("(a, ", "b", ")"),
    ("(", "a", ",)"),
    ("[", "a", "]"),
    ("[a; ", "b", "]"),
    ("[", "a", "; b]"),
    ("a[", "b", "]"),
    ("f(", "a", ")"),
    ("f(a, ", "b", ", c)"),
    ("x.f(", "a", ")"),
    ("x.f::<t>(", "a", ")"),
    ("S { f: ", "a", " }"),
    ("S { f, ..", "a", " }"),
    ("S { 0: ", "a", ", }"),
    ("- ", "a", ""),
    ("! ", "a", ""),
    ("&", "a", ""),
    ("&mut ", "a", ""),
    ("&raw const ", "a", ""),
    ("return ", "a", ""),
    ("break ", "a", ""),
    ("break 'a ", "a", ""),
    ("let x = ", "a", ""),
    ("let x = a && ", "b", ""),
    ("..(", "a", ")"),
    (".. ", "a", ""),
    ("a..(", "b", ")"),
    ("a = ", "b", ""),
    ("a += ", "b", ""),
    ("a = b == ", "c", ""),
    (
        "a || b && c == d | e ^ f & g << h + i * j as t || ",
        "k",
        "",
    ),
    ("a = b || c && d | e ^ f & g << h + i * ", "k", ""),
    ("if ", "a", " {}"),
    ("if (", "a", ") {}"),
    ("if a {} else ", "{}", ""),
    ("if a {} else ", "if b {}", ""),
    ("while ", "a", " {}"),
    ("while (", "a", ") {}"),
    ("{", "", "}"),
    ("a!(", "", ")"),
    ("", "a", "?"),
    ("", "a", ".f"),
    ("", "a", ".0"),
    ("", "a", ".0.1"),
    ("", "a", ".1. f"),
    ("", "a", ".f()"),
    ("", "a", ".await"),
    ("", "a", "()"),
    ("", "a", "(b)"),
    ("", "a", "[b]"),
    ("", "a", " as t"),
    ("", "a", " as &mut t"),
    ("", "a", " + b"),
    ("", "a", " = b"),
    ("", "a", " && b"),
    ("", "a", " + b * c"),
    ("", "a", " * b + c"),
    ("", "a", " + .."),
    ("", "a", ", b"),
    ("", "a", "::b"),
    ("(", "a", " < b)"),
    ("(", "a", "..b)"),
];

/// Deep nesting and long chains, whole and with the middle gone.
pub fn deep(lines: &mut Lines) -> io::Result<()> {
    for &(before, middle, after) in NESTS {
        let each = fields(before).len() + fields(after).len();
        let most = (MOST_TOKENS - fields(middle).len()) / each;
        for count in [1, 2, 3, 4, 5, 8, 20, 100, 500, 1000, 2000, most, most + 1] {
            if count > most + 1 {
                continue;
            }
            let text = [
                before.repeat(count).as_str(),
                middle,
                after.repeat(count).as_str(),
            ]
            .concat();
            lines.four(&page(&text))?;
            lines.at_random(&page(&text))?;
            if !middle.is_empty() {
                let text = [before.repeat(count).as_str(), after.repeat(count).as_str()].concat();
                lines.at_random(&page(&text))?;
            }
        }
    }
    Ok(())
}

/// What is easily misread.
#[rustfmt::skip]
const TRAPS: &[&str] = &[
    // Equal signs, colons and dots that begin longer marks.
    "a == b", "a = = b", "let p == x", "let p = x", "let p => x", "a => b", "a <= b", "a < = b",
    "S { a :: b }", "S { a : : b }", "S { a : b }", "S { ...b }", "S { ..=b }", "S { . .b }", "S { .., }",
    "S { ..b, }", "S { ..b c }", "S { .. }", "S { a, .. }", "S { a .. }", "S { a, b, }", "S {}", "S { , }",
    "S { 0 }", "S { 0: a }", "S { 0: a, 1: b }", "S { 0.1: a }", "S { 1u8: a }", "S { -1: a }", "S { await }",
    "S { self }", "S { raw }", "S { a b }", "S { a: b c }", "S { a: b; }", "S { a: S { b: c } }", "::a::S { b }",
    // Where a half-open range lacks its end, and where it does not.
    "..", "a..", "a..b", "..b", "..=", "a..=", "..=b", "...", "a...b", "a.. .b", "a.. .", "a.. ?", "a..,", "a..;",
    "a.. => b", "a.. = b", "a.. == b", "a.. + b", "a.. += b", "a.. / b", "a.. % b", "a.. ^ b", "a.. > b", "a.. >> b",
    "a.. >= b", "a.. >>= b", "a.. < b", "a.. <= b", "a.. << b", "a.. <<= b", "a.. <- b", "a.. - b", "a.. -= b",
    "a.. -> b", "a.. * b", "a.. *= b", "a.. & b", "a.. && b", "a.. &= b", "a.. | b", "a.. || b", "a.. |= b",
    "a.. ! b", "a.. != b", "a.. as t", "a.. : b", "a.. :: b", "a.. @ b", "a.. {}", "a.. S {}", "a..=.b", "a..=?",
    "a..= = b", "a..= + b", "a..=as t", "a..={}", ".. ..", ".. .. ..", "a.. .. b", "a..(b)", "a..[b]", "a..'a",
    // What a range does to what follows it.
    "a..b <- c", "a..b + c <- d", "a..b + .. / c", "a..b..c", "a..b = c", "x = a..b = c", "a = b..c..d", "a + .. / c",
    "a = b = c..d = e", "a = .. = c", "a += .. = c", "a + .. + c", "a * .. / c", "a + .. = c", "a + .. == c",
    "a + ..b..c", "a < .. > c", "a = b..c...d", "a + -.. / c", "a + return .. / c", "x = a.. + d", "a.. .. + c",
    "x = a + .. = c", "a || .. && c", "a && .. || c", "a as t ..", "a as t .. as t", ".. as t", "..a as t", "a + .. as t",
    "a..b as t", "(a..b) = c", ".. = c", "-.. + a", ".. .f", ".. ?", "..(a)", ".. [0]", "let x = .. .f", "return .. ?",
    // Comparisons and the backward arrow.
    "a < b < c", "a == b != c", "(a < b) < c", "a < b && c < d", "a < b + c < d", "a < b | c > d", "a <- b", "a < - b",
    "a << - b", "a <<- b", "a <= - b", "a <=- b", "a <-= b", "a = b <- c", "a + b <- c", "..a <- b", "a.. <- b",
    // The flag inside and outside of groups.
    "S {} + a", "a + S {}", "if S {} {}", "if (S {}) {}", "if [S {}] {}", "if f(S {}) {}", "if a[S {}] {}",
    "if x.f(S {}) {}", "if (S {}, a) {}", "if S { a: b } {}", "if a + S {} {}", "if -S {} {}", "if &S {} {}",
    "if a..S {} {}", "if a.. {} {}", "if .. {} {}", "if let x = S {} {}", "if a! {} {}", "if x as S {} {}",
    "while S {} {}", "while (S {}) {}", "while a == S {} {}", "S {} {}", "match S {} {}", "if { a } {}", "if {} {} {}",
    "if a { S {} }", "{ S {} }", "if S { b: (S { c: d }) } {}", "f(S {} {})",
    // break and return, with values and without.
    "if return {} {}", "if break {} {}", "if return S {} {}", "if break S {} {}", "if return {}", "if break {}",
    "while return {}", "while break {}", "if break 'a {} {}", "if break 'a S {} {}", "break {}", "return {}",
    "break 'a: x", "break 'a: loop {}", "break 'a :: x", "break 'a : : x", "break 'a", "break 'a b", "break 'a 'b", "break 'a + b",
    "break", "break a", "break + a", "break - a", "break = a", "return", "return a", "return + a", "return - a", "return -= a", "return -> a",
    "return * a", "return *= a", "return & a", "return &= a", "return && a", "return &&= a", "return | a", "return |= a",
    "return || a", "return ||= a", "return ! a", "return != a", "return < a", "return <= a", "return << a", "return <<= a",
    "return <- a", "return > a", "return .. a", "return ... a", "return . a", "return :: a", "return : a", "return as t",
    "return else", "return in", "return mut", "return _", "return 'a", "return 'a: loop {}", "return 1", "return \"s\"", "return (a)", "return [a]",
    "return return", "return break", "break return a", "return a = b", "(return) = b", "return = b", "return ? + a", "return.f", "return as", "break as t",
    "a + return b + c", "a = return b = c", "-return a", "return = a = b", "continue", "continue 'a", "continue a", "continue 'a 'b", "continue + a",
    "continue 'a: x", "continue {}", "if continue {}", "loop { break }",
    // Raw addresses and references.
    "&raw const x", "&raw mut x", "&raw + x", "&raw", "&raw x", "&raw const", "&raw mut", "&&x", "&&raw mut x", "&&raw x",
    "& &x", "&mut x", "&mut mut x", "&mut raw const x", "&raw const raw mut x", "&raw const {}", "&raw mut S {}", "&raw.f", "&raw!()", "raw const x",
    "&raw const const {}", "&const x", "&&mut x", "& mut & x", "&&&x", "a & & b", "a && &b", "a &&& b", "a & mut b", "&=a", "&&=a", "-=a", "->a", "!=a", "*=a",
    "- -a", "--a", "!-*&a", "-a.f", "-a as t", "-a + b", "&a = b", "*a = b", "-1", "- 1.5", "-a..b", "!a?", "&a[0]", "*f()",
    // Members.
    "x.0", "x.0.1", "x.0 .1", "x.1.", "x.1. f", "x.1. 2", "x.1. 2.3", "x.1. await", "x.1. f(a)", "x.1. f::<t>(a)", "x.1. (a)", "x.1. if", "x.1. 2.",
    "x.4294967295", "x.4294967296", "x.4294967295.4294967295", "x.0.4294967296", "x.4294967296.0", "x.1u8", "x.007", "x.00.00", "x.-1", "x.-1.5", "x.- 1", "x.\"s\"", "x.'a",
    "x.f", "x.await", "x.await?", "x.await(a)", "x.await.f", "x.await::<t>()", "x.self", "x.try", "x._", "x.true", "x.crate", "x.raw", "x.union",
    "x.0(a)", "x.0::<t>(a)", "x.0::b", "x.f(a)", "x.f(a, b,)", "x.f(a b)", "x.f::<t>(a)", "x.f::<t>", "x.f::<t> a", "x.f::<t>>(a)", "x.f::<t>=(a)", "x.f::<<t>(a)", "x.f::(a)",
    "x.f::t(a)", "x.f : : <t>(a)", "x.f::<>(a)", "x.f::<&mut t>(a)", "x.f::<t, t>(a)", "x.f::< ::t>(a)", "x..f", "x. .f", "x.", "x. f . g", "x.f {}", "x.f!()", "1.f", "1.0.f", "1.0.1", "1 .0",
    // Casts.
    "a as t < b", "a as t << b", "x as t?", "x as t[0]", "x as t(y)", "x as t.f", "x as t.0", "x as t..", "x as t..b", "x as t...b", "x as t as t", "x as", "x as &t", "x as &mut t", "x as && t",
    "x as t::", "x as t::b", "x as ::t", "x as t::<t>", "x as t<t>", "x as t {}", "x as t = b", "x as t + b", "a + x as t", "a * x as t * b", "-x as t", "x as -t", "x as 1", "x as if", "x as Self", "(x as t).f",
    "x as t . f", "x as t : b", "x as t!", "x as t, b", "as t", "x as t is", "x as t as", "x as t .. .f",
    // Groups and what is left over in them.
    "()", "(a)", "(a,)", "(a, b)", "(,)", "(a,,)", "(a b)", "(a; b)", "(a", "f()", "f(a)", "f(a,)", "f(a b)", "f(,)", "f(a,,b)", "f(a)(b)", "[]", "[a]", "[a,]", "[a, b]", "[a b]", "[a; b]", "[a; b c]",
    "[a; b, c]", "[a; b;]", "[a, b; c]", "[a;]", "[;]", "[;a]", "[,]", "a[b]", "a[]", "a[b c]", "a[b, c]", "a[b,]", "a[b] [c]", "a[b c] +", "(a[b c])", "S { ..a b }", "S { f: a[b c] }", "((a) b)", "(a..)",
    "(..)", "[..]", "a[..]", "a[b..]", "f(..)", "[a..; b]", "f(a = b)", "(a = b, c)", "[a = b; c]", "(let x = a)", "(a,b)[0]", "(a)(b)", "[a][b]", "{}(a)", "{}[a]", "{}.f", "{} + a", "{}?",
    // if, while, let.
    "if a {}", "if a", "if", "if {}", "if a {} else {}", "if a {} else", "if a {} else b", "if a {} else if b {}", "if a {} else if b {} else {}", "if a {} else {} else {}", "if a {} else while b {}", "if a {} else 'a: {}",
    "if a {} else ()", "if a () {}", "if a {} (b)", "if a {} - b", "if a {} [b]", "if a {} .f", "if a {}?", "if a {} else {} + b", "if a {} = b", "if a b {}", "if if a {} {}", "if a {} as t", "-if a {}", "a + if b {} else {} * c",
    "if let x = a {}", "if let x = a && b {}", "if let x = a && let y = b {}", "if (let x = a) {}", "let x = a", "let x = a && b", "let x = a = b", "let x = a..b", "let x = a == b", "let x = a == b == c", "let x = a < b", "let x = a + b * c",
    "a * let x = b + c", "let x", "let", "let = a", "let x =", "let x a", "let S(a) = b", "let _ = a", "let 1 = a", "let -1 = a", "let x(a)(b) = c", "let x | y = a", "let x = let y = a", "let x = a || b", "let x = return a",
    "-let x = a", "let x = a as t", "let x = a += b", "let x = a | b", "let true = a", "while a {}", "while a", "while", "while {} {}", "while a {} + b", "while let x = a {}", "while a {} else {}",
    // Paths, macros, keyword expressions.
    "a::b", "a::", "a:: b", "a : : b", "::a", "::", "::a::b", "a::::b", "a::if", "a::<t>", "a::1", "self", "Self", "super", "crate", "self::a", "super::super::a", "a::self", "<t>::f", "< t", "<= t", "<- t", "<< t",
    "a!()", "a![]", "a!{}", "a!(b)", "a!{b}.f", "a!(b)(c)", "a!", "a! b", "a != b", "a ! = b", "a!==b", "a::b!()", "::a!()", "self!()", "a!() {}", "a! () + b", "a!(,;)", "a!!()", "true!()", "true {}", "true::a", "_!()",
    "_", "_ = a", "_ {}", "_.f", "true", "false", "1", "1.5", "\"s\"", "1 2", "'a", "'a: loop {}", "'a: {}", "'a loop {}", "loop {}", "loop", "loop a {}", "loop {} + a", "unsafe {}", "unsafe a", "const {}", "const a", "async {}", "async move {}",
    "async a", "try {}", "try a", "try!()", "try::a", "try != a", "try! a", "try", "try {} ?", "match a {}", "match", "move || a", "move", "static || a", "static", "for a in b {}", "for", "for <'a> || a", "yield", "yield a", "become", "become a",
    "| | a", "|| a", "|a| b", "|= a", "a || b", "a | b", "a || || b", "box a", "do a", "as", "await", "else", "in", "mut a", "ref a", "fn", "union", "auto", "default", "builtin", "dyn", "loop {}.f", "loop {} {}", "unsafe {} = a", "async {}.await",
    // Nothing, and marks that mean nothing.
    "", ",", ";", "@", "$", "~", "a @ b", "a $", "~a", "a ~ b", "?", ".", ".f", ": a", "=> a", "= a", "+ a", "/ a", "> a", "-> a", "a -> b", "a => b", "a : b", "a ; b", "a , b", "a b",
];

/// Every trap, both calls, both flags, and under other hosts.
pub fn traps(lines: &mut Lines) -> io::Result<()> {
    let columns = typed::page(&fields("a b c x y f S cents self try"));
    let names = format!("name:{}", crate::requests::hex_of(&columns));
    let hosts = [
        String::from("statement"),
        names.clone(),
        String::from("fence:1,2,3,4,5,6:statement"),
        String::from("fence:1:statement"),
        String::from("fence:1,2:statement"),
        String::from("fence:1,4:statement"),
        String::from("fence:1,2,3,5,6:statement"),
        String::from("fence:-:statement"),
        format!("fence:1:{names}"),
        format!("fence:1,3:fence:1,2,3:{names}"),
    ];
    for trap in TRAPS {
        let page = match typed::fields(trap) {
            Ok(fields) => typed::page(&fields),
            Err(at) => {
                return Err(io::Error::other(format!(
                    "`{trap}`: nothing begins at {at}"
                )))
            }
        };
        for host in &hosts {
            for call in ["enter", "front"] {
                for flag in ["yes", "no"] {
                    lines.line(call, host, flag, &page)?;
                }
            }
        }
    }
    Ok(())
}
