//! What the crate says of some pages, told in full, and a law that all its trees keep.

use crate::generators::generate;
use crate::judge::first_break;
use crate::requests::{answer_line, hex_of, Answer, Request};
use crate::tree::Node;
use crate::typed;

/// The answer to a call under the host `statement`.
fn answer(call: &str, flag: &str, text: &str) -> String {
    let page = typed::page(&typed::fields(text).expect("fields"));
    let mut answer = String::new();
    answer_line(
        &format!("{call} statement {flag} {}", hex_of(&page)),
        false,
        &mut answer,
    );
    answer
}

/// The tokens that a prefix uses, if it is accepted.
fn used(flag: &str, text: &str) -> Option<usize> {
    let answer = answer("front", flag, text);
    let words = answer.strip_prefix("ok ")?;
    words.split(' ').next()?.parse().ok()
}

#[test]
fn trees() {
    for (text, tree) in [
        ("a + b * c", "ok 5 1,0,0,1,-,3;1,0,2,3,-,2;1,0,4,5,-,-;20,3,2,5,1,-;20,1,0,5,0,-"),
        ("a - b - c", "ok 5 1,0,0,1,-,1;1,0,2,3,-,-;20,2,0,3,0,3;1,0,4,5,-,-;20,2,0,5,2,-"),
        ("a = b = c", "ok 5 1,0,0,1,-,3;1,0,2,3,-,2;1,0,4,5,-,-;21,0,2,5,1,-;21,0,0,5,0,-"),
        ("a + .. / c", "ok 6 1,0,0,1,-,1;22,0,2,4,-,-;20,1,0,4,0,3;1,0,5,6,-,-;20,4,0,6,2,-"),
        ("x.0.1", "ok 3 1,0,0,1,-,-;35,0,0,2,0,-;35,1,0,3,1,-"),
        ("x.1. f", "ok 4 1,0,0,1,-,-;35,1,0,2,0,-;13,0,0,4,1,-"),
        ("x.4294967295", "ok 3 1,0,0,1,-,-;35,4294967295,0,3,0,-"),
        ("&raw mut x", "ok 4 1,0,3,4,-,-;19,1,0,4,0,-"),
        ("a!(b)", "ok 5 1,0,0,1,-,-;4,0,0,5,0,-"),
        ("x as t..", "ok 5 1,0,0,1,-,1;32,0,2,3,-,-;23,0,0,3,0,-;22,0,0,5,2,-"),
        ("let _ = a", "ok 4 33,0,1,2,-,1;1,0,3,4,-,-;24,0,0,4,0,-"),
        ("if return {} {}", "ok 6 30,0,2,4,-,-;29,0,1,4,0,2;30,0,4,6,-,-;25,0,0,6,1,-"),
        (
            "S { a, 7: b, ..c }",
            "ok 12 1,0,0,1,-,1;6,0,2,3,-,3;1,0,6,7,-,-;6,7,4,7,2,4;1,0,10,11,-,-;5,1,0,12,0,-",
        ),
        (
            "x.f::<t>(a, b)",
            "ok 13 1,0,0,1,-,1;34,0,3,8,-,2;1,0,9,10,-,3;1,0,11,12,-,-;12,0,0,13,0,-",
        ),
        (
            "if a {} else if b {} else {}",
            "ok 12 1,0,1,2,-,1;30,0,2,4,-,5;1,0,6,7,-,3;30,0,7,9,-,4;30,0,10,12,-,-;25,0,5,12,2,-;25,0,0,12,0,-",
        ),
    ] {
        assert_eq!(answer("enter", "yes", text), tree, "{text}");
    }
}

#[test]
fn refusals() {
    for text in [
        "",
        "let p == x",
        "S { a :: b }",
        "a < b < c",
        "a..b + c <- d",
        "a.. < b",
        "a.. | b",
        "x.4294967296",
        "x.1u8",
        "x as t.f",
        "x as t?",
        "x as t[0]",
        "x as t(y)",
        "f(a b)",
        "a[b c]",
        "[a; b c]",
        "S { ..a b }",
        "break 'a: x",
        "a...b",
        "S { 0 }",
        "x.",
    ] {
        assert_eq!(used("yes", text), None, "{text}");
    }
}

#[test]
fn prefixes() {
    for (flag, text, tokens) in [
        ("yes", "a..b = c", 4),
        ("yes", "a..b <- c", 4),
        ("yes", "a.. - b", 5),
        ("yes", "a.. -= b", 3),
        ("yes", "a.. {}", 5),
        ("no", "a.. {}", 3),
        ("yes", "S {}", 3),
        ("no", "S {}", 1),
        ("no", "(S {})", 5),
        ("no", "f(S {})", 6),
        ("yes", "if S {} {}", 4),
        ("yes", "if break {} {}", 4),
        ("yes", "if return {} {}", 6),
        ("yes", "&raw + x", 4),
        ("yes", "a as t < b", 5),
        ("yes", "break 'a :: x", 5),
        ("yes", "a:: b::", 4),
    ] {
        assert_eq!(used(flag, text), Some(tokens), "{flag} {text}");
    }
}

#[test]
fn where_a_tree_breaks_the_binding_rule() {
    for (text, place) in [
        ("a + .. / c", Some(4)),
        ("a = b..c..d", Some(6)),
        ("a = .. = c", Some(4)),
        ("a..b + .. / c", Some(7)),
        ("a = b = c..d = e", Some(8)),
        ("a + .. + c", None),
        ("a + ..b..c", None),
        ("a + -.. / c", None),
    ] {
        let page = hex_of(&typed::page(&typed::fields(text).expect("fields")));
        let request = Request::of(&format!("enter statement yes {page}")).expect("a request");
        match request.answer() {
            Answer::Ok(_, nodes) => assert_eq!(first_break(&nodes), place, "{text}"),
            _ => panic!("{text} is refused"),
        }
    }
}

/// Children come first, from left to right; a node spans its children; each token that is used
/// belongs to exactly one node, and each node has one.
fn keeps_the_law(used: usize, nodes: &[Node]) -> bool {
    let mut owners = vec![0; used];
    let mut roots: Vec<usize> = Vec::new();
    for (number, node) in nodes.iter().enumerate() {
        if node.from >= node.to || node.to > used {
            return false;
        }
        let mut owned = vec![true; node.to - node.from];
        let mut next = node.first;
        let mut children = Vec::new();
        while let Some(child) = next {
            let Node { from, to, .. } = nodes[child];
            if child >= number || from < node.from || to > node.to {
                return false;
            }
            owned[from - node.from..to - node.from].fill(false);
            children.push(child);
            next = nodes[child].next;
        }
        // The children are the last trees that stand by themselves.
        let rest = roots.len().checked_sub(children.len());
        if rest.map(|rest| roots.split_off(rest)) != Some(children) {
            return false;
        }
        roots.push(number);
        if !owned.contains(&true) {
            return false;
        }
        for (place, _) in owned.iter().enumerate().filter(|(_, owned)| **owned) {
            owners[node.from + place] += 1;
        }
    }
    roots == [nodes.len() - 1] && owners.iter().all(|count| *count == 1)
}

#[test]
fn every_token_has_one_owner() {
    for (kind, count) in [("mixed", 20_000), ("rules", 20_000), ("traps", 50_000)] {
        let mut lines = Vec::new();
        generate(7, count, kind, &mut lines).expect("requests");
        let mut accepted = 0;
        for line in String::from_utf8(lines).expect("text").lines() {
            if let Answer::Ok(used, nodes) = Request::of(line).expect("a request").answer() {
                assert!(keeps_the_law(used, &nodes), "{line}");
                accepted += 1;
            }
        }
        assert!(
            accepted > 1_000,
            "{kind}: too few are accepted to say anything"
        );
    }
}
