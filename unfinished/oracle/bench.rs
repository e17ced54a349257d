//! Times the port against the crate, on the same pages in one run.
//!
//! The port checks the page, reads it and writes numbered nodes on a sheet. The crate is timed twice: over tokens that are
//! ready, and with the making of the tokens (a vector, from the same page). Its tree is let go each time.

use oracle::page;
use oracle::requests::{hex_of, Request};
use oracle::typed;
use std::hint::black_box;
use std::thread;
use std::time::Instant;

extern "C" {
    /// Enters a page so many times on one sheet, and answers how many nodes it has in the end.
    fn lipahoru_enter_times(page: *const u8, length: usize, structs: bool, times: u64) -> usize;
}

/// A page of at most so many tokens: a beginning, steps and an end, each step with a closer behind all others.
fn grown(tokens: usize, first: &str, step: &str, closer: &str, last: &str) -> Vec<u8> {
    let page = |times: usize| {
        let parts = [first, &step.repeat(times), last, &closer.repeat(times)];
        page_of(&parts.concat())
    };
    let least = tokens_of(&page(0));
    let each = tokens_of(&page(1)) - least;
    page((tokens - least) / each)
}

fn page_of(text: &str) -> Vec<u8> {
    typed::page(&typed::fields(text).expect("a text that spells fields"))
}

fn tokens_of(page: &[u8]) -> usize {
    page::tokens(page).expect("a page").len()
}

/// The least time of one call, in nanoseconds, over some rounds.
fn least(times: u64, mut call: impl FnMut(u64)) -> f64 {
    let mut best = f64::MAX;
    for _ in 0..7 {
        let start = Instant::now();
        call(times);
        best = best.min(start.elapsed().as_nanos() as f64 / times as f64);
    }
    best
}

fn measure(name: &str, page: &[u8]) {
    let line = ["enter statement yes ", &hex_of(page)].concat();
    let request = Request::of(&line).expect("a request");
    let tokens = page::tokens(page).expect("a page");
    let times = 2_000_000 / tokens.len() as u64;
    assert_eq!(request.parse(&tokens), Some(tokens.len()), "{name} is accepted");
    let port = least(times, |n| {
        let nodes = unsafe { lipahoru_enter_times(page.as_ptr(), page.len(), true, n) };
        assert_ne!(black_box(nodes), 0);
    });
    let crate_alone = least(times, |n| {
        for _ in 0..n {
            black_box(request.parse(black_box(&tokens)));
        }
    });
    let crate_whole = least(times, |n| {
        for _ in 0..n {
            let tokens = page::tokens(black_box(page)).expect("a page");
            black_box(request.parse(&tokens));
        }
    });
    let each = |time: f64| time / tokens.len() as f64;
    println!(
        "{name:<22} {:>6} {:>12.0} {:>8.1} {:>12.0} {:>8.1} {:>7.2} {:>12.0} {:>8.1} {:>7.2}",
        tokens.len(),
        port,
        each(port),
        crate_alone,
        each(crate_alone),
        crate_alone / port,
        crate_whole,
        each(crate_whole),
        crate_whole / port,
    );
}

fn run() {
    println!(
        "{:<22} {:>6} {:>12} {:>8} {:>12} {:>8} {:>7} {:>12} {:>8} {:>7}",
        "page", "tokens", "port ns", "a token", "parse ns", "a token", "ratio", "with tokens", "a token", "ratio"
    );
    for size in [16, 256, 4096] {
        let pages = [
            ("matching rule", "day < due", " && amount == rent + fee", "", ""),
            ("sum", "a", " + b", "", ""),
            ("sums and products", "a", " * b + c - d / e", "", ""),
            ("assignments", "a", " = b", "", ""),
            ("calls and members", "a", ".f(b, c)[0]?", "", ""),
            ("list", "f(a", ", b", "", ")"),
            ("struct", "S { a: b", ", c: d", "", " }"),
            ("parentheses", "", "(", ")", "a"),
            ("calls in calls", "", "f(", ")", "a"),
            ("unary", "", "- ", "", "a"),
            ("else if", "if a {}", " else if b {}", "", ""),
        ];
        for (name, first, step, closer, last) in pages {
            measure(name, &grown(size, first, step, closer, last));
        }
    }
}

fn main() {
    let thread = thread::Builder::new().stack_size(1 << 28).spawn(run);
    thread.expect("a thread").join().expect("a run");
}
