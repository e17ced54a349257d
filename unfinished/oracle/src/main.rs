//! The program. Without an argument it answers requests, one a line, from standard input.

use oracle::judge::Verdict;
use oracle::requests::{answer_line, hex_of};
use oracle::sheet::Desk;
use oracle::{generators, typed};
use std::io::{self, BufRead, Write};
use std::process::ExitCode;
use std::thread;

/// The crate reads by recursion, and a page may nest as deep as it has tokens.
const STACK: usize = 1 << 28;

const USAGE: &str = "\
usage: oracle                        answers requests from standard input
       oracle why                    the same, and a refusal tells the crate's complaint
       oracle page TEXT              prints the page of a typed text, in hex
       oracle judge                  reads requests with the port's answers, apart by a tab, and
                                     tells where the port and the crate disagree
       oracle expect                 prints each request with the answer that it must get, apart by a tab,
                                     where the crate tells it
       oracle gen SEED COUNT KIND    prints requests
";

fn main() -> ExitCode {
    let run = thread::Builder::new()
        .stack_size(STACK)
        .spawn(run)
        .expect("a thread");
    run.join().unwrap_or(ExitCode::FAILURE)
}

fn usage() -> ExitCode {
    eprint!("{USAGE}");
    for (kind, what) in generators::KINDS {
        eprintln!("  KIND {kind:<8} {what}");
    }
    ExitCode::FAILURE
}

fn run() -> ExitCode {
    let arguments: Vec<String> = std::env::args().skip(1).collect();
    let words: Vec<&str> = arguments.iter().map(String::as_str).collect();
    let done = match words[..] {
        [] => answer(false),
        ["why"] => answer(true),
        ["judge"] => judge(),
        ["expect"] => expect(),
        ["page", text] => print_page(text),
        ["gen", seed, count, kind] => match (seed.parse(), count.parse()) {
            (Ok(seed), Ok(count)) => generate(seed, count, kind),
            _ => return usage(),
        },
        _ => return usage(),
    };
    match done {
        Ok(()) => ExitCode::SUCCESS,
        // Whoever read our lines has had enough of them.
        Err(error) if error.kind() == io::ErrorKind::BrokenPipe => ExitCode::SUCCESS,
        Err(error) => {
            eprintln!("oracle: {error}");
            ExitCode::FAILURE
        }
    }
}

/// Does something with each line of standard input, and is told whether it is the last that waits.
/// No line is kept.
fn for_each_line(mut act: impl FnMut(&str, bool) -> io::Result<()>) -> io::Result<()> {
    let mut input = io::BufReader::with_capacity(1 << 16, io::stdin().lock());
    let mut line = Vec::new();
    loop {
        line.clear();
        if input.read_until(b'\n', &mut line)? == 0 {
            return Ok(());
        }
        if line.last() == Some(&b'\n') {
            line.pop();
        }
        let last = input.buffer().is_empty();
        act(&String::from_utf8_lossy(&line), last)?;
    }
}

fn answer(why: bool) -> io::Result<()> {
    let mut output = io::BufWriter::new(io::stdout().lock());
    let mut reply = String::new();
    for_each_line(|line, last| {
        reply.clear();
        answer_line(line, why, &mut reply);
        reply.push('\n');
        output.write_all(reply.as_bytes())?;
        if last {
            output.flush()?;
        }
        Ok(())
    })
}

/// How many disagreements are shown in full.
const SHOWN: u64 = 100;

fn judge() -> io::Result<()> {
    let mut verdict = Verdict::default();
    for_each_line(|line, _| {
        let (request, answer) = line.split_once('\t').unwrap_or((line, ""));
        match verdict.add(request, answer) {
            Some(disagreement) if verdict.disagreements <= SHOWN => println!("{disagreement}"),
            _ => {}
        }
        Ok(())
    })?;
    print!("{verdict}");
    if verdict.disagreements + verdict.unknown_causes > 0 {
        return Err(io::Error::other("the port and the crate disagree"));
    }
    Ok(())
}

fn expect() -> io::Result<()> {
    let mut output = io::BufWriter::new(io::stdout().lock());
    let mut desk = Desk::default();
    for_each_line(|line, _| match desk.expected(line) {
        Some(answer) => writeln!(output, "{line}\t{answer}"),
        None => Ok(()),
    })?;
    output.flush()
}

fn generate(seed: u64, count: u64, kind: &str) -> io::Result<()> {
    let mut output = io::BufWriter::new(io::stdout().lock());
    generators::generate(seed, count, kind, &mut output)?;
    output.flush()
}

fn print_page(text: &str) -> io::Result<()> {
    match typed::fields(text) {
        Ok(fields) => println!("{}", hex_of(&typed::page(&fields))),
        Err(at) => {
            return Err(io::Error::other(format!(
                "nothing begins at byte {at} of the text"
            )));
        }
    }
    Ok(())
}
