//! Compares two programs with the Rust text on random streams:
//! `compare SEEDS COUNT TRACE BENCH FOUND`.
//!
//! SEEDS is a number or a range like 1-20; each seed gives a stream of COUNT
//! commands for every profile. TRACE is the program whose lines have the next
//! due, BENCH the one without it. At a difference the stream is shrunk,
//! printed and written to the file FOUND.
mod programs;
mod shrink;
mod streams;

use oracle::streams::commands;
use programs::{Program, Verdict};
use std::{fs, ops::RangeInclusive, process::exit};
use streams::{Batch, Streams};

struct Arguments {
    seeds: RangeInclusive<u64>,
    count: u64,
    programs: [Program; 2],
    found: String,
}

fn range(word: &str) -> Option<RangeInclusive<u64>> {
    let (first, last) = word.split_once('-').unwrap_or((word, word));
    let range = first.parse().ok()?..=last.parse().ok()?;
    (!range.is_empty()).then_some(range)
}

fn arguments() -> Option<Arguments> {
    let words: Vec<_> = std::env::args().skip(1).collect();
    let [seeds, count, trace, bench, found] = &words[..] else {
        return None;
    };
    Some(Arguments {
        seeds: range(seeds)?,
        count: count.parse().ok().filter(|&count| count > 0)?,
        programs: [Program::trace(trace), Program::bench(bench)],
        found: found.clone(),
    })
}

fn hexadecimal(bytes: &[u8]) -> String {
    bytes.iter().map(|byte| format!("{byte:02x}")).collect()
}

/// The stream to shrink: that of the difference alone if it shows it, or the
/// whole batch.
fn narrowed(program: &Program, batch: &Batch, line: usize) -> Vec<u8> {
    let part = batch.part(line);
    match program.verdict(&part.bytes) {
        Verdict::Differs(_) => part.bytes.clone(),
        _ => batch.bytes(),
    }
}

fn report(program: &Program, batch: &Batch, line: usize, found: &str) {
    let stream = narrowed(program, batch, line);
    let before = commands(&stream).len();
    let shrunk = shrink::shrink(program, stream);
    let Verdict::Differs(difference) = program.verdict(&shrunk) else {
        unreachable!("a shrunk stream still differs");
    };
    let commands = commands(&shrunk);
    let command = commands.get(difference.line).copied().unwrap_or_default();
    let part = batch.part(line);
    println!(
        "difference: {}, seed {}, profile {}",
        program.name(),
        part.seed,
        part.profile
    );
    println!("command: {}", hexadecimal(command));
    println!("Rust:    {}", difference.rust);
    println!("port:    {}", difference.port);
    println!(
        "stream, shrunk from {before} commands to {}:",
        commands.len()
    );
    let lines: Vec<_> = commands.iter().map(|bytes| hexadecimal(bytes)).collect();
    println!("{}", lines.join("\n"));
    if let Err(error) = fs::write(found, lines.join("\n") + "\n") {
        eprintln!("compare: {found}: {error}");
    }
}

fn main() {
    let Some(arguments) = arguments() else {
        eprintln!("usage: compare SEEDS COUNT TRACE BENCH FOUND");
        exit(2);
    };
    let (mut streams, mut commands) = (0, 0);
    for batch in Streams::new(arguments.seeds, arguments.count) {
        let bytes = batch.bytes();
        for (program, verdict) in programs::verdicts(&arguments.programs, &bytes) {
            if let Verdict::Differs(difference) = verdict {
                report(program, &batch, difference.line, &arguments.found);
                exit(1);
            }
        }
        streams += batch.parts.len();
        commands += batch.lines();
    }
    println!("{streams} streams, {commands} commands, no difference");
}
