//! Drives a program as a host would, over pipes, one command at a time, and compares each line with the Rust text before the next
//! command goes out: `live SEED COUNT PROGRAM`.
//!
//! For every profile COUNT commands go out in each of three ways: whole, a byte at a time, and in two pieces.
use oracle::{
    bench::{Bench, Mode},
    command::{decode, Decoded},
    generator::{profiles::PROFILES, Generator},
    host::Host,
    streams::commands,
};
use std::{io, process::exit};

#[derive(Clone, Copy)]
enum Way {
    Whole,
    Bytes,
    Two,
}

const WAYS: [(Way, &str); 3] = [
    (Way::Whole, "whole commands"),
    (Way::Bytes, "bytes"),
    (Way::Two, "two pieces"),
];

/// The pieces of the command with this number.
fn pieces(way: Way, number: usize, command: &[u8]) -> Vec<&[u8]> {
    match way {
        Way::Whole => vec![command],
        Way::Bytes => command.chunks(1).collect(),
        Way::Two if command.len() < 2 => vec![command],
        Way::Two => {
            let (head, tail) = command.split_at(1 + number % (command.len() - 1));
            vec![head, tail]
        }
    }
}

/// The lines that the Rust text answers.
fn expected(stream: &[u8]) -> Vec<String> {
    let mut text = Vec::new();
    let mut bench = Bench::new(Mode::LinesAndDue, &mut text);
    if bench.run(stream).is_err() || bench.flush().is_err() {
        eprintln!("live: the text could not run its stream");
        exit(3);
    }
    drop(bench);
    String::from_utf8_lossy(&text)
        .lines()
        .map(str::to_string)
        .collect()
}

/// Drive one stream; gives the number of commands, or what went wrong.
fn drive(program: &str, way: Way, stream: &[u8]) -> Result<usize, String> {
    let fault = |error: io::Error| error.to_string();
    let mut host = Host::start(program).map_err(fault)?;
    let answers = expected(stream);
    let readable = |bytes: &&&[u8]| matches!(decode(bytes), Decoded::Command(..));
    let commands = commands(stream);
    let whole = commands.iter().take_while(readable).zip(&answers);
    let mut done = 0;
    for (number, (command, answer)) in whole.enumerate() {
        done += 1;
        for piece in pieces(way, number, command) {
            if host.has_more() {
                return Err(format!("command {number}: a line before the command was whole"));
            }
            host.send(piece).map_err(fault)?;
        }
        let line = host
            .line()
            .map_err(|error| format!("command {number} ({command:02x?}): {error}"))?;
        if &line != answer {
            return Err(format!("command {number} ({command:02x?})\nRust: {answer}\nport: {line}"));
        }
    }
    Ok(done)
}

fn main() {
    let words: Vec<_> = std::env::args().skip(1).collect();
    let numbers: Option<(u64, u64)> = match &words[..] {
        [seed, count, _] => seed.parse().ok().zip(count.parse().ok()),
        _ => None,
    };
    let Some((seed, count)) = numbers else {
        eprintln!("usage: live SEED COUNT PROGRAM");
        exit(2);
    };
    let mut total = 0;
    for profile in &PROFILES {
        let mut generator = Generator::new(seed, count, profile);
        generator.run();
        let before = total;
        for (way, name) in WAYS {
            match drive(&words[2], way, generator.bytes()) {
                Ok(done) => total += done,
                Err(what) => {
                    println!("difference: profile {}, {name}, {what}", profile.name);
                    exit(1);
                }
            }
        }
        println!("{}: {} commands, no difference", profile.name, total - before);
    }
    println!("{total} commands, each answered before the next went out: no difference");
}
