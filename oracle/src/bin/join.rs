//! Joins command streams into one: `join [--count] FILES > COMMANDS`.
//!
//! Each part begins with an accepted start. `--count` prints the number of lines that
//! the bench program writes for the joined stream.
use oracle::streams::part;
use std::{
    fs,
    io::{self, Write},
    process::exit,
};

fn main() -> io::Result<()> {
    let mut words: Vec<_> = std::env::args().skip(1).collect();
    let count = words.first().is_some_and(|word| word == "--count");
    if count {
        words.remove(0);
    }
    if words.is_empty() {
        eprintln!("usage: join [--count] FILES > COMMANDS");
        exit(2);
    }
    let mut commands = Vec::new();
    for (n, path) in words.iter().enumerate() {
        commands.extend(part(&fs::read(path)?, true, n + 1 == words.len()));
    }
    if count {
        println!("{}", commands.len());
        return Ok(());
    }
    io::stdout().lock().write_all(&commands.concat())
}
