//! The serial pins of the text: `pins gen SEED COUNT > EVENTS` and
//! `pins answer < EVENTS > ANSWERS`.
use oracle::pins::{answers, random::Events};
use std::{
    io::{self, Read, Write},
    process::exit,
};

fn main() -> io::Result<()> {
    let words: Vec<_> = std::env::args().skip(1).collect();
    let words: Vec<_> = words.iter().map(String::as_str).collect();
    let out = match words[..] {
        ["answer"] => {
            let mut events = Vec::new();
            io::stdin().lock().read_to_end(&mut events)?;
            answers(&events)
        }
        ["gen", seed, count] => {
            let (Ok(seed), Ok(count)) = (seed.parse(), count.parse()) else {
                exit(2);
            };
            Events::make(seed, count)
        }
        _ => {
            eprintln!("usage: pins gen SEED COUNT > EVENTS");
            eprintln!("       pins answer < EVENTS > ANSWERS");
            exit(2);
        }
    };
    io::stdout().lock().write_all(&out)
}
