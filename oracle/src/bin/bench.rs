//! The bench program over the Rust text: commands in, one line for each out.
use oracle::bench::{Bench, Mode, Stop};
use std::{
    io,
    panic::{catch_unwind, AssertUnwindSafe},
    process::exit,
};

fn mode() -> Mode {
    let mut mode = Mode::Lines;
    for argument in std::env::args().skip(1) {
        mode = match argument.as_str() {
            "--due" => Mode::LinesAndDue,
            "--due-only" => Mode::DueOnly,
            _ => {
                eprintln!("usage: bench [--due | --due-only] < COMMANDS > LINES");
                exit(2);
            }
        };
    }
    mode
}

fn main() {
    let mut bench = Bench::new(mode(), io::stdout());
    let ran = catch_unwind(AssertUnwindSafe(|| bench.run(io::stdin().lock())));
    let flushed = bench.flush();
    let fault = match ran {
        Err(_) => Some("the text panicked".to_string()),
        Ok(Err(Stop::Fault(what))) => Some(what),
        Ok(Err(Stop::Io(error))) => {
            eprintln!("bench: {error}");
            exit(1);
        }
        Ok(Ok(())) => None,
    };
    if let Some(what) = fault {
        eprintln!("bench: FINDING at command {}: {what}", bench.number());
        exit(3);
    }
    if let Err(error) = flushed {
        eprintln!("bench: {error}");
        exit(1);
    }
}
