//! Random command streams: `gen [--stats] SEED COUNT PROFILE > COMMANDS`.
use oracle::generator::{
    profiles::{find, Profile, PROFILES},
    Generator,
};
use std::{
    io::{self, Write},
    panic::{catch_unwind, AssertUnwindSafe},
    process::exit,
};

fn usage() -> ! {
    eprintln!("usage: gen [--stats] SEED COUNT PROFILE > COMMANDS");
    let names: Vec<_> = PROFILES.iter().map(|profile| profile.name).collect();
    eprintln!("profiles: {}", names.join(" "));
    exit(2);
}

fn arguments() -> (bool, u64, u64, &'static Profile) {
    let mut words: Vec<_> = std::env::args().skip(1).collect();
    let stats = words.first().is_some_and(|word| word == "--stats");
    if stats {
        words.remove(0);
    }
    let [seed, count, profile] = &words[..] else {
        usage();
    };
    match (seed.parse(), count.parse(), find(profile)) {
        (Ok(seed), Ok(count), Some(profile)) => (stats, seed, count, profile),
        _ => usage(),
    }
}

fn main() {
    let (stats, seed, count, profile) = arguments();
    let mut generator = Generator::new(seed, count, profile);
    let ran = catch_unwind(AssertUnwindSafe(|| generator.run()));
    if stats {
        eprintln!(
            "{} commands, {} phases, replies {:?}",
            generator.made(),
            generator.phases(),
            generator.replies()
        );
    }
    if let Err(error) = io::stdout().lock().write_all(generator.bytes()) {
        eprintln!("gen: {error}");
        exit(1);
    }
    if ran.is_err() {
        eprintln!("gen: FINDING at command {}", generator.made());
        exit(3);
    }
}
