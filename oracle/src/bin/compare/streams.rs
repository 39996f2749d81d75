//! The random streams, several joined for one run of a program.
use oracle::{
    generator::{
        profiles::{Profile, PROFILES},
        Generator,
    },
    streams,
};
use std::ops::RangeInclusive;

/// Commands of a joined stream, if each stream is shorter.
const COMMANDS: u64 = 40_000;
/// Streams joined at most. Only the last can end with a command that cannot be
/// read.
const JOINED: u64 = 8;

pub struct Part {
    pub seed: u64,
    pub profile: &'static str,
    pub bytes: Vec<u8>,
}

impl Part {
    fn new(seed: u64, count: u64, profile: &'static Profile) -> Self {
        let mut generator = Generator::new(seed, count, profile);
        generator.run();
        Self {
            seed,
            profile: profile.name,
            bytes: generator.bytes().to_vec(),
        }
    }
}

/// Streams that one run of a program takes.
pub struct Batch {
    pub parts: Vec<Part>,
    /// The joined commands of each part.
    joined: Vec<Vec<Vec<u8>>>,
}

impl Batch {
    fn new(parts: Vec<Part>) -> Self {
        let last = parts.len() - 1;
        let joined = parts.iter().enumerate();
        let joined = joined.map(|(n, part)| streams::part(&part.bytes, n != 0, n == last));
        Self {
            joined: joined.collect(),
            parts,
        }
    }
    pub fn bytes(&self) -> Vec<u8> {
        self.joined.concat().concat()
    }
    pub fn lines(&self) -> usize {
        self.joined.iter().map(Vec::len).sum()
    }
    /// The part whose command a line answers.
    pub fn part(&self, line: usize) -> &Part {
        let mut left = line;
        for (part, joined) in self.parts.iter().zip(&self.joined) {
            if left < joined.len() {
                return part;
            }
            left -= joined.len();
        }
        &self.parts[self.parts.len() - 1]
    }
}

/// All batches of a range of seeds.
pub struct Streams {
    seeds: RangeInclusive<u64>,
    count: u64,
    /// Profiles left of the seed at hand.
    left: Option<(u64, usize)>,
}

impl Streams {
    pub fn new(seeds: RangeInclusive<u64>, count: u64) -> Self {
        Self {
            seeds,
            count,
            left: None,
        }
    }
    fn part(&mut self) -> Option<Part> {
        let (seed, n) = match self.left {
            Some((seed, n)) if n < PROFILES.len() => (seed, n),
            _ => (self.seeds.next()?, 0),
        };
        self.left = Some((seed, n + 1));
        Some(Part::new(seed, self.count, &PROFILES[n]))
    }
}

impl Iterator for Streams {
    type Item = Batch;
    fn next(&mut self) -> Option<Batch> {
        let size = (COMMANDS / self.count).clamp(1, JOINED);
        let parts: Vec<_> = (0..size).map_while(|_| self.part()).collect();
        (!parts.is_empty()).then(|| Batch::new(parts))
    }
}
