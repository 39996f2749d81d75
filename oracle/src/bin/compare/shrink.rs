//! Shrinking: commands are left out while the difference remains.
use crate::programs::{Program, Verdict};
use oracle::streams::commands;
use std::time::{Duration, Instant};

/// How long to go on.
const PATIENCE: Duration = Duration::from_secs(300);

struct Shrinking<'a> {
    program: &'a Program,
    /// The commands so far; the last one is answered differently.
    kept: Vec<Vec<u8>>,
    begun: Instant,
}

impl Shrinking<'_> {
    /// Keep `candidate`, up to its first difference, if it shows one.
    fn keep(&mut self, mut candidate: Vec<Vec<u8>>) -> bool {
        let Verdict::Differs(difference) = self.program.verdict(&candidate.concat()) else {
            return false;
        };
        candidate.truncate(difference.line + 1);
        self.kept = candidate;
        true
    }

    fn goes_on(&self) -> bool {
        self.begun.elapsed() < PATIENCE
    }

    /// Leave out runs of `length` commands. Gives whether one could go.
    fn pass(&mut self, length: usize) -> bool {
        let (mut at, mut shrunk) = (0, false);
        while at < self.kept.len() && self.goes_on() {
            let end = (at + length).min(self.kept.len());
            let candidate = [&self.kept[..at], &self.kept[end..]].concat();
            if self.keep(candidate) {
                shrunk = true;
            } else {
                at = end;
            }
        }
        shrunk
    }
}

/// A stream with as few commands as can be found that still differs.
pub fn shrink(program: &Program, stream: Vec<u8>) -> Vec<u8> {
    let all = commands(&stream);
    let all: Vec<_> = all.into_iter().map(<[u8]>::to_vec).collect();
    let mut shrinking = Shrinking {
        program,
        kept: all.clone(),
        begun: Instant::now(),
    };
    if !shrinking.keep(all) {
        return stream;
    }
    let mut length = shrinking.kept.len() / 2;
    while length > 1 {
        shrinking.pass(length);
        length /= 2;
    }
    while shrinking.pass(1) {}
    shrinking.kept.concat()
}
