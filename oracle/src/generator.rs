//! Random command streams. The generator holds the model, so that it knows
//! which calls are accepted and when something is due.
mod actions;
mod both;
mod buses;
mod corners;
mod marks;
mod means;
mod moments;
mod power;
pub mod profiles;
mod refused;
mod settings;
mod stories;
mod strikes;

use crate::{
    command::Command,
    model::{reserved, Model, Refusal, MEASUREMENT, TIME_LIMIT},
    random::Random,
    time::Time,
};
use profiles::Profile;
pub use settings::STOCK;

const SECOND: u128 = 1 << 64;
const MILLISECOND: u128 = SECOND / 1000;
const MICROSECOND: u128 = SECOND / 1_000_000;
/// The last time that a command can hold.
const LAST: u128 = TIME_LIMIT - 1;
/// Sample phases that each command allows to be simulated.
const PHASES_A_COMMAND: i128 = 180;

/// How far apart the calls of a transfer lie.
#[derive(Clone, Copy, Debug, PartialEq, Eq)]
enum Pace {
    /// All at one moment.
    Still,
    /// Up to a microsecond.
    Swift,
    /// A microsecond.
    Even,
    /// A few microseconds.
    Bus,
    /// On sample edges, or one unit beside them.
    Edges,
    /// Anything up to a millisecond.
    Slow,
}

pub struct Generator {
    random: Random,
    /// Decides how a sensor is started, and on nothing else.
    starts: Random,
    model: Model,
    profile: &'static Profile,
    out: Vec<u8>,
    made: u64,
    count: u64,
    /// Time of the next timed call.
    now: Time,
    pace: Pace,
    /// Start of the running sample clock.
    clock_start: Time,
    /// Start of the last stored write.
    write_start: Time,
    /// Sample phases that may still be simulated.
    credit: i128,
    phases: u128,
    /// Whether the data line is reported low while the sensor holds it.
    wired: bool,
    /// The select line as last set.
    selected: bool,
    /// Calls left before the transfer at hand breaks off.
    breaks_in: Option<u64>,
    codes: [i32; 3],
    /// The register that a sample at this very moment would set.
    tied: Option<u8>,
    replies: [u64; 10],
}

impl Generator {
    pub fn new(seed: u64, count: u64, profile: &'static Profile) -> Self {
        Self {
            random: Random::new(seed, profile.name),
            starts: Random::new(seed, &format!("{} starts", profile.name)),
            model: Model::default(),
            profile,
            out: Vec::new(),
            made: 0,
            count,
            now: Time::ZERO,
            pace: Pace::Bus,
            clock_start: Time::ZERO,
            write_start: Time::ZERO,
            credit: 4000,
            phases: 0,
            wired: true,
            selected: false,
            breaks_in: None,
            codes: [0; 3],
            tied: None,
            replies: [0; 10],
        }
    }

    /// Make the stream. The bytes so far are kept in `out` as they are made.
    pub fn run(&mut self) {
        if std::ptr::eq(self.profile, &profiles::MARKS) {
            return self.marks();
        }
        let tail = self.random.below(6);
        let whole = self.count.saturating_sub(u64::from(tail < 3));
        let count = std::mem::replace(&mut self.count, whole);
        if !self.random.once_in(4) {
            self.start();
        }
        while !self.done() {
            self.act();
        }
        self.count = count;
        if tail < 3 && count > 0 {
            self.unreadable(tail);
        }
    }

    pub fn bytes(&self) -> &[u8] {
        &self.out
    }
    /// Commands made.
    pub fn made(&self) -> u64 {
        self.made
    }
    /// Sample phases that the stream simulates.
    pub fn phases(&self) -> u128 {
        self.phases
    }
    /// Replies by number: 0 accepted, then the refusals of the table.
    pub fn replies(&self) -> [u64; 10] {
        self.replies
    }

    fn done(&self) -> bool {
        self.made >= self.count
    }

    /// Put a command that should be accepted; about one in ten is preceded
    /// by one that is refused.
    fn send(&mut self, command: Command) {
        if self.random.once_in(9) {
            self.refused();
        }
        if self.starts.once_in(60) {
            self.reserved_start();
        }
        self.put(command);
    }

    fn put(&mut self, command: Command) {
        if self.done() {
            return;
        }
        command.encode(&mut self.out);
        self.made += 1;
        self.credit += PHASES_A_COMMAND;
        let (sampling, writing) = (self.model.next_sample().is_some(), self.model.writing());
        match self.model.apply(&command) {
            Ok(Ok(_)) => self.replies[0] += 1,
            Ok(Err(refusal)) => self.replies[refusal as usize] += 1,
            Err(error) => panic!("{command:?}: {error:?}"),
        }
        if !sampling && self.model.next_sample().is_some() {
            self.clock_start = self.model.last();
        }
        if !writing && self.model.writing() {
            self.write_start = self.model.last();
        }
    }

    /// End with a command that cannot be read.
    fn unreadable(&mut self, kind: u64) {
        let bytes: &[u8] = match kind {
            0 => &[self.random.pick(&[0, 0x1f, 0x10, 0x80, 0xff])],
            1 => &[self.random.within(1, 12) as u8],
            _ => match self.random.below(3) {
                0 => &[6, self.random.within(2, 255) as u8],
                1 => &[7, 0, 0, 0, 0, 0, 0, 0, 0, 0, 0, 0, 0, 2],
                _ => &[9, 0, 0, 0, 0, 0, 0, 0, 0, 0, 0, 0, 0, 16],
            },
        };
        self.out.extend_from_slice(bytes);
        self.made += 1;
        self.replies[Refusal::Command as usize] += 1;
    }
}
