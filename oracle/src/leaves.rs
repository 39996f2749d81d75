//! Leaf files of the text, compiled once more so that a comparison can call
//! them alone. Thin wrappers, no meaning of their own. `assemble` makes
//! leaves/analog.rs: the text's, with the child module `state`.
use crate::time::{Duration, Time};

#[allow(dead_code)]
mod analog;
#[path = "devices/bma150/filter.rs"]
#[allow(dead_code)]
mod filter;
#[path = "devices/bma150/interrupts.rs"]
#[allow(dead_code)]
mod interrupts;
#[path = "devices/nv.rs"]
#[allow(dead_code)]
mod nv;

fn write_from(started: Time) -> nv::WriteCycle {
    nv::WriteCycle::start(started, Duration::from_millis(28)).expect("28 ms")
}

/// The byte of a stored write of `target` over `old` at register `address`,
/// `elapsed` units of 2^-64 s after its start.
pub fn torn_byte(old: u8, target: u8, address: u8, elapsed: u64) -> u8 {
    let now = Time::from_raw(u128::from(elapsed));
    torn_byte_at(old, target, address, Time::ZERO, now)
}

/// The same at the moment `now`, for a write that began at `started`.
pub fn torn_byte_at(old: u8, target: u8, address: u8, started: Time, now: Time) -> u8 {
    let cell = 0x20000 + u32::from(address);
    write_from(started).byte(old, target, cell, now)
}

/// When a write that began at `started` ends.
pub fn write_end(started: Time) -> Time {
    write_from(started).deadline
}

#[derive(Clone, Debug, PartialEq, Eq)]
pub struct Filter(filter::Filter);

impl Filter {
    pub fn new(bandwidth: u8) -> Self {
        Self(filter::Filter::new(bandwidth))
    }
    pub fn window(&self) -> usize {
        self.0.window()
    }
    pub fn select(&mut self, bandwidth: u8) {
        self.0.select(bandwidth);
    }
    /// The answer, and whether the window was full.
    pub fn push(&mut self, axis: usize, code: i16) -> (i16, bool) {
        let answer = self.0.push(axis, code);
        (answer, self.full(axis))
    }
    #[cfg(feature = "marks")]
    fn full(&self, axis: usize) -> bool {
        self.0.full[axis]
    }
    /// The text as it stands does not say.
    #[cfg(not(feature = "marks"))]
    fn full(&self, _: usize) -> bool {
        false
    }
}

#[derive(Clone, Debug, Default, PartialEq, Eq)]
pub struct Interrupts(interrupts::Interrupts);

impl Interrupts {
    pub fn configure(&mut self, registers: &[u8]) {
        self.0.configure(registers);
    }
    pub fn restart_acquisition(&mut self) {
        self.0.restart_acquisition();
    }
    pub fn reset(&mut self, registers: &[u8]) {
        self.0.reset(registers);
    }
    pub fn axis(&mut self, axis: usize, code: i16, registers: &[u8]) {
        self.0.axis(axis, code, registers);
    }
    pub fn cycle(&mut self, codes: [i16; 3], window: usize, registers: &[u8]) {
        self.0.cycle(codes, window, registers);
    }
    pub fn millisecond(&mut self, registers: &[u8]) {
        self.0.millisecond(registers);
    }
    pub fn status(&self) -> u8 {
        self.0.status()
    }
    pub fn output(&self, registers: &[u8]) -> bool {
        self.0.output(registers)
    }
    pub fn verifying(&self, registers: &[u8]) -> bool {
        self.0.verifying(registers)
    }
}

/// The low-pass stage of one axis.
#[derive(Clone, Copy, Debug, PartialEq, Eq)]
pub struct Axis(analog::Axis);

impl Axis {
    pub fn new(now: Time, input: i32) -> Self {
        Self(analog::Axis::new(now, input))
    }
    /// An axis of any state.
    pub fn of(at: Time, output: i64, velocity: i64) -> Self {
        Self(analog::state::axis(at, output, velocity))
    }
    pub fn advance(&mut self, now: Time, input: i32) -> i64 {
        self.0.advance(now, input).expect("time goes on")
    }
    /// Its moment, output and velocity.
    pub fn fields(&self) -> (Time, i64, i64) {
        analog::state::fields(&self.0)
    }
}
