//! Records that ask one function of the text each, and their answers: kinds 01
//! to 0b here, 10 to 12 in `registers`, 20 to 22 and 30 to 37 here, 40 and 41
//! in `stage`, which says their form.
pub mod random;
mod registers;
mod stage;

pub(crate) use registers::{due, place, sampled, STOCK};

use crate::{
    leaves::{torn_byte_at, write_end, Filter, Interrupts},
    time::{Clock, Duration, Time},
};

pub const RECORD: usize = 32;
pub const ANSWER: usize = 16;

/// The kind says what is asked. All numbers are big-endian in a stream.
#[derive(Clone, Copy, Debug, Default, PartialEq, Eq)]
pub struct Record {
    pub kind: u8,
    pub a: u8,
    pub b: u8,
    pub c: u8,
    pub n: u32,
    pub x: u64,
    pub y: u64,
    pub z: u64,
}

pub type Answer = (u64, u64);

fn number(bytes: &[u8]) -> u64 {
    bytes
        .iter()
        .fold(0, |number, &byte| number << 8 | u64::from(byte))
}

fn raw(seconds: u64, fraction: u64) -> u128 {
    u128::from(seconds) << 64 | u128::from(fraction)
}

fn halves(raw: u128) -> Answer {
    ((raw >> 64) as u64, raw as u64)
}

impl Record {
    pub fn from_bytes(bytes: &[u8]) -> Self {
        Self {
            kind: bytes[0],
            a: bytes[1],
            b: bytes[2],
            c: bytes[3],
            n: number(&bytes[4..8]) as u32,
            x: number(&bytes[8..16]),
            y: number(&bytes[16..24]),
            z: number(&bytes[24..32]),
        }
    }

    pub fn bytes(&self) -> [u8; RECORD] {
        let mut bytes = [0; RECORD];
        bytes[..4].copy_from_slice(&[self.kind, self.a, self.b, self.c]);
        bytes[4..8].copy_from_slice(&self.n.to_be_bytes());
        for (place, value) in [self.x, self.y, self.z].into_iter().enumerate() {
            bytes[8 + 8 * place..][..8].copy_from_slice(&value.to_be_bytes());
        }
        bytes
    }

    /// The first moment of a record about moments.
    fn first(&self) -> Time {
        Time::from_raw(raw(self.n.into(), self.x))
    }

    /// The second one.
    fn second(&self) -> Time {
        Time::from_raw(raw(self.y, self.z))
    }

    /// The clock from the first moment on, some edges further.
    fn clock(&self) -> Clock {
        let mut clock = Clock::new(self.first(), 12000, 1).expect("12000 Hz");
        let edges = number(&[self.a, self.b, self.c]);
        clock.advance(edges).expect("an early edge");
        clock
    }

    fn moments(&self) -> Answer {
        let (first, second) = (self.first(), self.second());
        let clock = self.clock();
        match self.kind {
            0x01 => {
                let length = Duration::from_raw(second.raw());
                halves(first.checked_add(length).expect("an early moment").raw())
            }
            0x02 => halves(second.duration_since(first).unwrap_or_default().raw()),
            0x03 => halves(first.raw().saturating_add(1)),
            0x04 => (u64::from(first < second), u64::from(first == second)),
            0x05 => halves(Duration::from_millis(self.x).raw()),
            0x06 => halves(Duration::from_micros(self.x).raw()),
            0x07 => (clock.edges_before(second), clock.ordinal()),
            0x08 => halves(clock.at.raw()),
            0x09 => halves(clock.next().expect("an early edge").raw()),
            0x0a => (
                0,
                torn_byte_at(self.a, self.b, self.c, first, second).into(),
            ),
            _ => halves(write_end(first).raw()),
        }
    }
}

fn code(bits: u64) -> i16 {
    bits as u16 as i16
}

/// A code in an answer has 32768 added.
fn raised(code: i16) -> u64 {
    (i64::from(code) + 32768) as u64
}

fn truths(x: bool, y: bool) -> u64 {
    u64::from(x) << 1 | u64::from(y)
}

/// What the records keep from one to the next.
pub struct Leaves {
    filter: Filter,
    interrupts: Interrupts,
    registers: [u8; 62],
}

impl Default for Leaves {
    fn default() -> Self {
        Self {
            filter: Filter::new(6),
            interrupts: Interrupts::default(),
            registers: [0; 62],
        }
    }
}

impl Leaves {
    pub fn answer(&mut self, record: &Record) -> Answer {
        match record.kind {
            0x10 => registers::coded(record),
            0x11 => registers::temperature(record),
            0x12 => registers::access(record),
            0..=0x1f => record.moments(),
            0x20..=0x2f => self.filtered(record),
            0x30..=0x3f => self.interrupted(record),
            0x40 => stage::rested(record),
            _ => stage::advanced(record),
        }
    }

    fn filtered(&mut self, record: &Record) -> Answer {
        let mut answer = 0;
        match record.kind {
            0x20 => self.filter = Filter::new(record.a),
            0x21 => self.filter.select(record.a),
            _ => {
                let (code, full) = self.filter.push(record.a.into(), code(record.x));
                answer = raised(code) | u64::from(full) << 16;
            }
        }
        (self.filter.window() as u64, answer)
    }

    fn interrupted(&mut self, record: &Record) -> Answer {
        let codes = [record.x, record.y, record.z].map(code);
        let interrupts = &mut self.interrupts;
        let registers = &mut self.registers;
        match record.kind {
            0x30 => registers[usize::from(record.a)] = record.b,
            0x31 => *interrupts = Interrupts::default(),
            0x32 => interrupts.configure(registers),
            0x33 => interrupts.restart_acquisition(),
            0x34 => interrupts.reset(registers),
            0x35 => interrupts.axis(record.a.into(), codes[0], registers),
            0x36 => interrupts.cycle(codes, record.a.into(), registers),
            0x37 => interrupts.millisecond(registers),
            _ => {}
        }
        (
            interrupts.status().into(),
            truths(
                interrupts.output(registers),
                interrupts.verifying(registers),
            ),
        )
    }
}
