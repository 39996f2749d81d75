//! Random records, by seed: runs of one topic each, with values beside the
//! limits.
mod stage;

use super::Record;
use crate::{leaves::torn_byte, random::Random};

/// The length of a stored write and its first part, in units of 2^-64 s.
const WRITE: u64 = ((28u128 << 64) / 1000) as u64;
const ERASE: u64 = WRITE / 2;
/// The registers that the interrupts read.
const READ: [u8; 8] = [0x0b, 0x11, 0x0c, 0x0d, 0x0e, 0x0f, 0x10, 0x15];

pub struct Records {
    random: Random,
    records: Vec<Record>,
    registers: [u8; 62],
    /// The codes of the last cycles, so that motion can be small.
    codes: [i16; 3],
}

impl Records {
    /// `count` records.
    pub fn make(seed: u64, count: usize) -> Vec<Record> {
        let mut made = Self {
            random: Random::new(seed, "leaves"),
            records: Vec::with_capacity(count + 1000),
            registers: [0; 62],
            codes: [0; 3],
        };
        while made.records.len() < count {
            let length = made.random.pick(&[1, 5, 40, 300]);
            let length = 1 + made.random.below(length);
            match made.random.below(7) {
                0 => made.times(length, Self::moment),
                1 => made.times(length, Self::torn),
                2 => made.times(length, Self::register),
                3 => made.times(length, Self::staged),
                4 => made.filtering(length),
                _ => made.interrupting(length),
            }
        }
        made.records.truncate(count);
        made.records
    }

    fn times(&mut self, length: u64, one: fn(&mut Self) -> Record) {
        for _ in 0..length {
            let record = one(self);
            self.records.push(record);
        }
    }

    fn near(&mut self, value: u64) -> u64 {
        value.wrapping_add(self.random.below(3)).wrapping_sub(1)
    }

    fn fraction(&mut self) -> u64 {
        let edge = ((u128::from(self.random.below(12000)) << 64) / 12000) as u64;
        let value = self.random.pick(&[0, 1 << 63, edge, edge, WRITE, ERASE]);
        if self.random.bool() {
            self.random.next()
        } else {
            self.near(value)
        }
    }

    fn seconds(&mut self) -> u32 {
        let bits = self.random.below(33);
        (self.random.next() >> 32) as u32 >> bits.min(31)
    }

    /// A moment some edges after another, or a unit beside.
    fn beside(&mut self, record: &mut Record, edges: u64) {
        let length = (u128::from(edges) << 64) / 12000;
        let start = super::raw(record.n.into(), record.x);
        let at = start + length + u128::from(self.random.below(3));
        (record.y, record.z) = super::halves(at.saturating_sub(1));
    }

    fn moment(&mut self) -> Record {
        let mut record = Record {
            kind: 1 + self.random.below(9) as u8,
            n: self.seconds(),
            x: self.fraction(),
            y: self.seconds().into(),
            z: self.fraction(),
            ..Record::default()
        };
        let edges = self.random.next() >> (40 + self.random.below(24));
        [record.a, record.b, record.c] = [16, 8, 0].map(|shift| (edges >> shift) as u8);
        match self.random.below(4) {
            0 => {
                let further = self.random.below(1 << 20);
                self.beside(&mut record, edges + further);
            }
            1 => record.y = record.n.into(),
            2 => (record.y, record.z) = (record.n.into(), record.x),
            _ => {}
        }
        if matches!(record.kind, 5 | 6) && self.random.bool() {
            record.x >>= self.random.below(64);
        }
        record
    }

    /// A moment at which a bit of a cell turns, or the one before.
    fn turn(&mut self, address: u8) -> u64 {
        let part = self.random.pick(&[0, ERASE]);
        let at = |elapsed| torn_byte(0xff, 0xff, address, part + elapsed);
        let (mut low, mut high) = (1, ERASE - 1);
        let level = at(self.random.below(ERASE));
        while low + 1 < high {
            let middle = low + (high - low) / 2;
            // Bits only fall in the first part and only rise in the second.
            let passed = (at(middle) ^ at(1)).count_ones() > (level ^ at(1)).count_ones();
            if passed {
                high = middle;
            } else {
                low = middle;
            }
        }
        part + high - self.random.below(2)
    }

    fn elapsed(&mut self, address: u8) -> u64 {
        match self.random.below(8) {
            0..=2 => self.turn(address),
            3 => {
                let limit = self.random.pick(&[1, ERASE, WRITE]);
                self.near(limit)
            }
            4 => self.random.next(),
            _ => self.random.below(WRITE + 2),
        }
    }

    fn torn(&mut self) -> Record {
        let mut record = Record {
            kind: self.random.pick(&[0x0a, 0x0a, 0x0a, 0x0a, 0x0b]),
            a: self.random.byte(),
            b: self.random.byte(),
            c: 0x2b + self.random.below(0x13) as u8,
            n: self.seconds(),
            x: self.fraction(),
            ..Record::default()
        };
        if self.random.once_in(4) {
            record.c = self.random.byte();
        }
        let start = super::raw(record.n.into(), record.x);
        let elapsed = u128::from(self.elapsed(record.c));
        let at = match self.random.below(20) {
            0 => start.saturating_sub(elapsed),
            1 => start + elapsed + (1 << 64),
            _ => start + elapsed,
        };
        (record.y, record.z) = super::halves(at);
        record
    }

    fn register(&mut self) -> Record {
        match self.random.below(3) {
            0 => self.coded(),
            1 => self.warm(),
            _ => self.access(),
        }
    }

    /// An acceleration at which the code turns, or beside it; or any.
    fn coded(&mut self) -> Record {
        let mut record = Record {
            kind: 0x10,
            a: self.random.byte(),
            b: self.random.byte(),
            c: self.random.byte(),
            z: self.random.below(3),
            ..Record::default()
        };
        if self.random.bool() {
            (record.a, record.b) = (0, 128);
        }
        let range = [2, 4, 8, 8][usize::from(record.c >> 3 & 3)];
        let offset = i64::from(record.b) << 2 | i64::from(record.a >> 6);
        let code = self.random.within(-514, 514);
        let mut value = code * range * 15625 / 8 - (offset - 512) * 31250;
        value += self.random.within(-2, 2);
        if self.random.once_in(4) {
            value = self.random.within(-1_000_000_000, 1_000_000_000);
        }
        record.n = value as i32 as u32;
        record
    }

    fn warm(&mut self) -> Record {
        let step = self.random.within(-3, 258);
        let mut value = step * 500 - 30_000 + self.random.within(-2, 2);
        if self.random.once_in(4) {
            value = i64::from(self.random.next() as i32);
        }
        if self.random.once_in(20) {
            value = self
                .random
                .pick(&[i64::from(i32::MIN), i64::from(i32::MAX)]);
        }
        Record {
            kind: 0x11,
            n: value as i32 as u32,
            ..Record::default()
        }
    }

    /// Only states that calls can reach: a quiet sensor was just reset, and a
    /// sleeping one has its sleep bit set.
    fn access(&mut self) -> Record {
        let limits = [0x09, 0x0a, 0x0b, 0x15, 0x16, 0x1d, 0x23, 0x2b, 0x3d, 0x3e];
        let mut record = Record {
            kind: 0x12,
            a: self.random.below(0x40) as u8,
            b: self.random.byte(),
            ..Record::default()
        };
        match self.random.below(6) {
            0 => record.a = self.random.below(0x80) as u8,
            1 | 2 => record.a = self.random.pick(&limits),
            _ => {}
        }
        record.x = u64::from(self.random.once_in(4)) << 3;
        if self.random.once_in(10) {
            record.x |= 1;
        } else {
            let clear = self.random.pick(&[0x00, 0x01, 0x20, 0x21, 0x21]);
            record.c = self.random.byte() & 0x3d & !clear;
            let copies = record.c & 0x20 != 0 || self.random.once_in(6);
            record.x |= u64::from(copies) << 1 | u64::from(record.c & 1) << 2;
        }
        // A write of what 0a holds would be taken and change nothing.
        if record.a == 0x0a && record.b & 0x3f == record.c {
            record.b ^= 8;
        }
        record
    }

    fn any_code(&mut self) -> i16 {
        match self.random.below(5) {
            0 => self.random.next() as i16,
            1 => self.random.within(-1, 1) as i16,
            2 => self.random.pick(&[-512, 511, -511, 512]),
            _ => self.random.within(-512, 511) as i16,
        }
    }

    fn bandwidth(&mut self) -> u8 {
        if self.random.once_in(10) {
            self.random.byte()
        } else {
            self.random.below(8) as u8
        }
    }

    fn filtering(&mut self, length: u64) {
        let axes = 1 + self.random.below(3);
        let steady = self.random.once_in(3);
        let mut code = self.any_code();
        for _ in 0..length {
            let mut record = Record {
                kind: 0x22,
                ..Record::default()
            };
            match self.random.below(60) {
                0 => record.kind = 0x20,
                1..=3 => record.kind = 0x21,
                _ => {}
            }
            record.a = self.bandwidth();
            if record.kind == 0x22 {
                record.a = self.random.below(axes) as u8;
            }
            if !steady || self.random.once_in(20) {
                code = self.any_code();
            }
            record.x = u64::from(code as u16);
            self.records.push(record);
        }
    }

    /// A threshold, often one that a code can meet exactly.
    fn threshold(&mut self, exact: u8) -> u8 {
        let any = self.random.byte();
        self.random.pick(&[0, 255, exact, exact, any, any, any])
    }

    /// A value for a register that the interrupts read.
    fn setting(&mut self, address: u8) -> u8 {
        let any = self.random.byte();
        let widths = self.registers[0x11];
        match address {
            0x0c => self.threshold(255 - 32 * (widths & 7)),
            0x0e => self.threshold(32 * (widths >> 3 & 7)),
            0x0d | 0x0f if !self.random.once_in(8) => any % 6,
            0x0b | 0x15 if self.random.bool() => any | 0x43,
            0x10 if self.random.bool() => any % 40,
            _ => any,
        }
    }

    fn set(&mut self, address: u8) {
        let value = self.setting(address);
        self.registers[usize::from(address)] = value;
        self.records.push(Record {
            kind: 0x30,
            a: address,
            b: value,
            ..Record::default()
        });
    }

    /// A code beside a limit of one of the criteria.
    fn limit_code(&mut self) -> i16 {
        let high = self.random.bool();
        let (threshold, hysteresis) = if high {
            (self.registers[0x0e], self.registers[0x11] >> 3 & 7)
        } else {
            (self.registers[0x0c], self.registers[0x11] & 7)
        };
        let mut level = i64::from(threshold) * 512;
        if self.random.bool() {
            let width = i64::from(hysteresis) * 16384;
            level += if high { -width } else { width };
        }
        let code = level.div_euclid(255) + self.random.within(-1, 2);
        if self.random.bool() {
            -code as i16
        } else {
            code as i16
        }
    }

    fn axis(&mut self) {
        let code = match self.random.below(5) {
            0 => self.any_code(),
            1 => 0,
            _ => self.limit_code(),
        };
        let axis = self.random.below(3) as u8;
        self.records.push(Record {
            kind: 0x35,
            a: axis,
            x: u64::from(code as u16),
            ..Record::default()
        });
    }

    fn cycle(&mut self) {
        if self.random.bool() {
            let axis = self.random.below(3) as usize;
            let step = i64::from(self.registers[0x10]) * 4 + self.random.within(-1, 1);
            let step = if self.random.bool() { step } else { -step };
            self.codes[axis] = (i64::from(self.codes[axis]) + step).clamp(-512, 511) as i16;
        }
        if self.random.once_in(40) {
            self.codes = [0; 3].map(|_: i16| self.any_code());
        }
        let mut window = 1u8 << self.random.below(7);
        if self.random.once_in(3) {
            window = self.random.byte();
        }
        if self.random.bool() {
            window = 1;
        }
        let [x, y, z] = self.codes.map(|code| u64::from(code as u16));
        self.records.push(Record {
            kind: 0x36,
            a: window,
            x,
            y,
            z,
            ..Record::default()
        });
    }

    fn interrupting(&mut self, length: u64) {
        if self.random.once_in(3) {
            for address in READ {
                self.set(address);
            }
        }
        for _ in 0..length {
            match self.random.weighted(&[30, 30, 30, 3, 1, 1, 1, 1]) {
                0 => self.axis(),
                1 => self.cycle(),
                2 => self.plain(0x37),
                3 => {
                    let address = self.random.pick(&READ);
                    self.set(address);
                }
                4 => self.plain(0x31),
                5 => self.plain(0x32),
                6 => self.plain(0x33),
                _ => self.plain(0x34),
            }
        }
    }

    fn plain(&mut self, kind: u8) {
        self.records.push(Record {
            kind,
            ..Record::default()
        });
    }
}
