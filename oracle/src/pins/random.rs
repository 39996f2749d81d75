//! Random events of the serial pins, by seed: whole and broken transfers over
//! I2C and SPI, stray edges between them.
use super::Pins;
use crate::random::Random;

pub struct Events {
    random: Random,
    events: Vec<u8>,
    pins: Pins,
    /// The I2C lines as last reported: clock and data.
    lines: [bool; 2],
    /// One event in so many is a stray one.
    strays: u64,
}

impl Events {
    /// `count` events.
    pub fn make(seed: u64, count: usize) -> Vec<u8> {
        let mut made = Self {
            random: Random::new(seed, "pins"),
            events: Vec::with_capacity(count + 10_000),
            pins: Pins::start(0x88),
            lines: [true; 2],
            strays: 0,
        };
        while made.events.len() < count {
            made.session();
        }
        made.events.truncate(count);
        made.events
    }

    /// A start, and transfers after it.
    fn session(&mut self) {
        let start = self.random.pick(&[0x60, 0x61]);
        self.events.push(start);
        self.pins.event(start);
        self.strays = self.random.pick(&[20, 200, 2000, u64::MAX]);
        for _ in 0..1 + self.random.below(30) {
            if self.pins.quiet() && !self.random.once_in(4) {
                self.send(0x40);
            }
            match self.random.below(9) {
                0..=2 => self.i2c(),
                3..=5 => self.spi(),
                6 => self.noise(),
                _ => {
                    let address = self.address() | 0x80;
                    self.send(address);
                }
            }
        }
    }

    /// An event, unless it would make the sensor more than registers: then
    /// the transfer is given up by a change of select.
    fn send(&mut self, event: u8) {
        let before = self.pins.clone();
        self.pins.event(event);
        if self.pins.plain() {
            self.events.push(event);
            return;
        }
        self.pins = before;
        for level in [0x11, 0x10] {
            self.events.push(level);
            self.pins.event(level);
        }
    }

    /// An event of a transfer, with a stray one now and then before it or
    /// instead of it.
    fn edge(&mut self, event: u8) {
        // The quiet time may end within a transfer.
        if self.pins.quiet() && self.random.once_in(8) {
            self.send(0x40);
        }
        if self.random.once_in(self.strays) {
            let stray = self.stray();
            self.send(stray);
            if self.random.bool() {
                return;
            }
        }
        self.send(event);
    }

    fn stray(&mut self) -> u8 {
        match self.random.below(8) {
            0..=3 => self.random.below(16) as u8,
            4 => 0x10 | self.random.below(2) as u8,
            5 | 6 => 0x20 | self.random.below(2) as u8,
            _ => 0x30,
        }
    }

    fn noise(&mut self) {
        for _ in 0..self.random.below(80) {
            let stray = self.stray();
            self.send(stray);
        }
    }

    /// A register: mostly one that holds a byte.
    fn address(&mut self) -> u8 {
        match self.random.below(8) {
            0 => self.random.below(0x80) as u8,
            1 | 2 => self.random.pick(&[0x0a, 0x0a, 0x14, 0x15]),
            3 => 0x16 + self.random.below(0x15) as u8,
            4 => self.random.below(0x0a) as u8,
            _ => 0x0b + self.random.below(9) as u8,
        }
    }

    /// How many bytes are read: seldom all registers and more.
    fn reads(&mut self) -> u64 {
        let long = self.random.pick(&[1, 1, 2, 4, 8, 8, 8, 30]);
        if self.random.once_in(40) {
            return 100 + self.random.below(60);
        }
        1 + self.random.below(long)
    }

    /// A byte for a register that leaves the sensor all registers.
    fn value(&mut self, address: u8) -> u8 {
        let any = self.random.byte();
        match address {
            0x0a if self.random.bool() => any & 0xde | 2,
            0x0a => any & 0xdc | 0x10 * self.random.below(2) as u8,
            0x15 => any & 0xf6 | 8,
            _ => any,
        }
    }

    /// A report of the lines: clock and data as they are now.
    fn lines(&mut self, clock: bool, data: bool) {
        let bits = [self.lines[0], self.lines[1], clock, data];
        let event = bits
            .into_iter()
            .fold(0, |event, bit| event << 1 | u8::from(bit));
        self.edge(event);
        self.lines = [clock, data];
    }

    fn condition(&mut self, start: bool) {
        self.lines(false, start);
        self.lines(true, start);
        self.lines(true, !start);
        if start {
            self.lines(false, false);
        }
    }

    fn bit(&mut self, bit: bool) {
        if self.lines[1] != bit {
            self.lines(false, bit);
        }
        self.lines(true, bit);
        self.lines(false, bit);
    }

    /// A byte and the ninth clock, as much of it as the transfer has.
    fn byte(&mut self, byte: u8, ninth: bool) {
        let bits = if self.random.once_in(60) {
            self.random.below(9)
        } else {
            8
        };
        for bit in 0..bits {
            self.bit(byte << bit & 0x80 != 0);
        }
        self.bit(ninth);
    }

    fn header(&mut self, read: bool) {
        self.condition(true);
        let mut byte = 0x70 | u8::from(read);
        if self.random.once_in(15) {
            byte = self.random.byte();
        }
        self.byte(byte, true);
    }

    fn i2c(&mut self) {
        self.edge(0x10);
        if self.random.bool() {
            self.header(false);
            for _ in 0..1 + self.random.below(3) {
                let address = self.address();
                self.byte(address, true);
                if self.random.once_in(4) {
                    break;
                }
                let value = self.value(address);
                self.byte(value, true);
            }
        }
        if self.random.bool() {
            self.header(true);
            let reads = self.reads();
            for n in 1..=reads {
                let ninth = n == reads || self.random.once_in(20);
                self.byte(0xff, ninth);
            }
        }
        if !self.random.once_in(6) {
            self.condition(false);
        }
    }

    fn clocked(&mut self, byte: u8, clocks: u64) {
        for bit in 0..clocks {
            self.edge(0x30);
            self.edge(0x20 | (byte << (bit % 8) >> 7));
        }
    }

    /// The clocks of a byte: eight, but seldom another number.
    fn clocks(&mut self) -> u64 {
        if self.random.once_in(40) {
            self.random.below(20)
        } else {
            8
        }
    }

    fn spi(&mut self) {
        self.edge(0x11);
        if self.random.bool() {
            for _ in 0..1 + self.random.below(3) {
                let address = self.address();
                let clocks = self.clocks();
                self.clocked(address, clocks);
                let value = self.value(address);
                let clocks = self.clocks();
                self.clocked(value, clocks);
            }
        }
        if self.random.bool() {
            let address = self.address() | 0x80;
            self.clocked(address, 8);
            // The turnaround of three wires.
            let turn = self.random.below(2);
            self.clocked(0, turn);
            for _ in 0..self.reads() {
                let data = self.random.byte();
                let clocks = self.clocks();
                self.clocked(data, clocks);
            }
        }
        if !self.random.once_in(6) {
            self.edge(0x10);
        }
    }
}
