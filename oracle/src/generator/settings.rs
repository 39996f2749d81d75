//! Register values, start images and accelerations worth trying.
use super::*;
use crate::command::IMAGE;

pub const STOCK: [u8; IMAGE] = [
    3, 20, 150, 160, 150, 0, 0, 162, 13, 14, 128, 0, 0, 0, 0, 128, 128, 128, 0,
];

/// Kinds of start image.
#[derive(Clone, Copy, Debug, PartialEq, Eq)]
pub enum Image {
    Stock,
    /// Stock with a few other bytes.
    Near,
    /// Any bytes.
    Any,
    /// Interrupts that fire within milliseconds.
    Interrupts,
    /// Motion that is seen without a latch.
    Motion,
    /// Interrupts in automatic mode.
    Automatic,
}

impl Generator {
    pub(super) fn image(&mut self, kind: Image) -> [u8; IMAGE] {
        let mut image = STOCK;
        match kind {
            Image::Stock => {}
            Image::Near => {
                for _ in 0..self.random.within(1, 4) {
                    image[self.random.below(IMAGE as u64) as usize] = self.random.byte();
                }
            }
            Image::Any => image.fill_with(|| self.random.byte()),
            Image::Interrupts | Image::Motion | Image::Automatic => {
                for (n, byte) in image.iter_mut().enumerate().take(11) {
                    *byte = self.setting(0x0b + n as u8, kind);
                }
                self.limits(&mut image);
                if kind == Image::Motion || self.random.once_in(4) {
                    self.motion(&mut image);
                }
            }
        }
        image
    }

    /// Settings under which motion shows on the pin.
    fn motion(&mut self, image: &mut [u8; IMAGE]) {
        image[0] = 0x40 | self.random.pick(&[0, 0, 1, 2]);
        image[5] = self.random.pick(&[1, 2, 5, 20]);
        image[10] |= 0x40;
        if !self.random.once_in(4) {
            image[10] &= !0x10;
        }
    }

    /// Thresholds whose clearing limit lies at the end of the code range.
    fn limits(&mut self, image: &mut [u8; IMAGE]) {
        let hysteresis = image[6];
        if self.random.once_in(4) {
            image[1] = 255 - 32 * (hysteresis & 7);
        }
        if self.random.once_in(4) {
            image[3] = 32 * (hysteresis >> 3 & 7);
        }
    }

    /// A value for a register of 0b to 15, apt for quick interrupts.
    fn setting(&mut self, address: u8, kind: Image) -> u8 {
        let random = &mut self.random;
        let any = random.byte();
        match address {
            0x0b => any & 0x3c | random.pick(&[0, 1, 2, 3, 3, 0x40, 0x41, 0x43, 0x80, 0x83, 0xc2]),
            0x0c | 0x0e => random.pick(&[0, 20, 40, 100, 160, 255, any]),
            0x0d | 0x0f => random.pick(&[0, 0, 1, 1, 2, 3, 5, 8, any & 31, any]),
            0x10 => random.pick(&[0, 1, 2, 5, 20, 128, 255, any]),
            0x14 => any & 0xf8 | random.pick(&[6, 6, 6, 6, 6, 7, 5, 5, 4, 3, 1]),
            0x15 => self.mode(any, kind == Image::Automatic),
            _ => any,
        }
    }

    /// A value for register 15: pause, automatic, latch, new-data, motion.
    fn mode(&mut self, any: u8, automatic: bool) -> u8 {
        let wires = if self.random.once_in(3) { 0 } else { 0x80 };
        let pause = self.random.pick(&[0, 0, 0, 2, 4, 6]);
        let ready = if self.random.once_in(4) { 0x20 } else { 0 };
        any & 0x58 | wires | pause | ready | u8::from(automatic || self.random.once_in(12))
    }

    /// A value for register 0a, written with bit 4 mostly set so that the
    /// higher addresses stay open.
    pub(super) fn control(&mut self) -> u8 {
        let open = if self.random.once_in(4) { 0 } else { 0x10 };
        let bits = self.random.weighted(&[6, 4, 3, 3, 2, 3, 3, 2, 4]);
        open | match bits {
            0 => 0x00,
            1 => 0x01,
            2 => 0x02,
            3 => 0x04,
            4 => 0x08,
            5 => 0x20,
            6 => 0x40,
            7 => 0x21,
            _ => self.random.byte(),
        }
    }

    /// A register and a value to write to it.
    pub(super) fn pair(&mut self) -> (u8, u8) {
        let any = self.random.byte();
        match self.random.weighted(&[8, 6, 5, 5, 3, 3, 2]) {
            0 => (0x0a, self.control()),
            1 => {
                let address = self.random.within(0x0b, 0x13) as u8;
                (address, self.setting(address, Image::Interrupts))
            }
            2 => (0x14, self.setting(0x14, Image::Interrupts)),
            3 => {
                let automatic = self.random.below(100) < self.profile.automatic;
                (0x15, self.mode(any, automatic))
            }
            4 => (self.random.within(0x16, 0x2a) as u8, any),
            5 => (self.random.within(0x2b, 0x3d) as u8, any),
            _ => (self.random.byte() & 0x7f, any),
        }
    }

    /// An address to read: mostly one with something behind it.
    pub(super) fn address(&mut self) -> u8 {
        match self.random.weighted(&[8, 3, 3, 1]) {
            0 => self.random.within(0, 0x0a) as u8,
            1 => self.random.within(0x0b, 0x15) as u8,
            2 => self.random.within(0x16, 0x40) as u8,
            _ => self.random.byte() & 0x7f,
        }
    }

    /// The width of a code at the present range, in eighths of a micro-g.
    fn width(&self) -> i64 {
        match self.model.peek(0x14).unwrap_or(14) >> 3 & 3 {
            0 => 2 * 15625,
            1 => 4 * 15625,
            _ => 8 * 15625,
        }
    }

    /// The least acceleration that gives a code at the present range and the
    /// middle offset, or one less.
    fn acceleration(&mut self, code: i32) -> i32 {
        let magnitude = (i64::from(code.abs()) * self.width() + 7) / 8;
        let less = i32::from(self.random.once_in(4));
        code.signum() * (magnitude as i32 - less)
    }

    /// An acceleration in the middle of those that give a code.
    pub(super) fn middle(&self, code: i32) -> i32 {
        let magnitude = (2 * i64::from(code.abs()) + 1) * self.width() / 16;
        code.signum() * magnitude as i32
    }

    /// A code at or beside one where an interrupt sets or clears.
    fn telling_code(&mut self, axis: usize) -> i32 {
        let low = i64::from(self.model.peek(0x0c).unwrap_or(20));
        let high = i64::from(self.model.peek(0x0e).unwrap_or(160));
        let hysteresis = self.model.peek(0x11).unwrap_or(0);
        let motion = i32::from(self.model.peek(0x10).unwrap_or(5)) * 4;
        let low_band = low + 32 * i64::from(hysteresis & 7);
        let high_band = high - 32 * i64::from(hysteresis >> 3 & 7);
        let level = self.random.pick(&[low, high, low_band, high_band]);
        let beside = self.random.within(-1, 2) as i32;
        let code = match self.random.below(8) {
            0 => 0,
            1 => self.random.pick(&[511, -512, 510, -511]),
            2 => self.random.within(-512, 511) as i32,
            3 => self.codes[axis] + motion + beside - 1,
            4 => self.codes[axis] - motion - beside + 1,
            _ => (level * 512 / 255) as i32 + beside,
        };
        let sign = if self.random.bool() { 1 } else { -1 };
        (code * sign).clamp(-512, 511)
    }

    /// Accelerations near the limits of the enabled interrupts.
    pub(super) fn telling_axes(&mut self) -> [i32; 3] {
        let alike = self.random.once_in(3);
        for axis in 0..3 {
            if !self.random.once_in(4) {
                self.codes[axis] = self.telling_code(axis);
            }
        }
        if alike {
            self.codes = [self.codes[0]; 3];
        }
        self.codes.map(|code| self.acceleration(code))
    }

    pub(super) fn set_axes(&mut self, axes: [i32; 3]) {
        self.settle();
        let at = self.now;
        self.send(Command::Accelerations { at, axes });
    }

    /// Set the accelerations for the codes at hand.
    pub(super) fn set_codes(&mut self) {
        let axes = self.codes.map(|code| self.acceleration(code));
        self.set_axes(axes);
    }

    pub(super) fn extreme_axis(&mut self) -> i32 {
        match self.random.below(8) {
            0 => 1_000_000_000,
            1 => -1_000_000_000,
            2 => 999_999_999,
            3 => self.random.pick(&[-3906, -3907, 3906, 3907, 0, 1, -1]),
            4 => self.random.within(-16_000_000, 16_000_000) as i32,
            5 => self.random.within(-8_100_000, 8_100_000) as i32,
            _ => self.random.within(-1_000_000_000, 1_000_000_000) as i32,
        }
    }
}
