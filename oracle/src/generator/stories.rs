//! Short courses of events that chance alone would seldom bring about.
use super::*;

#[derive(Clone, Copy, Debug, PartialEq, Eq)]
pub enum Story {
    /// Sleep in automatic mode until the pause ends.
    Nap,
    /// Calls while the image is copied.
    Copy,
    /// A write while the higher addresses are closed.
    Locked,
    /// Criteria that come and go with the millisecond.
    Flicker,
    /// Motion that comes and goes with the observation.
    Shake,
    /// An interrupt source switched off and on while it counts.
    Toggle,
    /// Settings changed while the interrupt pin is high.
    Answer,
    /// Something within the hold of an automatic interrupt.
    Alarm,
    /// A held pair, and what may drop it.
    Pair,
    /// An SPI read without its falls.
    Blind,
    /// Automatic mode switched while it is at work.
    Switch,
    /// A read that is launched awake and goes on asleep.
    Drowse,
    /// A read broken near a byte's end, and one from where it stopped.
    Resume,
    /// An address byte after STOP.
    Orphan,
    /// Codes at the limit at which a criterion clears.
    Band,
    /// A duration written while it counts.
    Duration,
    /// A held pair and a read under way at a brown-out.
    Dimmed,
    /// Shadowing switched off for a read.
    Unseen,
    /// Shadowing switched off within a read.
    Midway,
    /// SPI edges within an I2C transfer.
    Beside,
    /// I2C reports within an SPI frame.
    Within,
    /// SPI frames and an I2C transfer at once.
    Crossed,
    /// A soft reset with both buses going on.
    Hushed,
    /// Each clock edge given to both buses.
    Shared,
    /// Large steps of one axis and back.
    Strike,
    /// Accelerations set while nothing is sampled.
    Lull,
    /// What stops the low-pass stage while it moves.
    Upset,
    /// Scans up to a full window, from what empties it.
    Fill,
}

impl Generator {
    pub(super) fn story(&mut self) {
        match self.random.pick(self.profile.stories) {
            Story::Nap => self.nap(),
            Story::Copy => self.copy(),
            Story::Locked => self.locked(),
            Story::Flicker => self.flicker(),
            Story::Shake => self.shake(),
            Story::Toggle => self.toggle(),
            Story::Answer => self.respond(),
            Story::Alarm => self.alarm(),
            Story::Pair => self.pair_story(),
            Story::Blind => self.blind(),
            Story::Switch => self.switch(),
            Story::Drowse => self.drowse(),
            Story::Resume => self.resume(),
            Story::Orphan => self.orphan(),
            Story::Band => self.band(),
            Story::Duration => self.duration(),
            Story::Dimmed => self.dimmed(),
            Story::Unseen => self.unseen(),
            Story::Midway => self.midway(),
            Story::Beside => self.beside(),
            Story::Within => self.within(),
            Story::Crossed => self.crossed(),
            Story::Hushed => self.hushed(),
            Story::Shared => self.shared(),
            Story::Strike => self.strike(),
            Story::Lull => self.lull(),
            Story::Upset => self.upset(),
            Story::Fill => self.fill(),
        }
    }

    pub(super) fn see_at(&mut self, addresses: &[u8]) {
        let address = self.random.pick(addresses);
        self.send(Command::View(address));
    }

    pub(super) fn register(&self, address: u8, otherwise: u8) -> u8 {
        self.model.peek(address).unwrap_or(otherwise)
    }

    fn nap(&mut self) {
        let mode = self.register(0x15, 0x80);
        if mode & 1 == 0 {
            self.write(&[(0x15, mode & !6 | 1)]);
        }
        let value = self
            .random
            .pick(&[0x01, 0x11, 0x21, 0x31, 0x05, 0x15, 0x35, 0x19]);
        self.write(&[(0x0a, value)]);
        for _ in 0..6 {
            if !self.model.sleeping() {
                break;
            }
            self.serve(1);
        }
        self.see_at(&[0x0a]);
        self.see_at(&[0x16, 0x17, 0x1a, 0x22]);
        let any = self.random.byte();
        self.write(&[(0x16, any)]);
        self.see_at(&[0x0a, 0x16, 0x09]);
        let n = self.random.below(30);
        self.serve(n);
        self.see_at(&[0x0a]);
    }

    fn copy(&mut self) {
        const NEAR: [u8; 12] = [
            0x0a, 0x0b, 0x0c, 0x15, 0x16, 0x1c, 0x1d, 0x1e, 0x22, 0x2a, 0x2b, 0x2c,
        ];
        let pace = std::mem::replace(&mut self.pace, Pace::Still);
        let other = self.random.byte();
        self.write(&[(0x15, other & 0xfe), (0x0a, 0x30)]);
        for _ in 0..self.random.within(2, 6) {
            self.see_at(&NEAR);
        }
        match self.random.below(4) {
            0 => {
                self.pace = Pace::Bus;
                self.read(2, 6);
                let mode = self.register(0x15, 0x80);
                self.write(&[(0x15, mode & !8)]);
                let high = self.random.pick(&[3, 5, 7]);
                self.read(high, 1);
            }
            1 => {}
            _ => {
                let pair = (self.random.pick(&NEAR), self.random.byte());
                self.write(&[pair]);
                self.send(Command::View(pair.0));
            }
        }
        self.serve(2);
        self.see_at(&NEAR);
        self.pace = pace;
    }

    fn locked(&mut self) {
        let address = self
            .random
            .pick(&[0x15, 0x16, 0x17, 0x1d, 0x22, 0x2b, 0x3d]);
        let value = self.random.byte();
        let open = self.random.pick(&[0x00, 0x01, 0x08]);
        self.write(&[(0x0a, open), (address, value), (0x0a, 0x10)]);
        self.send(Command::View(address));
    }

    /// Set the accelerations for codes on all axes alike.
    pub(super) fn level(&mut self, code: i32) {
        self.codes = [code; 3];
        self.set_codes();
    }

    /// A code beyond or within both limits.
    fn clear_code(&mut self, high: bool) -> i32 {
        let far = self.random.pick(&[511, -512]);
        if high {
            far
        } else {
            0
        }
    }

    fn flicker(&mut self) {
        for _ in 0..self.random.within(6, 24) {
            let high = self.random.below(3) != 0;
            let code = self.clear_code(high);
            self.level(code);
            let ticks = self.random.pick(&[1, 1, 1, 2, 3]);
            self.advance(ticks * MILLISECOND);
            if self.random.bool() {
                self.see_at(&[0x09]);
            }
        }
    }

    fn shake(&mut self) {
        let step = i32::from(self.register(0x10, 5)) * 4;
        let window = 64 >> (self.register(0x14, 6) & 7).clamp(4, 6);
        let mut recent = [self.codes; 3];
        let often = self.random.within(2, 5) as u64;
        for n in 0..self.random.within(8, 28) as usize {
            let mut codes = recent[n % 3];
            if !self.random.once_in(often) {
                let axis = self.random.below(3) as usize;
                let sign = if codes[axis] > 0 { -1 } else { 1 };
                codes[axis] += sign * (step + self.random.within(-1, 1) as i32);
            }
            self.codes = codes.map(|code| code.clamp(-512, 511));
            recent[n % 3] = self.codes;
            self.set_codes();
            self.advance(window * SECOND / 3000);
            if self.random.once_in(4) {
                self.see_at(&[0x09]);
            }
        }
    }

    fn toggle(&mut self) {
        let sources = self.register(0x0b, 3);
        let high = self.random.bool();
        let code = self.clear_code(high);
        self.level(code);
        let before = u128::from(self.random.below(6));
        self.advance(before * MILLISECOND);
        let other = sources ^ self.random.pick(&[1, 2, 3, 0x40, 0x80, 0xc0]);
        self.write(&[(0x0b, other)]);
        let off = u128::from(self.random.below(4));
        self.advance(off * MILLISECOND);
        self.write(&[(0x0b, sources)]);
        for _ in 0..self.random.within(1, 6) {
            self.advance(MILLISECOND);
            self.see_at(&[0x09]);
        }
    }

    fn respond(&mut self) {
        for _ in 0..4 {
            if self.model.interrupt() {
                break;
            }
            self.shake();
        }
        let mode = self.register(0x15, 0x80);
        match self.random.below(9) {
            0 | 1 => self.write(&[(0x0a, 0x50)]),
            2 => self.write(&[(0x15, mode ^ 0x40)]),
            3 => self.write(&[(0x15, mode ^ 0x10)]),
            4 | 6 | 7 => self.restart(),
            5 => {
                self.pace = Pace::Still;
                self.write(&[(0x0a, 0x30), (0x0b, 0)]);
            }
            _ => self.read(2, 6),
        }
        self.see_at(&[0x09]);
        if self.random.bool() {
            self.shake();
        } else {
            self.rest();
        }
    }

    /// Sleep and wake while motion is ending.
    fn restart(&mut self) {
        let observations = self.random.below(11) as u128;
        self.advance(observations * SECOND / 3000);
        self.pace = Pace::Still;
        self.write(&[(0x0a, 0x11), (0x0a, 0x10)]);
        self.rest();
    }

    /// From calm to an interrupt, and on while it is held.
    fn alarm(&mut self) {
        let mode = self.register(0x15, 0x80);
        let fresh = mode & 1 == 0;
        if fresh {
            self.write(&[(0x15, mode & !0x16 | 1)]);
        }
        self.level(200);
        self.serve(6);
        let high = self.random.bool();
        let code = self.clear_code(high);
        self.level(code);
        for _ in 0..60 {
            let before = self.model.interrupt();
            self.serve(1);
            if !before && self.model.interrupt() {
                return if fresh && self.random.bool() {
                    self.copy_in_hold();
                } else {
                    self.during_hold();
                };
            }
        }
    }

    /// An image copy that ends automatic mode within a hold.
    fn copy_in_hold(&mut self) {
        self.pace = Pace::Still;
        self.write(&[(0x0a, 0x30)]);
        for _ in 0..8 {
            self.serve(1);
            self.see_at(&[0x09, 0x15]);
        }
    }

    /// Nothing new for some observations.
    fn rest(&mut self) {
        for _ in 0..self.random.within(3, 24) {
            self.advance(SECOND / 3000);
            self.see_at(&[0x09]);
        }
    }

    fn pair_story(&mut self) {
        let mode = self.register(0x15, 0x80);
        let low = self.random.pick(&[2, 4, 6]);
        if mode & 8 != 0 {
            self.write(&[(0x15, mode & !8)]);
        }
        self.read(low, 1);
        self.accelerate();
        self.advance(400 * MICROSECOND);
        match self.random.below(6) {
            0 => self.write(&[(0x15, mode | 8)]),
            1 => self.write(&[(0x0a, 0x30)]),
            2 => self.write(&[(0x15, mode & !8 | 1)]),
            3 => self.write(&[(0x0a, 0x11), (0x0a, 0x10)]),
            4 => self.write(&[(0x0a, 0x02)]),
            _ => {}
        }
        self.advance(400 * MICROSECOND);
        if self.register(0x15, 0) & 8 != 0 {
            self.write(&[(0x15, mode & !8)]);
        }
        let first = self.random.pick(&[low, low + 1, low + 1]);
        self.read(first, 2);
        self.see_at(&[low, low + 1]);
    }

    fn switch(&mut self) {
        let mode = self.register(0x15, 0x80);
        let value = self.random.pick(&[mode, mode | 1, mode & !1, mode ^ 1]);
        self.write(&[(0x15, value)]);
        let n = self.random.below(40);
        self.serve(n);
        self.write(&[(0x15, mode)]);
        let n = self.random.below(40);
        self.serve(n);
    }
}
