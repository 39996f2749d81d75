//! Supply, stored writes and their cuts.
use super::*;

/// Length of a stored write.
const WRITE: u128 = 28 * SECOND / 1000;
const HALF: u128 = WRITE / 2;

impl Generator {
    pub(super) fn supply(&mut self, millivolts: u16) {
        self.settle();
        let at = self.now;
        self.send(Command::Supply { at, millivolts });
    }

    fn low_supply(&mut self) -> u16 {
        let any = self.random.below(2400) as u16;
        self.random.pick(&[0, 0, 2399, 2399, 1, 1800, any])
    }

    fn good_supply(&mut self) -> u16 {
        let any = self.random.within(2400, 65535) as u16;
        self.random.pick(&[2400, 2400, 2401, 3000, 65535, any])
    }

    /// Off for a while, with calls meanwhile, and on again: cold or warm.
    pub(super) fn outage(&mut self) {
        let low = self.low_supply();
        self.supply(low);
        for _ in 0..self.random.below(4) {
            self.off_call();
        }
        if self.random.once_in(3) {
            let low = self.low_supply();
            self.supply(low);
            self.pause_off();
        }
        if self.random.once_in(12) {
            return; // Stays off until another supply call.
        }
        let good = self.good_supply();
        self.supply(good);
        self.returned();
    }

    fn off_call(&mut self) {
        match self.random.below(6) {
            0 => self.pause_off(),
            1 => self.view(),
            2 => self.stored_image(),
            3 => {
                let level = self.random.bool();
                self.select(level);
            }
            4 => self.spi_noise(),
            _ => self.i2c_noise(),
        }
    }

    fn pause_off(&mut self) {
        let length = match self.random.below(8) {
            0 => 0,
            1 => self.random.below(100) as u128 * SECOND,
            2 => 86400 * SECOND,
            _ => self.length(),
        };
        self.advance(length);
    }

    /// The first moments after a return: pins may be dead still.
    fn returned(&mut self) {
        match self.random.below(6) {
            0 => self.spi_noise(),
            1 => self.i2c_noise(),
            2 => {
                let level = self.random.bool();
                self.select(level);
            }
            3 => self.outage_short(),
            _ => {}
        }
        let n = self.random.below(4);
        self.serve(n);
    }

    pub(super) fn outage_short(&mut self) {
        self.tick();
        let low = self.low_supply();
        self.supply(low);
        self.tick();
        let good = self.good_supply();
        self.supply(good);
    }

    /// A short brown-out that keeps the registers.
    pub(super) fn warm_outage(&mut self) {
        self.supply(2399);
        let length = self.random.part(100 * MICROSECOND);
        self.advance(length);
        self.supply(2400);
    }

    /// Start a stored write, then let it be until a telling moment.
    pub(super) fn stored_write(&mut self) {
        let address = self.random.within(0x2b, 0x3d) as u8;
        let value = self.random.byte();
        if self.model.writing() || self.random.once_in(20) {
            return self.write(&[(address, value)]);
        }
        if self.model.peek(0x16).is_none() {
            self.write(&[(0x0a, 0x10), (address, value)]);
        } else {
            self.write(&[(address, value)]);
        }
        if !self.model.writing() {
            return;
        }
        if self.random.once_in(4) {
            self.meanwhile();
        }
        self.reach_moment();
        self.after_moment();
    }

    /// Something else while the write runs.
    fn meanwhile(&mut self) {
        match self.random.below(6) {
            0 => self.write(&[(0x0a, 0x02)]),
            1 => self.write(&[(0x0a, 0x30)]),
            2 => self.write(&[(0x0a, 0x11)]),
            3 => {
                let pair = self.pair();
                self.write(&[pair]);
            }
            4 => self.i2c_read(Some(2), 2),
            _ => self.stored_image(),
        }
    }

    /// Go to the start, beside half, before the end or anywhere in a write.
    fn reach_moment(&mut self) {
        let elapsed = match self.random.below(12) {
            0 => 0,
            1 => 1,
            2 => HALF - 1,
            3 => HALF,
            4 => HALF + 1,
            5 | 6 => WRITE - 1,
            7 => WRITE,
            8 => self.random.part(WRITE),
            _ => self.crossing(),
        };
        let at = (self.write_start.raw() + elapsed).min(LAST);
        if at >= self.model.last().raw() {
            self.reach(Time::from_raw(at));
        }
    }

    /// The moment at which a bit of the running write turns, or one before.
    fn crossing(&mut self) -> u128 {
        let start = self.write_start.raw();
        let (a, b) = (self.random.part(WRITE), self.random.part(WRITE));
        let (mut low, mut high) = (a.min(b), a.max(b));
        let before = self.model.stored(Time::from_raw(start + low));
        if before == self.model.stored(Time::from_raw(start + high)) {
            return high;
        }
        while high - low > 1 {
            let middle = low + (high - low) / 2;
            if before == self.model.stored(Time::from_raw(start + middle)) {
                low = middle;
            } else {
                high = middle;
            }
        }
        self.random.pick(&[low, high])
    }

    fn after_moment(&mut self) {
        if self.random.bool() {
            self.image_at_now();
        }
        match self.random.below(8) {
            0 => self.reach_moment(),
            1 => {
                let end = (self.write_start.raw() + WRITE).min(LAST);
                self.reach(Time::from_raw(end));
            }
            2 => self.meanwhile(),
            3 => return,
            _ => self.outage(),
        }
        self.image_at_now();
    }

    pub(super) fn image_at_now(&mut self) {
        let at = self.now.max(self.model.last());
        self.send(Command::StoredImage { at });
    }

    /// The stored image now or ahead, past what is due.
    pub(super) fn stored_image(&mut self) {
        let length = match self.random.below(4) {
            0 => 0,
            1 => WRITE,
            2 => self.random.part(WRITE),
            _ => self.length(),
        };
        let at = self.now.max(self.model.last()).raw() + length;
        self.send(Command::StoredImage {
            at: Time::from_raw(at.min(LAST)),
        });
    }
}
