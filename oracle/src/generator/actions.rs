//! What a stream is made of. A profile weighs the actions.
use super::*;
use crate::command::IMAGE;

/// The actions, in the order of a profile's weights.
pub const ACTIONS: usize = 17;

impl Generator {
    pub(super) fn act(&mut self) {
        if self.now.raw() == LAST && self.random.once_in(12) {
            return self.start();
        }
        if self.random.once_in(3) {
            self.pace = self.profile.paces[self.random.below(4) as usize];
        }
        match self.random.weighted(&self.profile.weights) {
            0 => self.start(),
            1 => self.accelerate(),
            2 => self.watch(),
            3 => self.temperature(),
            4 => self.outage(),
            5 => self.gap(),
            6 => self.long_gap(),
            7 => self.some_write(),
            8 => self.some_read(),
            9 => self.i2c_wrong(),
            10 => self.noise(),
            11 => self.view(),
            12 => self.stored_image(),
            13 => self.stored_write(),
            14 => self.some_control(),
            15 => self.dues(),
            _ => self.story(),
        }
    }

    fn automatic(&self) -> bool {
        self.model.peek(0x15).is_some_and(|mode| mode & 1 != 0)
    }

    /// Something within the 330 us for which an automatic interrupt is held.
    pub(super) fn during_hold(&mut self) {
        let pace = std::mem::replace(&mut self.pace, Pace::Still);
        match self.random.below(11) {
            0 => self.write(&[(0x0a, 0x11)]),
            1 => self.write(&[(0x0a, 0x11), (0x0a, 0x10)]),
            2 | 7 => self.warm_outage(),
            3 => self.write(&[(0x15, 0x80), (0x15, 0x81)]),
            4 => self.write(&[(0x0a, 0x50)]),
            5 => self.write(&[(0x0b, 0), (0x0b, 3)]),
            6 | 9 => self.write(&[(0x0a, 0x02)]),
            8 => self.write(&[(0x0a, 0x30)]),
            _ => self.read(2, 6),
        }
        let n = self.random.below(12);
        self.serve(n);
        self.pace = pace;
    }

    /// Now and then a call of another kind within a transfer.
    pub(super) fn aside(&mut self) {
        if self.random.below(400) >= self.profile.asides {
            return;
        }
        match self.random.below(12) {
            0 => self.stored_image(),
            1 => self.temperature(),
            2 | 3 => self.accelerate(),
            4 if self.random.once_in(4) => {
                let level = self.random.bool();
                self.select(level);
            }
            5 if self.random.once_in(4) => self.supply(2399),
            6 if self.random.once_in(4) => self.supply(2400),
            7 => self.dues(),
            8 => self.gap(),
            _ => self.view(),
        }
    }

    pub(super) fn start(&mut self) {
        let kind = self.profile.images[self.random.below(4) as usize];
        let image = self.image(kind);
        let at = self.start_time();
        self.now = at;
        self.send_start(at, image);
        if !self.random.once_in(6) {
            self.serve(1);
        }
    }

    /// Start by 01 or 0c. An image with a reserved code goes through 0c, and now
    /// and then through 01 before, which refuses it.
    pub(super) fn send_start(&mut self, at: Time, image: [u8; IMAGE]) {
        let reserved = reserved(&image);
        if reserved && self.starts.once_in(4) {
            self.put(Command::Start { at, image });
        }
        let stored = reserved || self.starts.once_in(3);
        self.send(if stored {
            Command::StartStored { at, image }
        } else {
            Command::Start { at, image }
        });
    }

    fn start_time(&mut self) -> Time {
        let any = u128::from(self.random.next());
        let near = self
            .random
            .pick(&[1, SECOND / 1000, SECOND / 20, SECOND, 40 * SECOND]);
        let raw = if self.random.below(100) < self.profile.late {
            match self.random.below(4) {
                0 => LAST,
                1 => LAST - (SECOND - 1),
                2 => LAST - self.random.part(near),
                _ => (u128::from(self.random.next()) << 32) | any >> 32,
            }
        } else {
            match self.random.below(6) {
                0 => 0,
                1 => any * 100,
                2 => any << 20,
                3 => self.model.last().raw(),
                4 => self.random.below(1000) as u128 * SECOND,
                _ => any,
            }
        };
        Time::from_raw(raw.min(LAST))
    }

    pub(super) fn accelerate(&mut self) {
        let axes = if self.random.below(100) < self.profile.extreme {
            [(); 3].map(|()| self.extreme_axis())
        } else {
            self.telling_axes()
        };
        self.set_axes(axes);
        self.look();
    }

    /// New accelerations, a wait of some samples, and the status.
    fn watch(&mut self) {
        for _ in 0..self.random.within(1, 6) {
            self.accelerate();
            match self.random.below(8) {
                0 | 1 => self.reach_edge(3),
                2 => self.reach_edge(0),
                3 => self.advance(MILLISECOND),
                4 => self.advance(3 * MILLISECOND),
                5 => self.advance(12 * MILLISECOND),
                6 if self.random.once_in(6) => self.advance(270 * MILLISECOND),
                _ => self.advance(400 * MICROSECOND),
            }
            if self.random.bool() {
                self.send(Command::View(9));
            }
        }
    }

    fn temperature(&mut self) {
        let any = self.random.next() as i32;
        let mild = self.random.within(-40_000, 110_000) as i32;
        let value = self.random.pick(&[
            any,
            mild,
            mild,
            mild,
            i32::MIN,
            i32::MAX,
            -30_000,
            -30_500,
            -29_501,
            97_499,
            97_500,
            98_000,
        ]);
        self.send(Command::Temperature(value));
    }

    fn gap(&mut self) {
        let top = self.random.pick(&[
            MICROSECOND,
            100 * MICROSECOND,
            MILLISECOND,
            4 * MILLISECOND,
            30 * MILLISECOND,
        ]);
        let length = self.random.part(top);
        if self.random.once_in(4) {
            let ahead = self.random.below(8);
            self.reach_edge(u128::from(ahead));
        } else {
            self.advance(length);
        }
    }

    /// Seconds while awake; days or the end of time while asleep or off.
    fn long_gap(&mut self) {
        if !self.model.sleeping() && self.random.once_in(3) {
            self.whole_write(&[(0x0a, 0x11)]);
        }
        let free = self.model.next_due().is_none() && self.model.next_sample().is_none();
        let days = u128::from(self.random.below(400)) * 86400 * SECOND;
        let length = match self.random.below(8) {
            0 if free => LAST,
            1 | 2 if free => days,
            3 => 3 * SECOND,
            4 => 300 * MILLISECOND,
            _ => self.random.part(2 * SECOND),
        };
        self.advance(length);
        if self.model.sleeping() && self.random.once_in(2) {
            self.whole_write(&[(0x0a, 0x10)]);
        }
    }

    /// A write over SPI at the bus's pace.
    fn whole_write(&mut self, pairs: &[(u8, u8)]) {
        self.pace = Pace::Swift;
        self.spi_write(pairs);
    }

    fn some_write(&mut self) {
        let count = self.random.pick(&[1, 1, 1, 2, 2, 3]);
        let pairs: Vec<_> = (0..count).map(|_| self.pair()).collect();
        self.write(&pairs);
        if self.random.once_in(3) {
            let (address, _) = self.random.pick(&pairs);
            self.send(Command::View(address));
        }
        self.see();
    }

    fn some_control(&mut self) {
        let value = self.control();
        self.write(&[(0x0a, value)]);
        self.see();
    }

    /// Look at the outcome of a write.
    fn see(&mut self) {
        match self.random.below(4) {
            0 => self.view(),
            1 => self.gap(),
            2 => self.dues(),
            _ => {}
        }
    }

    fn some_read(&mut self) {
        let (address, count) = match self.random.below(4) {
            0 => (2, 6),
            1 => (self.random.within(2, 7) as u8, 2),
            _ => (self.address(), self.random.pick(&[1, 1, 2, 3, 8])),
        };
        self.read(address, count);
        if self.random.once_in(3) {
            self.send(Command::View(address));
        }
    }

    fn noise(&mut self) {
        if self.random.below(100) < self.profile.spi {
            self.spi_noise();
        } else {
            self.i2c_noise();
        }
    }

    pub(super) fn view(&mut self) {
        let address = if self.random.once_in(16) {
            self.random.byte()
        } else {
            self.address()
        };
        self.send(Command::View(address));
    }

    fn dues(&mut self) {
        for _ in 0..self.random.pick(&[1, 1, 2, 3, 8, 40]) {
            let before = self.model.interrupt();
            self.serve(1);
            let rose = !before && self.model.interrupt();
            if rose && self.automatic() && !self.random.once_in(4) {
                return self.during_hold();
            }
        }
    }
}
