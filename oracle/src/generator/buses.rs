//! Transfers over I2C and SPI, whole and broken.
use super::*;

impl Generator {
    /// Count a call of a transfer; false once the transfer has broken off.
    fn goes_on(&mut self) -> bool {
        match &mut self.breaks_in {
            None => !self.done(),
            Some(0) => false,
            Some(left) => {
                *left -= 1;
                !self.done()
            }
        }
    }

    /// Let a transfer of about `calls` calls break off, as often as the
    /// profile says.
    fn may_break(&mut self, calls: u64) {
        self.breaks_in = None;
        if self.random.below(100) < self.profile.broken {
            self.breaks_in = Some(self.random.below(calls + 1));
        }
    }

    fn whole(&mut self) {
        self.breaks_in = None;
    }

    pub(super) fn select(&mut self, level: bool) {
        self.selected = level;
        self.send(Command::Select(level));
    }

    /// Report new I2C levels. On a wired bus the data line is low while the
    /// sensor holds it; that it pulls the line is mostly a report of its own,
    /// and else comes with the next one.
    pub(super) fn pins(&mut self, clock: bool, data: bool) {
        if !self.goes_on() {
            return;
        }
        self.tick();
        self.aside();
        if self.random.below(400) < self.profile.stutter {
            self.unchanged();
        }
        let data = data && !self.held_low();
        let levels = self.following(clock, data);
        self.report(levels);
        if self.random.below(400) < self.profile.stutter {
            self.report(levels); // It jumps, if the lines have moved.
        }
        if data && !clock && self.held_low() && !self.random.once_in(4) {
            let levels = self.following(clock, false);
            self.report(levels);
        }
    }

    /// A report of these levels that follows on.
    fn following(&self, clock: bool, data: bool) -> u8 {
        let [old_clock, old_data] = self.model.lines();
        [old_clock, old_data, clock, data]
            .into_iter()
            .fold(0, |levels, level| levels << 1 | u8::from(level))
    }

    fn held_low(&self) -> bool {
        self.wired && self.model.data_output() == crate::signals::Drive::Low
    }

    /// A report of levels that have not changed.
    fn unchanged(&mut self) {
        let [clock, data] = self.model.lines();
        let levels = self.following(clock, data);
        self.report(levels);
    }

    fn report(&mut self, levels: u8) {
        self.settle();
        let at = self.now;
        self.send(Command::Pins { at, levels });
        self.look();
    }

    /// Serve what is due by now.
    pub(super) fn settle(&mut self) {
        let now = self.now.max(self.model.last());
        self.reach(now);
    }

    fn start_condition(&mut self) {
        let [clock, data] = self.model.lines();
        if !data {
            if clock {
                self.pins(false, false);
            }
            self.pins(false, true);
        }
        if !self.model.lines()[0] {
            self.pins(true, true);
        }
        self.pins(true, false);
        self.pins(false, false);
    }

    fn stop_condition(&mut self) {
        let [clock, data] = self.model.lines();
        if clock {
            self.pins(false, data);
        }
        if self.model.lines()[1] {
            self.pins(false, false);
        }
        self.pins(true, false);
        self.pins(true, true);
    }

    /// One clock pulse, with the data level either set beforehand or with
    /// the rise.
    fn pulse(&mut self, data: bool) {
        if self.model.lines()[1] != data && self.random.once_in(4) {
            self.pins(false, data);
        }
        self.pins(true, data);
        self.pins(false, data);
    }

    fn i2c_byte(&mut self, byte: u8) {
        for bit in (0..8).rev() {
            self.pulse(byte >> bit & 1 != 0);
        }
        self.pulse(true);
    }

    fn i2c_take(&mut self, acknowledge: bool) {
        for _ in 0..8 {
            self.pulse(true);
        }
        self.pulse(!acknowledge);
    }

    fn i2c_begin(&mut self, calls: u64) {
        if self.random.below(100) >= self.profile.stray {
            self.select(false);
        }
        self.may_break(calls);
    }

    /// End with STOP, or leave the bus to the next transfer.
    fn i2c_end(&mut self) {
        if !self.random.once_in(6) {
            self.stop_condition();
        }
        let broke = self.breaks_in == Some(0);
        self.whole();
        if broke && self.random.bool() {
            self.stop_condition();
        }
    }

    pub(super) fn i2c_write(&mut self, pairs: &[(u8, u8)]) {
        self.i2c_begin(22 + 40 * pairs.len() as u64);
        self.start_condition();
        self.i2c_byte(0x70);
        for &(address, value) in pairs {
            let high = if self.random.once_in(10) { 0x80 } else { 0 };
            self.i2c_byte(address | high);
            self.i2c_byte(value);
        }
        if self.random.once_in(12) {
            let byte = self.random.byte();
            self.i2c_byte(byte);
        }
        self.i2c_end();
    }

    pub(super) fn i2c_read(&mut self, address: Option<u8>, count: u64) {
        self.i2c_begin(64 + 20 * count);
        if let Some(address) = address {
            self.start_condition();
            self.i2c_byte(0x70);
            self.i2c_byte(address);
            if self.random.once_in(3) {
                self.stop_condition();
            }
        }
        self.start_condition();
        self.i2c_byte(0x71);
        for n in 1..=count {
            let last = n == count && !self.random.once_in(8);
            self.i2c_take(!last);
        }
        self.i2c_end();
    }

    /// A transfer that begins with another sensor's address.
    pub(super) fn i2c_wrong(&mut self) {
        self.i2c_begin(60);
        self.start_condition();
        let near = self.random.pick(&[0x72, 0x30, 0xf0, 0x60, 0x00, 0xff]);
        let address = if self.random.bool() {
            near
        } else {
            self.random.byte()
        };
        self.i2c_byte(address);
        let byte = self.random.byte();
        self.i2c_byte(byte);
        self.i2c_end();
    }

    /// Reports that follow no rule.
    pub(super) fn i2c_noise(&mut self) {
        for _ in 0..self.random.within(3, 24) {
            self.tick();
            let levels = if self.random.once_in(16) {
                self.random.below(16) as u8
            } else {
                let (clock, data) = (self.random.bool(), self.random.bool());
                self.following(clock, data)
            };
            self.report(levels);
        }
    }

    /// A clock edge of a transfer, at its time.
    fn clock_edge(&mut self, command: impl FnOnce(Time) -> Command) {
        if !self.goes_on() {
            return;
        }
        self.tick();
        self.aside();
        self.settle();
        let at = self.now;
        self.send(command(at));
        self.look();
    }

    pub(super) fn rise(&mut self, data: bool) {
        self.clock_edge(|at| Command::Rising { at, data });
    }

    pub(super) fn fall(&mut self) {
        self.clock_edge(|at| Command::Falling { at });
    }

    fn spi_byte(&mut self, byte: u8) {
        for bit in (0..8).rev() {
            if self.random.below(400) >= self.profile.stutter {
                self.fall();
            }
            self.rise(byte >> bit & 1 != 0);
            if self.random.below(400) < self.profile.stutter {
                self.fall();
                self.fall();
            }
        }
    }

    fn spi_begin(&mut self, calls: u64) {
        if self.random.below(100) >= self.profile.stray {
            self.select(true);
        }
        self.may_break(calls);
    }

    fn spi_end(&mut self) {
        if self.random.once_in(3) {
            self.fall();
        }
        self.whole();
        if !self.random.once_in(8) {
            self.select(false);
        }
    }

    pub(super) fn spi_write(&mut self, pairs: &[(u8, u8)]) {
        self.spi_begin(32 * pairs.len() as u64);
        for &(address, value) in pairs {
            self.spi_byte(address & 0x7f);
            self.spi_byte(value);
        }
        self.spi_end();
    }

    pub(super) fn spi_read(&mut self, address: u8, count: u64) {
        self.spi_begin(16 + 16 * count);
        self.spi_byte(address | 0x80);
        let three_wire = self.model.peek(0x15).is_some_and(|v| v & 0x80 == 0);
        if three_wire && !self.random.once_in(8) {
            self.fall();
            self.rise(false); // The turnaround.
        }
        for _ in 0..count {
            let byte = self.random.byte();
            self.spi_byte(byte);
        }
        self.spi_end();
    }

    /// An SPI read whose falls are left out after the address.
    pub(super) fn blind(&mut self) {
        let address = self.random.within(2, 7) as u8;
        self.select(true);
        self.spi_byte(address | 0x80);
        for _ in 0..self.random.within(1, 9) {
            let data = self.random.bool();
            self.rise(data);
        }
        self.send(Command::View(address & 0xfe));
        self.select(false);
    }

    /// Launch a byte of a read, let the sensor pause, and go on.
    pub(super) fn drowse(&mut self) {
        let address = self.random.within(2, 7) as u8;
        self.pace = Pace::Still;
        self.select(true);
        self.spi_byte(address | 0x80);
        self.fall();
        if self.model.peek(0x15).is_some_and(|mode| mode & 0x80 == 0) {
            self.rise(false);
        }
        for _ in 0..80 {
            if self.model.sleeping() {
                break;
            }
            self.serve(1);
        }
        for _ in 0..self.random.within(1, 9) {
            self.rise(true);
        }
        self.serve(1);
        self.send(Command::View(address & 0xfe));
        self.select(false);
    }

    /// Set the pointer, and address the sensor for reading.
    fn i2c_read_from(&mut self, address: u8) {
        self.select(false);
        self.start_condition();
        self.i2c_byte(0x70);
        self.i2c_byte(address);
        self.start_condition();
        self.i2c_byte(0x71);
    }

    /// Read, break off near a byte's end, and go on from the pointer.
    pub(super) fn resume(&mut self) {
        let address = self.address();
        self.i2c_read_from(address);
        for _ in 0..self.random.within(5, 9) {
            self.pulse(true);
        }
        if self.random.bool() {
            self.stop_condition();
        }
        self.i2c_read(None, 2);
    }

    /// An address byte after STOP, with no START before it.
    pub(super) fn orphan(&mut self) {
        self.select(false);
        self.start_condition();
        if self.random.bool() {
            self.i2c_byte(0x70);
        }
        self.stop_condition();
        self.pins(false, true);
        let address = self.random.pick(&[0x70, 0x71]);
        self.i2c_byte(address);
        let register = self.address();
        self.i2c_byte(register);
        self.stop_condition();
    }

    /// Begin a read and leave it after some bits.
    pub(super) fn begin_read(&mut self, address: u8, bits: u64) {
        if self.random.below(100) < self.profile.spi {
            self.select(true);
            self.spi_byte(address | 0x80);
        } else {
            self.i2c_read_from(address);
        }
        self.go_on_reading(bits);
    }

    /// Clock pulses of a read over the bus that is selected; over I2C low, so
    /// that bytes are acknowledged.
    pub(super) fn go_on_reading(&mut self, pulses: u64) {
        for _ in 0..pulses {
            if self.selected {
                self.fall();
                self.rise(true);
            } else {
                self.pulse(false);
            }
        }
    }

    pub(super) fn spi_noise(&mut self) {
        let level = self.random.bool();
        self.select(level);
        for _ in 0..self.random.within(3, 24) {
            let data = self.random.bool();
            match self.random.below(20) {
                0 => self.select(!data),
                1..=9 => self.fall(),
                _ => self.rise(data),
            }
        }
    }

    /// Write registers over the bus that the profile prefers.
    pub(super) fn write(&mut self, pairs: &[(u8, u8)]) {
        if self.random.below(100) < self.profile.spi {
            self.spi_write(pairs);
        } else {
            self.i2c_write(pairs);
        }
    }

    pub(super) fn read(&mut self, address: u8, count: u64) {
        if self.random.below(100) < self.profile.spi {
            self.spi_read(address, count);
        } else {
            let address = (!self.random.once_in(5)).then_some(address);
            self.i2c_read(address, count);
        }
    }
}
