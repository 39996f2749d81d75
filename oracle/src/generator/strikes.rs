//! Accelerations that move the low-pass stage: heel strikes, settings at
//! lengths after the last move at which a step takes another way, and what
//! stops the stage while it moves.
use super::*;

/// The length between two samples of an axis.
const PERIOD: u128 = SECOND / 3000;
/// The least length after which the stage stands on its input.
const SETTLING: u128 = 8 * SECOND / 1000;
/// So far that the way back shows in the codes for some milliseconds.
const FAR: i32 = 1_000_000_000;

impl Generator {
    /// Have the samples taken by setting the same once more, and look.
    fn sampled(&mut self, axes: [i32; 3], axis: usize) {
        self.set_axes(axes);
        let low = 2 + 2 * axis as u8;
        self.send(Command::View(low));
        self.send(Command::View(low + 1));
    }

    /// Some g, or anything that an axis may have.
    fn blow(&mut self) -> i32 {
        if self.random.once_in(4) {
            return self.extreme_axis();
        }
        self.random.within(-8_100_000, 8_100_000) as i32
    }

    /// Blows to most axes.
    fn blows(&mut self, axes: [i32; 3]) -> [i32; 3] {
        axes.map(|axis| match self.random.below(5) {
            0 => axis,
            _ => self.blow(),
        })
    }

    /// Now and then a self test while the axis moves.
    fn tested(&mut self) {
        if self.random.once_in(6) {
            let value = self.random.pick(&[0x10, 0x14, 0x18, 0x1c]);
            self.write(&[(0x0a, value)]);
        }
    }

    /// One axis is struck and let go within some milliseconds.
    pub(super) fn strike(&mut self) {
        let axis = self.random.below(3) as usize;
        let mut axes = self.telling_axes();
        self.set_axes(axes);
        let rest = axes[axis];
        for _ in 0..self.random.within(1, 3) {
            self.tested();
            axes[axis] = self.blow();
            self.struck(axes, axis);
            axes[axis] = rest;
            self.struck(axes, axis);
        }
    }

    /// Accelerations set at a sample of an axis or beside it, and seen for
    /// some scans.
    fn struck(&mut self, axes: [i32; 3], axis: usize) {
        self.reach_sample(axis);
        self.set_axes(axes);
        for _ in 0..self.random.within(1, 8) {
            let scan = self.random.pick(&[PERIOD, PERIOD, PERIOD / 2, 3 * PERIOD]);
            self.advance(scan);
            self.sampled(axes, axis);
        }
    }

    /// A length after an axis's last move.
    fn moving_length(&mut self) -> u128 {
        let beside = u128::from(self.random.below(5));
        match self.random.below(8) {
            0 => 0,
            1 => 1,
            2 | 3 => PERIOD - 2 + beside,
            4 | 5 => SETTLING - 1 + beside % 3,
            6 => self.random.part(PERIOD),
            _ => self.random.part(10 * MILLISECOND),
        }
    }

    /// Settings while nothing is sampled: after a brown-out, or for 30 ms
    /// after a soft reset in sleep.
    pub(super) fn lull(&mut self) {
        self.pace = Pace::Still;
        if self.random.once_in(4) {
            self.warm_outage();
        } else {
            self.write(&[(0x0a, 0x11), (0x0a, 0x02)]);
        }
        let mut axes = [0; 3];
        for _ in 0..self.random.within(2, 6) {
            let moved = self.model.last().raw();
            axes = self.blows(axes);
            let length = self.moving_length();
            self.reach(Time::from_raw((moved + length).min(LAST)));
            self.set_axes(axes);
        }
        self.wake();
        for axis in 0..3 {
            self.advance(PERIOD);
            self.sampled(axes, axis);
        }
    }

    /// Sleep, an outage or a reset while all axes come back from far away.
    pub(super) fn upset(&mut self) {
        self.pace = Pace::Still;
        let far = self.random.pick(&[FAR, -FAR]);
        self.set_axes([far; 3]);
        let scans = self.random.pick(&[1, 3, 21]);
        self.advance(scans * PERIOD);
        let mut axes = self.telling_axes();
        self.set_axes(axes);
        let length = self.random.part(PERIOD);
        self.advance(length);
        self.stopped(&mut axes);
        self.wake();
        for n in 0..6 {
            self.advance(PERIOD / 3);
            self.sampled(axes, n % 3);
        }
    }

    fn stopped(&mut self, axes: &mut [i32; 3]) {
        match self.random.below(6) {
            0 | 1 => {
                self.write(&[(0x0a, 0x11)]);
                self.stand_still(axes);
                self.write(&[(0x0a, 0x10)]);
            }
            2 | 3 => {
                self.supply(2399);
                self.stand_still(axes);
                self.supply(2400);
            }
            4 => self.write(&[(0x0a, 0x02)]),
            _ => {
                self.supply(0);
                self.supply(2400);
            }
        }
    }

    /// A while asleep or off, perhaps with other accelerations.
    fn stand_still(&mut self, axes: &mut [i32; 3]) {
        for _ in 0..self.random.below(3) {
            let length = self.random.part(MILLISECOND);
            self.advance(length);
            *axes = self.telling_axes();
            self.set_axes(*axes);
        }
    }

    /// Serve what is due before the sensor samples.
    pub(super) fn wake(&mut self) {
        for _ in 0..3 {
            if self.model.next_sample().is_none() {
                self.serve(1);
            }
        }
    }
}
