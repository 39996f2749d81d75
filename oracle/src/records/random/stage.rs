//! Records about the low-pass stage: any state, small ones, near the target
//! and on it; lengths at which the step takes another way, and beside them.
use super::{Record, Records};

/// The length between two samples of an axis.
const PERIOD: u64 = ((1u128 << 64) / 3000) as u64;
/// The least length after which the stage stands on its input.
const SETTLING: u64 = ((8u128 << 64) / 1000) as u64;
const TEN_MILLISECONDS: u64 = ((10u128 << 64) / 1000) as u64;
/// sqrt(2) * pi * 1500 a second, in units of 2^-32.
const RATE: u128 = 28_623_055_379_020;

/// The least length whose angle is halved `n` times and once more.
fn halved(n: u64) -> u64 {
    let angle = ((1u128 << 44) + 1) << n;
    (angle << 48).div_ceil(RATE) as u64
}

impl Records {
    pub(super) fn staged(&mut self) -> Record {
        let kind = self.random.pick(&[0x40, 0x41, 0x41, 0x41, 0x41, 0x41]);
        let mut record = Record {
            kind,
            a: self.random.below(2) as u8,
            n: self.seconds(),
            x: self.fraction(),
            ..Record::default()
        };
        if kind == 0x41 {
            self.step(&mut record);
        }
        record
    }

    /// Whole seconds and fraction of the length of a step.
    fn length(&mut self) -> (u8, u64) {
        let fraction = match self.random.below(8) {
            0 => self.random.below(3),
            1 => PERIOD - 2 + self.random.below(6),
            2 => self.near(SETTLING),
            3 => {
                let n = self.random.below(10);
                self.near(halved(n))
            }
            4 => return (self.random.byte().max(1), self.fraction()),
            5 => self.random.below(PERIOD),
            _ => self.random.below(TEN_MILLISECONDS),
        };
        (0, fraction)
    }

    fn input(&mut self) -> i32 {
        let any = self.random.next() as i32;
        let small = any >> self.random.below(32);
        let axis = self.random.within(-1_000_000_000, 1_000_000_000) as i32;
        self.random
            .pick(&[any, small, small, axis, axis, 0, i32::MIN, i32::MAX])
    }

    /// Any number, or one of any size, often a multiple of what a rounding
    /// halves.
    fn signed(&mut self) -> i64 {
        let grain = self.random.pick(&[0, 0, 0, 23, 47]);
        let smaller = self.random.below(96).saturating_sub(32);
        self.random.next() as i64 >> smaller & -1 << grain
    }

    fn step(&mut self, record: &mut Record) {
        (record.b, record.x) = self.length();
        let input = self.input();
        let target = i64::from(input) << 24;
        let few = self.random.within(-3, 3);
        let far = self.signed();
        let any = far.wrapping_sub(target);
        let from_target = self.random.pick(&[0, few, far, any]);
        let velocity = self.signed();
        let velocity = self.random.pick(&[0, few, velocity, velocity]);
        record.n = input as u32;
        record.y = target.wrapping_add(from_target) as u64;
        record.z = velocity as u64;
    }
}
