//! Means and singles: what the axes show, with its mark, from what empties or
//! keeps a window on, scan by scan and around the moment at which it is full.
use super::*;

/// The length between two samples of an axis.
const PERIOD: u128 = SECOND / 3000;

impl Generator {
    /// A byte of each axis.
    fn seen(&mut self) {
        for axis in 0..3 {
            let high = u8::from(self.random.bool());
            self.send(Command::View(2 + 2 * axis + high));
        }
    }

    /// A window of this bandwidth code, which is mostly kept.
    fn window(&mut self) -> u64 {
        let code = self.random.pick(&[0, 1, 2, 3, 3, 4, 4, 5, 6, 7]);
        if self.random.once_in(2) {
            let range = self.random.below(4) as u8;
            self.write(&[(0x14, range << 3 | code)]);
        }
        1 << (6 - code.min(6))
    }

    /// What empties a window or the values, what keeps both, or nothing.
    fn emptied(&mut self) {
        match self.random.below(10) {
            0 | 1 => {
                self.write(&[(0x0a, 0x11)]);
                self.seen();
                self.write(&[(0x0a, 0x10)]);
            }
            2 => self.write(&[(0x0a, 0x02)]),
            3 => self.warm_outage(),
            4 => {
                self.supply(0);
                self.seen();
                self.supply(2400);
            }
            5 => self.write(&[(0x0a, 0x30)]),
            6 => self.write(&[(0x0a, 0x14)]),
            7 => self.write(&[(0x0a, 0x18)]),
            8 => self.start(),
            _ => {}
        }
        self.seen();
    }

    /// Scans, some of them up to the one that fills the window.
    pub(super) fn fill(&mut self) {
        self.pace = Pace::Still;
        self.emptied();
        let window = self.window();
        self.wake();
        self.seen();
        let mut scans = self.random.pick(&[0, 0, window.saturating_sub(2), window]);
        for _ in 0..self.random.within(2, 6) {
            self.advance(u128::from(scans) * PERIOD);
            let axes = self.telling_axes();
            self.set_axes(axes);
            self.seen();
            scans = self.random.below(3);
        }
    }
}
