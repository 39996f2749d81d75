//! The scope's marked rows that a stream can show, in a fixed course.
use super::{settings::STOCK, *};

const G: i32 = 1_000_000_000;
/// After this long the low-pass stage stands on its input, at bandwidth 6.
const SETTLED: u128 = 7 * MILLISECOND;

impl Generator {
    pub(super) fn marks(&mut self) {
        self.pace = Pace::Swift;
        self.serve(1);
        self.ranges();
        self.codes_at_two_g();
        self.high_g();
        self.ignored_writes();
        self.stored_limits();
        self.supply_limits();
        let at = self.now;
        self.send(Command::Start { at, image: STOCK });
        self.serve(1);
        let at = self.now;
        self.send(Command::StartStored { at, image: STOCK });
        self.serve(1);
    }

    fn set(&mut self, axes: [i32; 3]) {
        self.settle();
        let at = self.now;
        self.put(Command::Accelerations { at, axes });
    }

    /// Wait, and have the samples taken by a call without another effect.
    fn pass(&mut self, length: u128) {
        self.advance(length);
        let at = self.now;
        self.put(Command::Falling { at });
    }

    fn views(&mut self, addresses: std::ops::RangeInclusive<u8>) {
        addresses.for_each(|address| self.put(Command::View(address)));
    }

    /// M12.
    fn ranges(&mut self) {
        for axes in [[G, -G, 0], [G + 1, 0, 0], [0, -G - 1, 0], [0, 0, G]] {
            self.set(axes);
            self.pass(SETTLED);
            self.views(2..=7);
        }
    }

    /// M6 and M7: the range is set to 2 g.
    fn codes_at_two_g(&mut self) {
        self.spi_write(&[(0x14, 0x06)]);
        self.set([-3906, -3907, 3906]);
        self.pass(SETTLED);
        self.views(2..=7);
    }

    /// M8: codes 321 and 322 for longer than the stock duration.
    fn high_g(&mut self) {
        for code in [321, 322, -321, -322_i32] {
            let acceleration = code * 15625 / 4 + code.signum();
            self.set([acceleration, 0, 1_000_000]);
            self.pass(160 * MILLISECOND);
            self.views(2..=9);
            self.spi_write(&[(0x0a, 0x40)]);
        }
    }

    /// M9.
    fn ignored_writes(&mut self) {
        self.spi_write(&[(0x0a, 0x10), (0x09, 0xff), (0x09, 0x00)]);
        self.views(8..=10);
        self.spi_write(&[(0x0a, 0x00)]);
        self.views(9..=10);
    }

    /// M10.
    fn stored_limits(&mut self) {
        for address in [0x3e, 0x3f, 0x7f, 0x2a, 0x3d, 0x2b] {
            self.spi_write(&[(0x0a, 0x10), (address, 0xa5)]);
            self.stored_image();
            self.serve(1);
            let at = self.now;
            self.put(Command::StoredImage { at });
        }
        self.views(0x0b..=0x2c);
    }

    /// M11.
    fn supply_limits(&mut self) {
        for millivolts in [2400, 2399, 2400, 2399, 0, 2399, 2400, 65535, 0, 2400] {
            self.supply(millivolts);
            self.views(0x0a..=0x0b);
            self.advance(MILLISECOND);
        }
        self.serve(2);
    }
}
