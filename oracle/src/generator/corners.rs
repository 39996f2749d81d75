//! Courses at limits that other courses pass by.
use super::{settings::STOCK, *};

/// Thresholds, less or more 32 times the hysteresis, at which 512 times the
/// value lies within 7 of a multiple of 255: the clearing limit is close to a
/// code.
const BANDS: [u8; 15] = [
    0, 1, 2, 3, 124, 125, 126, 127, 128, 129, 130, 131, 252, 253, 254,
];

impl Generator {
    /// Start with an image at the present moment, and wake.
    fn start_from(&mut self, image: [u8; crate::command::IMAGE]) {
        let at = self.now.max(self.model.last());
        self.send_start(at, image);
        self.now = at;
        self.serve(1);
    }

    /// The stock image with high-g and low-g as `sources` says, quick and
    /// with a latch or without.
    fn quick_image(&mut self, sources: u8) -> [u8; crate::command::IMAGE] {
        let mut image = STOCK;
        image[0] = sources;
        image[2] = 0;
        image[4] = 0;
        image[10] = self.random.pick(&[0x80, 0x80, 0x80, 0x90]);
        image
    }

    /// A threshold and a hysteresis, and the code nearest to their limit.
    fn limit(&mut self, high: bool) -> (u8, u8, i32) {
        loop {
            let near = self.random.pick(&BANDS);
            let any = self.random.byte();
            let band = self.random.pick(&[near, near, near, any]);
            let hysteresis = self.random.within(0, 7) as u8;
            let threshold = if high {
                band.checked_add(32 * hysteresis)
            } else {
                band.checked_sub(32 * hysteresis)
            };
            if let Some(threshold) = threshold {
                let code = (i32::from(band) * 512 + 127) / 255;
                return (threshold, hysteresis, code);
            }
        }
    }

    /// From beyond the threshold to codes around the clearing limit.
    pub(super) fn band(&mut self) {
        let high = self.random.bool();
        let (threshold, hysteresis, code) = self.limit(high);
        let mut image = self.quick_image(if high { 2 } else { 1 });
        if high {
            image[3] = threshold;
            image[6] = hysteresis << 3;
        } else {
            image[1] = threshold;
            image[6] = hysteresis;
        }
        self.start_from(image);
        let sign = self.random.pick(&[1, -1]);
        for beside in [1, 0, -1, -2] {
            let (set, near) = if high {
                (511, code + beside)
            } else {
                (0, code - beside)
            };
            self.level(sign * set);
            self.advance(1400 * MICROSECOND);
            self.approach(sign * set, sign * near.clamp(0, 511));
            self.see_at(&[9]);
        }
    }

    /// From one code to another in steps so short that the low-pass stage does
    /// not swing past it. The last is set twice, to have its samples taken.
    fn approach(&mut self, from: i32, to: i32) {
        for part in [8, 64, 512, 512] {
            let axis = self.middle(to + (from - to) / part);
            self.set_axes([axis; 3]);
            self.advance(1400 * MICROSECOND);
        }
    }

    /// A duration made shorter or longer while its criterion counts.
    pub(super) fn duration(&mut self) {
        let high = self.random.bool();
        let mut image = self.quick_image(if high { 2 } else { 1 });
        let long = self.random.within(3, 9) as u8;
        image[2] = long;
        image[4] = long;
        self.start_from(image);
        self.level(if high { 400 } else { 0 });
        let ticks = self.random.below(u64::from(long));
        self.advance(u128::from(ticks) * MILLISECOND);
        self.pace = Pace::Still;
        let address = if high { 0x0f } else { 0x0d };
        let other = self.random.pick(&[0, 1, 2, long + 3, 40]);
        self.write(&[(address, other)]);
        for _ in 0..long {
            self.advance(MILLISECOND);
            self.level(if high { 400 } else { 0 });
            self.see_at(&[9]);
        }
    }

    /// A high byte read with shadowing off is not remembered for later.
    pub(super) fn unseen(&mut self) {
        let mode = self.register(0x15, 0x80) & !8;
        self.pace = Pace::Swift;
        self.write(&[(0x15, mode)]);
        let low = self.random.pick(&[2, 4, 6]);
        self.read(low, 2);
        self.accelerate();
        if self.random.once_in(3) {
            self.warm_outage();
            self.serve(1);
        }
        self.advance(400 * MICROSECOND);
        self.write(&[(0x15, mode | 8)]);
        self.read(low + 1, 1);
        self.write(&[(0x15, mode)]);
        self.read(low + 1, 1);
    }

    /// An image copy that switches shadowing off between two bytes of a read.
    pub(super) fn midway(&mut self) {
        let mut image = STOCK;
        image[10] |= 8;
        self.start_from(image);
        self.pace = Pace::Still;
        self.write(&[(0x15, 0x80)]);
        let low = self.random.pick(&[2, 4, 6]);
        self.read(low, 2);
        self.accelerate();
        self.advance(400 * MICROSECOND);
        self.write(&[(0x0a, 0x20)]);
        self.begin_read(low, 8);
        self.serve(1);
        self.go_on_reading(9);
        self.write(&[(0x15, 0x80)]);
        self.read(low + 1, 1);
    }

    /// With shadowing on, a brown-out while a pair is held, or in mid-byte.
    pub(super) fn dimmed(&mut self) {
        if self.register(0x15, 0) & 8 != 0 || self.random.once_in(4) {
            self.start_from(STOCK);
        }
        self.pace = Pace::Swift;
        let low = self.random.pick(&[2, 4, 6]);
        if self.random.bool() {
            self.read(low, 2);
            self.accelerate();
            self.advance(400 * MICROSECOND);
        }
        self.read(low, 1);
        self.accelerate();
        self.advance(400 * MICROSECOND);
        if self.random.bool() {
            let address = self.random.pick(&[low, low + 1]);
            let bits = self.random.below(8);
            self.begin_read(address, bits);
        }
        self.warm_outage();
        self.see_at(&[low, low + 1]);
        self.serve(1);
        self.advance(400 * MICROSECOND);
        let first = self.random.pick(&[low, low + 1, low + 1]);
        self.read(first, 2);
        self.see_at(&[low, low + 1]);
    }
}
