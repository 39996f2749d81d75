//! Moving on in time: due calls served at their moments, and moments on
//! sample edges.
use super::*;

/// Edges of the sample clock in a second.
const RATE: u128 = 12000;
/// Due calls served in one advance at most.
const PATIENCE: u32 = 160;

impl Generator {
    /// Sample phases that pass from the last accepted time to `to`.
    fn cost(&self, to: Time) -> i128 {
        if self.model.next_sample().is_none() {
            return 0;
        }
        let length = to.raw() - self.model.last().raw();
        ((length >> 32) * RATE >> 32) as i128
    }

    /// Go on by `length`, or less: the wait is cut short where it would
    /// simulate too many sample phases or serve too many due calls.
    pub(super) fn advance(&mut self, length: u128) {
        let from = self.now.max(self.model.last()).raw();
        self.reach(Time::from_raw(from.saturating_add(length).min(LAST)));
    }

    /// Go on to `target`, serving what is due until then.
    pub(super) fn reach(&mut self, target: Time) {
        let mut left = PATIENCE;
        while !self.done() {
            let due = self.model.next_due().filter(|&due| due <= target);
            let next = due.unwrap_or(target).max(self.model.last());
            let cost = self.cost(next);
            if cost > self.credit.max(2) {
                let affordable = self.credit.max(2) as u128 * SECOND / RATE;
                self.now = Time::from_raw(self.model.last().raw() + affordable);
                self.phases += self.credit.max(2) as u128;
                self.credit = 0;
                return;
            }
            self.credit -= cost;
            self.phases += cost as u128;
            self.now = next;
            let Some(due) = due else {
                return;
            };
            if left == 0 {
                self.now = self.model.last();
                return;
            }
            left -= 1;
            self.send(Command::Due { at: due });
        }
    }

    /// Serve `n` due calls, wherever they lie, if they are not too far off.
    pub(super) fn serve(&mut self, n: u64) {
        for _ in 0..n {
            match self.model.next_due() {
                Some(due) if due.raw() <= LAST => {
                    let before = self.model.last();
                    self.reach(due);
                    if self.model.last() == before {
                        return;
                    }
                }
                _ => return,
            }
        }
    }

    /// Edge `n` of the running sample clock.
    fn edge(&self, n: u128) -> u128 {
        self.clock_start.raw() + n / RATE * SECOND + (n % RATE) * SECOND / RATE
    }

    /// Number of the next sample edge, if the sensor samples.
    fn next_edge(&self) -> Option<u128> {
        let length = self.model.next_sample()?.raw() - self.clock_start.raw();
        let seconds = length >> 64;
        let part = length & (SECOND - 1);
        // The number is the least whose edge is not earlier.
        let near = seconds * RATE + ((part >> 32) * RATE >> 32);
        let mut n = near.saturating_sub(1);
        while self.edge(n) < self.clock_start.raw() + length {
            n += 1;
        }
        Some(n)
    }

    /// Go to a sample edge, `ahead` edges after the next one, or one unit
    /// beside it; sometimes to one whose number is divisible by 375.
    pub(super) fn reach_edge(&mut self, ahead: u128) {
        let Some(mut n) = self.next_edge() else {
            return self.advance(100 * MICROSECOND);
        };
        n += ahead;
        if self.random.once_in(12) && self.credit > 400 {
            n = n.div_ceil(375) * 375;
        }
        let at = match self.random.below(8) {
            0 => self.edge(n) - 1,
            1 => self.edge(n) + 1,
            _ => self.edge(n),
        };
        self.reach(Time::from_raw(at.min(LAST)));
        self.tied = Some(match n % 4 {
            _ if n % 12 == 0 && self.random.bool() => 9,
            1 => 8,
            phase => 2 + 2 * ((phase + 2) % 4) as u8 + u8::from(self.random.bool()),
        });
    }

    /// Go to the next sample of an axis, or up to two units beside it.
    pub(super) fn reach_sample(&mut self, axis: usize) {
        let Some(next) = self.next_edge() else {
            return;
        };
        // Axis 0 has the edges 2, 6, 10 and so on.
        let ahead = (axis as u128 + 6 - next % 4) % 4;
        let at = self.edge(next + ahead) - 2 + u128::from(self.random.below(5));
        self.reach(Time::from_raw(at.min(LAST)));
    }

    /// After a call on a sample edge, look whether it took the sample.
    pub(super) fn look(&mut self) {
        if let Some(address) = self.tied.take() {
            if self.random.once_in(3) {
                self.send(Command::View(address));
            }
        }
    }

    /// Wait as the pace says before the next call of a transfer.
    pub(super) fn tick(&mut self) {
        let top = match self.pace {
            Pace::Still => 0,
            Pace::Swift => MICROSECOND,
            Pace::Even => return self.advance(MICROSECOND),
            Pace::Bus => 8 * MICROSECOND,
            Pace::Slow => MILLISECOND,
            Pace::Edges => {
                let ahead = self.random.pick(&[0, 0, 0, 1, 1, 2, 3, 4]);
                return self.reach_edge(ahead);
            }
        };
        let length = self.random.part(top);
        self.advance(length);
    }
}
