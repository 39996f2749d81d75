//! Commands that the table refuses. They leave the model as it is.
use super::*;

impl Generator {
    /// Put one refused command, of one of the ways that are open now.
    pub(super) fn refused(&mut self) {
        for _ in 0..4 {
            let command = match self.random.below(5) {
                0 => self.too_early(),
                1 => self.before_due(),
                2 => self.not_due(),
                3 => self.jumping(),
                _ => self.out_of_range(),
            };
            if let Some(command) = command {
                if self.model.refusal(&command).is_some() {
                    return self.put(command);
                }
            }
        }
    }

    /// A length of time, from one unit up.
    pub(super) fn length(&mut self) -> u128 {
        let top = self.random.pick(&[
            1,
            2,
            MICROSECOND,
            100 * MICROSECOND,
            MILLISECOND,
            30 * MILLISECOND,
            SECOND,
            1000 * SECOND,
        ]);
        1 + self.random.part(top)
    }

    fn too_early(&mut self) -> Option<Command> {
        let last = self.model.last().raw();
        if last == 0 {
            return None;
        }
        let at = if self.random.once_in(8) {
            0
        } else {
            last.saturating_sub(self.length())
        };
        Some(self.any_timed(Time::from_raw(at), true))
    }

    fn before_due(&mut self) -> Option<Command> {
        let due = self.model.next_due()?.raw();
        let at = match self.random.below(3) {
            0 => due,
            1 => due + 1,
            _ => due + self.length(),
        };
        (at <= LAST).then(|| self.any_timed(Time::from_raw(at), false))
    }

    fn not_due(&mut self) -> Option<Command> {
        let last = self.model.last().raw();
        let due = self.model.next_due().map_or(last, Time::raw);
        let at = match self.random.below(5) {
            0 => last,
            1 => due.saturating_sub(1),
            2 => due + 1,
            3 => due + self.length(),
            _ => last + self.length(),
        };
        (at <= LAST).then_some(Command::Due {
            at: Time::from_raw(at),
        })
    }

    fn out_of_range(&mut self) -> Option<Command> {
        let mut axes = self.codes.map(|code| code * 1000);
        let axis = self.random.below(3) as usize;
        axes[axis] = match self.random.below(6) {
            0 => 1_000_000_001,
            1 => -1_000_000_001,
            2 => i32::MAX,
            3 => i32::MIN,
            4 => self.random.within(1_000_000_001, i64::from(i32::MAX)) as i32,
            _ => self.random.within(i64::from(i32::MIN), -1_000_000_001) as i32,
        };
        let last = self.model.last().raw();
        let at = match self.random.below(6) {
            0 => last.saturating_sub(1), // Too early as well.
            1 => last + self.length(),   // Perhaps past what is due.
            _ => self.now.raw(),
        };
        Some(Command::Accelerations {
            at: Time::from_raw(at.min(LAST)),
            axes,
        })
    }

    /// A pin report that does not follow on, in one line or both.
    fn jumping(&mut self) -> Option<Command> {
        let other = self.random.within(1, 3) as u8;
        let levels = self.any_following() ^ other << 2;
        let last = self.model.last().raw();
        let at = match self.random.below(6) {
            0 => last.saturating_sub(1), // Too early as well.
            1 => self.model.next_due().map_or(last, Time::raw), // What is due comes first, too.
            2 => last + self.length(),
            _ => self.now.raw(),
        };
        Some(Command::Pins {
            at: Time::from_raw(at.min(LAST)),
            levels,
        })
    }

    /// Put a start by 01 whose image has a reserved code, at any time.
    pub(super) fn reserved_start(&mut self) {
        let mut image = STOCK;
        if self.starts.bool() {
            image.fill_with(|| self.starts.byte());
        }
        image[MEASUREMENT] |= self.starts.pick(&[0x18, 0x07, 0x1f]);
        let last = self.model.last().raw();
        let at = match self.starts.below(4) {
            0 => 0,
            1 => last.saturating_sub(1),
            2 => last + SECOND, // Nothing may go on from there.
            _ => self.now.raw(),
        };
        let at = Time::from_raw(at.min(LAST));
        self.put(Command::Start { at, image });
    }

    /// A pin report that follows on, to any levels.
    fn any_following(&mut self) -> u8 {
        let [clock, data] = self.model.lines().map(u8::from);
        clock << 3 | data << 2 | self.random.below(4) as u8
    }

    /// A call with a time; the due and stored-image calls only if `all`.
    fn any_timed(&mut self, at: Time, all: bool) -> Command {
        match self.random.below(if all { 7 } else { 5 }) {
            0 => Command::Accelerations {
                at,
                axes: if self.random.once_in(8) {
                    [1_000_000_001, 0, 0]
                } else {
                    [1, -1, 0]
                },
            },
            1 => Command::Supply {
                at,
                millivolts: self.random.pick(&[0, 2399, 2400, 3000]),
            },
            2 => Command::Rising {
                at,
                data: self.random.bool(),
            },
            3 => Command::Falling { at },
            4 => Command::Pins {
                at,
                levels: self.any_following(),
            },
            5 => Command::Due { at },
            _ => Command::StoredImage { at },
        }
    }
}
