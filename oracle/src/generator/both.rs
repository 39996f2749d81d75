//! Courses in which both buses move at once.
//!
//! Each bus gets a plan of moves. The plans are merged at random, each in its
//! own order, with incidents between: a report of the I2C lines can fall
//! anywhere within an SPI frame, and an SPI edge anywhere within a transfer.
use super::*;
use std::collections::VecDeque;

/// A move of one bus.
#[derive(Clone, Copy, Debug, PartialEq, Eq)]
enum Move {
    /// The I2C lines as the host drives them: clock, data.
    Lines(bool, bool),
    Rise(bool),
    Fall,
    Select(bool),
}
use Move::{Fall, Lines, Rise, Select};

/// When the data line gets the level of a bit.
#[derive(Clone, Copy, Debug, PartialEq, Eq)]
enum Setup {
    /// In a report of its own, even if the level stays.
    Always,
    /// In a report of its own if the level changes.
    Changed,
    /// With the clock's rise.
    WithRise,
}

/// An I2C transfer being planned, and the lines as it will leave them.
struct Transfer {
    lines: [bool; 2],
    setup: Setup,
    moves: Vec<Move>,
}

impl Transfer {
    fn lines(&mut self, clock: bool, data: bool) {
        self.lines = [clock, data];
        self.moves.push(Lines(clock, data));
    }

    fn start(&mut self) {
        match self.lines {
            [true, true] => {
                if self.setup == Setup::Always {
                    self.lines(true, true);
                }
            }
            [clock, data] => {
                if clock {
                    self.lines(false, data);
                }
                if !data {
                    self.lines(false, true);
                }
                self.lines(true, true);
            }
        }
        self.lines(true, false);
        self.lines(false, false);
    }

    fn stop(&mut self) {
        let [clock, data] = self.lines;
        if clock {
            self.lines(false, data);
        }
        if data {
            self.lines(false, false);
        }
        self.lines(true, false);
        self.lines(true, true);
    }

    fn bit(&mut self, data: bool) {
        let changes = self.lines[1] != data;
        if self.setup == Setup::Always || self.setup == Setup::Changed && changes {
            self.lines(false, data);
        }
        self.lines(true, data);
        self.lines(false, data);
    }

    fn bits(&mut self, byte: u8) {
        for bit in (0..8).rev() {
            self.bit(byte >> bit & 1 != 0);
        }
    }

    /// A byte to the sensor; the line is free for its acknowledge.
    fn byte(&mut self, byte: u8) {
        self.bits(byte);
        self.bit(true);
    }

    fn pairs(&mut self, pairs: &[(u8, u8)]) {
        for &(address, value) in pairs {
            self.byte(address);
            self.byte(value);
        }
    }

    /// A byte from the sensor.
    fn take(&mut self, acknowledge: bool) {
        for _ in 0..8 {
            self.bit(true);
        }
        self.bit(!acknowledge);
    }
}

impl Generator {
    fn off(&self) -> bool {
        let waits = self.model.next_due().or(self.model.next_sample());
        waits.is_none() && !self.model.sleeping()
    }

    /// Before a course: mostly a sensor that is on and awake.
    fn ready(&mut self) {
        self.wired = !self.random.once_in(3);
        if self.off() && !self.random.once_in(8) {
            self.supply(2400);
            self.serve(2);
        }
        if self.model.sleeping() && !self.random.once_in(4) {
            self.write(&[(0x0a, 0x10)]);
        }
        if self.random.once_in(5) {
            self.serve(1);
        }
    }

    /// Registers and values whose write shows afterwards.
    fn showing(&mut self) -> Vec<(u8, u8)> {
        let any = self.random.byte();
        let mode = self.register(0x15, 0x80);
        match self.random.below(10) {
            0 | 1 => {
                let stored = self.random.within(0x2b, 0x3d) as u8;
                vec![(0x0a, 0x10), (stored, any)]
            }
            2 | 3 => {
                let plain = self.random.within(0x0b, 0x13) as u8;
                vec![(plain, any)]
            }
            4 => vec![(0x15, mode ^ 0x80)],
            5 => vec![(0x15, mode ^ 0x80), (0x15, mode), (0x0c, any)],
            6 => vec![(0x0a, any & 0x10 | 0x02)],
            7 => vec![(0x0c, any), (0x0a, 0x02), (0x0d, any)],
            8 if any & 3 == 0 => vec![(0x0a, 0x11), (0x0c, any), (0x0a, 0x10)],
            _ => (0..self.random.within(1, 3)).map(|_| self.pair()).collect(),
        }
    }

    fn begun(&mut self) -> Transfer {
        let setup = self
            .random
            .pick(&[Setup::Always, Setup::Changed, Setup::WithRise]);
        let mut plan = Transfer {
            lines: self.model.lines(),
            setup,
            moves: Vec::new(),
        };
        plan.start();
        plan
    }

    /// A transfer that writes or reads; it may lack its STOP, and break off.
    fn transfer(&mut self, pairs: &[(u8, u8)]) -> Vec<Move> {
        let mut plan = self.begun();
        if self.random.once_in(16) {
            let other = self.random.byte();
            plan.byte(other);
        } else if self.random.bool() {
            plan.byte(0x70);
            plan.pairs(pairs);
        } else {
            let address = self.address();
            if !self.random.once_in(3) {
                plan.byte(0x70);
                plan.byte(address);
                plan.start();
            }
            plan.byte(0x71);
            let count = self.random.pick(&[1, 1, 2, 3]);
            (1..=count).for_each(|n| plan.take(n < count));
        }
        if !self.random.once_in(4) {
            plan.stop();
        }
        self.maybe_broken(plan.moves)
    }

    /// Reports of lines that stay, or move without a rule.
    fn loose_reports(&mut self, count: u64) -> Vec<Move> {
        let [mut clock, mut data] = self.model.lines();
        let mut moves = Vec::new();
        for _ in 0..count {
            match self.random.below(4) {
                0 => clock = !clock,
                1 | 2 => data = !data,
                _ => {}
            }
            moves.push(Lines(clock, data));
        }
        moves
    }

    /// How many of four rises have a fall before them.
    fn falls(&mut self) -> u64 {
        self.random.pick(&[0, 4, 4, 4, 3])
    }

    /// A frame that writes, or reads, or both, without its select.
    fn frame(&mut self, pairs: &[(u8, u8)]) -> Vec<Move> {
        let falls = self.falls();
        let mut moves = Vec::new();
        let mut mode = self.register(0x15, 0x80);
        let reads = self.random.bool();
        if !reads || self.random.once_in(3) {
            self.frame_pairs(&mut moves, pairs, falls);
            let modes = pairs.iter().filter(|pair| pair.0 == 0x15);
            mode = modes.last().map_or(mode, |pair| pair.1);
        }
        if reads {
            let address = self.address();
            self.frame_byte(&mut moves, address | 0x80, falls);
            if mode & 0x80 == 0 {
                moves.extend([Fall, Rise(false)]); // The turnaround.
            }
            for _ in 0..self.random.pick(&[1, 1, 2, 3]) {
                let byte = self.random.byte();
                self.frame_byte(&mut moves, byte, falls);
            }
        }
        self.maybe_broken(moves)
    }

    fn frame_pairs(&mut self, moves: &mut Vec<Move>, pairs: &[(u8, u8)], falls: u64) {
        for &(address, value) in pairs {
            self.frame_byte(moves, address & 0x7f, falls);
            self.frame_byte(moves, value, falls);
        }
    }

    fn frame_byte(&mut self, moves: &mut Vec<Move>, byte: u8, falls: u64) {
        for bit in (0..8).rev() {
            if self.random.below(4) < falls {
                moves.push(Fall);
            }
            moves.push(Rise(byte >> bit & 1 != 0));
        }
    }

    fn loose_edges(&mut self, count: u64) -> Vec<Move> {
        let mut moves = Vec::new();
        for _ in 0..count {
            let data = self.random.bool();
            moves.push(self.random.pick(&[Fall, Rise(data), Rise(data)]));
        }
        moves
    }

    fn maybe_broken(&mut self, mut moves: Vec<Move>) -> Vec<Move> {
        if self.random.below(100) < self.profile.broken {
            let left = self.random.below(moves.len() as u64 + 1);
            moves.truncate(left as usize);
        }
        moves
    }

    /// How many loose moves the other bus makes within a course: one, some,
    /// or none at all, since it has a plan of its own.
    fn few(&mut self) -> Option<u64> {
        let some = self.random.within(2, 24) as u64;
        self.random
            .pick(&[Some(1), Some(some), Some(some), None, None])
    }

    /// Make the moves of both plans, each in its own order.
    fn merge(&mut self, plans: [Vec<Move>; 2]) {
        let mut plans = plans.map(VecDeque::from);
        let longest = self.random.pick(&[1, 1, 2, 9, 40]);
        let mut returned = false;
        while !self.done() {
            let [first, second] = plans.each_ref().map(|plan| plan.len() as u64);
            if first + second == 0 {
                break;
            }
            let which = usize::from(self.random.below(first + second) >= first);
            for _ in 0..self.random.within(1, longest) {
                let Some(step) = plans[which].pop_front() else {
                    break;
                };
                returned |= self.incident();
                self.make(step);
            }
        }
        if returned {
            self.serve(2);
        }
    }

    fn make(&mut self, step: Move) {
        match step {
            Lines(clock, data) => self.pins(clock, data),
            Rise(data) => self.rise(data),
            Fall => self.fall(),
            Select(level) => self.select(level),
        }
    }

    /// Now and then something that both buses meet: select changes, a supply
    /// drop. Gives whether the pins may be dead after it.
    fn incident(&mut self) -> bool {
        if !self.random.once_in(80) {
            return false;
        }
        match self.random.below(12) {
            0..=3 => self.select(self.selected), // Changes nothing.
            4 => self.select(!self.selected),
            5 | 6 => {
                self.select(!self.selected);
                self.select(!self.selected);
            }
            7 => self.warm_outage(),
            8 => {
                self.outage_short();
                return true;
            }
            9 => self.serve(1),
            _ => self.view(),
        }
        false
    }

    /// Look at what became of the writes.
    fn outcome(&mut self, pairs: &[(u8, u8)]) {
        let (address, _) = self.random.pick(pairs);
        match self.random.below(8) {
            0 | 1 | 2 if self.model.writing() => {
                self.outage_short();
                self.image_at_now();
                self.serve(2);
            }
            0..=3 => self.send(Command::View(address)),
            4 => self.read(address, 1),
            5 => self.i2c_read(None, 1),
            6 => self.serve(1),
            _ => {}
        }
        self.wired = true;
    }

    /// Set the select line before a course. To be high it is mostly set again
    /// even if it was: a start or a loss of supply lets the sensor forget it.
    fn selects(&mut self, level: bool) {
        let again = if level {
            !self.random.once_in(12)
        } else {
            self.random.once_in(4)
        };
        if again || self.selected != level {
            self.select(level);
        }
    }

    /// SPI edges within an I2C transfer, while not selected.
    pub(super) fn beside(&mut self) {
        self.ready();
        let pairs = self.showing();
        self.selects(false);
        let transfer = self.transfer(&pairs);
        let edges = match self.few() {
            Some(count) => self.loose_edges(count),
            None => self.frame(&pairs),
        };
        self.merge([transfer, edges]);
        self.outcome(&pairs);
    }

    /// I2C reports within an SPI frame.
    pub(super) fn within(&mut self) {
        self.ready();
        let pairs = self.showing();
        self.selects(true);
        let frame = self.frame(&pairs);
        let reports = match self.few() {
            Some(count) => self.loose_reports(count),
            None => self.transfer(&pairs),
        };
        self.merge([reports, frame]);
        if !self.random.once_in(4) {
            self.select(false);
        }
        self.outcome(&pairs);
    }

    /// Frames with their select within an I2C transfer.
    pub(super) fn crossed(&mut self) {
        self.ready();
        let pairs = self.showing();
        self.selects(false);
        let transfer = self.transfer(&pairs);
        let mut frames = Vec::new();
        for _ in 0..self.random.within(1, 2) {
            frames.push(Select(true));
            let others = self.showing();
            frames.extend(match self.few() {
                Some(count) => self.loose_edges(count),
                None => self.frame(&others),
            });
            frames.push(Select(false));
        }
        self.merge([transfer, frames]);
        self.outcome(&pairs);
    }

    /// A soft reset over one bus; both go on while the sensor is quiet.
    pub(super) fn hushed(&mut self) {
        self.ready();
        let paces = [Pace::Still, Pace::Even, Pace::Even, Pace::Swift, Pace::Bus];
        self.pace = self.random.pick(&paces);
        let spi = self.random.bool();
        self.selects(spi);
        let after = (0x0c, self.random.byte());
        let (mut first, reset) = self.resetting(spi, after);
        let rest = first.split_off(reset);
        let pairs = self.showing();
        let mut second = vec![Select(!spi)];
        second.extend(if spi {
            self.transfer(&pairs)
        } else {
            self.frame(&pairs)
        });
        self.merge([first, Vec::new()]);
        if self.random.once_in(3) {
            self.serve(1); // The quiet time passes before the next move.
        }
        if self.random.bool() {
            self.merge([rest, second]);
        } else {
            self.merge([rest, Vec::new()]);
            self.merge([second, Vec::new()]);
        }
        if self.random.bool() {
            self.serve(1);
        }
        self.send(Command::View(after.0));
        self.outcome(&pairs);
    }

    /// A reset over one bus and the write of a pair after it, and how many
    /// moves there are up to the reset.
    fn resetting(&mut self, spi: bool, after: (u8, u8)) -> (Vec<Move>, usize) {
        if spi {
            let falls = self.falls();
            let mut moves = Vec::new();
            self.frame_pairs(&mut moves, &[(0x0a, 0x02)], falls);
            let reset = moves.len();
            self.frame_pairs(&mut moves, &[after], falls);
            return (moves, reset);
        }
        let mut plan = self.begun();
        plan.byte(0x70);
        plan.byte(0x0a);
        plan.bits(0x02);
        let reset = plan.moves.len() - 1; // The last bit's fall comes after it.
        plan.bit(true);
        plan.pairs(&[after]);
        plan.stop();
        (plan.moves, reset)
    }

    /// One pair of wires, as on the part: each clock edge goes to both buses.
    pub(super) fn shared(&mut self) {
        self.ready();
        let pairs = self.showing();
        let selected = self.random.bool();
        self.selects(selected);
        let moves = if selected {
            self.frame(&pairs)
        } else {
            self.transfer(&pairs)
        };
        let moves = self.doubled(moves);
        self.merge([moves, Vec::new()]);
        if selected {
            self.select(false);
        }
        self.outcome(&pairs);
    }

    /// Each move with what the other bus sees of it, before or after it.
    fn doubled(&mut self, moves: Vec<Move>) -> Vec<Move> {
        let [mut clock, mut data] = self.model.lines();
        let mut doubled = Vec::new();
        for step in moves {
            let other = match step {
                Lines(after, level) if after != clock => {
                    (clock, data) = (after, level);
                    Some(if clock { Rise(data) } else { Fall })
                }
                Lines(_, level) => {
                    data = level;
                    None
                }
                Rise(level) => {
                    if !clock && data != level && self.random.bool() {
                        doubled.push(Lines(false, level));
                    }
                    (clock, data) = (true, level);
                    Some(Lines(clock, data))
                }
                Fall => {
                    clock = false;
                    Some(Lines(clock, data))
                }
                Select(_) => None,
            };
            match other {
                Some(other) if self.random.bool() => doubled.extend([other, step]),
                Some(other) => doubled.extend([step, other]),
                None => doubled.push(step),
            }
        }
        doubled
    }
}
