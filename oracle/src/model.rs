//! The sensor with the last accepted time, and the refusals in front of it.
use crate::{
    command::{Command, IMAGE},
    devices::bma150::Bma150,
    signals::{Acceleration, Drive, Event, NvDomain, Output},
    time::Time,
    Error,
};
use core::ops::ControlFlow;

/// The largest magnitude of an axis, in micro-g.
pub const AXIS_LIMIT: u32 = 1_000_000_000;
/// The whole seconds of an accepted time are below this.
pub const TIME_LIMIT: u128 = 1 << 96;
/// Where an image has the byte of register 14: range and bandwidth.
pub const MEASUREMENT: usize = 0x14 - 0x0b;

#[derive(Clone, Copy, Debug, PartialEq, Eq)]
pub enum Refusal {
    ImageLength = 1,
    AxisRange = 2,
    TimeLimit = 3,
    TimeBack = 4,
    DueFirst = 5,
    NotDue = 6,
    Command = 7,
    PinJump = 8,
    ReservedCode = 9,
}

impl Refusal {
    pub fn word(self) -> &'static str {
        match self {
            Refusal::ImageLength => "image-length",
            Refusal::AxisRange => "axis-range",
            Refusal::TimeLimit => "time-limit",
            Refusal::TimeBack => "time-back",
            Refusal::DueFirst => "due-first",
            Refusal::NotDue => "not-due",
            Refusal::Command => "command",
            Refusal::PinJump => "pin-jump",
            Refusal::ReservedCode => "reserved-code",
        }
    }
}

/// The end of a stored write, as a supply or due call reports it.
#[derive(Clone, Copy, Debug, Default, PartialEq, Eq)]
pub enum Report {
    #[default]
    Nothing,
    Completed(u8, u8),
    Cut(u8, u8),
}

/// What an accepted call answers beside the pins.
#[derive(Clone, Copy, Debug, PartialEq, Eq)]
pub enum Answer {
    Plain,
    Report(Report),
    Image([u8; IMAGE]),
    /// The byte, and of an acceleration whether its value is a mean.
    Viewed(Option<u8>, Option<bool>),
}

pub type Reply = Result<Answer, Refusal>;

/// Gathers the events of one call.
#[derive(Default)]
struct Events {
    byte: Option<(u8, u8)>,
    report: Report,
    /// An event that the model should never send.
    stray: bool,
}

impl Events {
    fn close(&mut self, of: impl Fn(u8, u8) -> Report, address: u16) {
        match self.byte.take() {
            Some((at, value)) if u16::from(at) == address && self.report == Report::Nothing => {
                self.report = of(at, value);
            }
            _ => self.stray = true,
        }
    }
}

impl Output for Events {
    fn event(&mut self, event: Event) -> ControlFlow<()> {
        let sensor = NvDomain::Sensor;
        match event {
            Event::NvByte {
                domain,
                address,
                value,
                ..
            } if domain == sensor && self.byte.is_none() => {
                self.byte = Some((address as u8, value));
            }
            Event::NvCommit {
                domain, address, ..
            } if domain == sensor => self.close(Report::Completed, address),
            Event::NvInterrupted {
                domain, address, ..
            } if domain == sensor => self.close(Report::Cut, address),
            _ => self.stray = true,
        }
        ControlFlow::Continue(())
    }
}

impl Events {
    fn report(self) -> Result<Answer, Error> {
        if self.stray || self.byte.is_some() {
            return Err(Error::Internal("unexpected events"));
        }
        Ok(Answer::Report(self.report))
    }
}

/// Whether an image has range code 3 or bandwidth code 7, which are reserved.
pub fn reserved(image: &[u8; IMAGE]) -> bool {
    let byte = image[MEASUREMENT];
    byte >> 3 & 3 == 3 || byte & 7 == 7
}

/// The levels before and after a report: clock, data.
fn before(levels: u8) -> [bool; 2] {
    after(levels >> 2)
}
fn after(levels: u8) -> [bool; 2] {
    [2, 1].map(|bit| levels & bit != 0)
}

#[derive(Clone, Debug, PartialEq, Eq)]
pub struct Model {
    sensor: Bma150,
    /// The last accepted time.
    last: Time,
    /// Levels of the I2C lines after the last accepted report: clock, data.
    lines: [bool; 2],
}

impl Default for Model {
    fn default() -> Self {
        Self {
            sensor: Bma150::new(Time::ZERO),
            last: Time::ZERO,
            lines: [true; 2],
        }
    }
}

impl Model {
    pub fn last(&self) -> Time {
        self.last
    }
    pub fn lines(&self) -> [bool; 2] {
        self.lines
    }
    pub fn next_due(&self) -> Option<Time> {
        self.sensor.interaction_deadline()
    }
    pub fn interrupt(&self) -> bool {
        self.sensor.interrupt()
    }
    pub fn output(&self) -> Drive {
        self.sensor.output()
    }
    pub fn data_output(&self) -> Drive {
        self.sensor.data_output()
    }
    pub fn next_sample(&self) -> Option<Time> {
        self.sensor.next_sample()
    }
    pub fn sleeping(&self) -> bool {
        self.sensor.sleeping()
    }
    pub fn writing(&self) -> bool {
        self.sensor.nonvolatile_busy()
    }
    pub fn stored(&self, at: Time) -> [u8; IMAGE] {
        self.sensor.nonvolatile(at)
    }
    pub fn peek(&self, address: u8) -> Option<u8> {
        self.sensor.peek(address)
    }

    /// Whether the value of an acceleration's register is a mean.
    #[cfg(feature = "marks")]
    pub fn mark(&self, address: u8) -> Option<bool> {
        (0x02..=0x07)
            .contains(&address)
            .then(|| self.sensor.mean(usize::from(address - 0x02) / 2))
    }
    /// The text as it stands does not say.
    #[cfg(not(feature = "marks"))]
    pub fn mark(&self, _: u8) -> Option<bool> {
        None
    }

    /// The first refusal of the table that applies, in the order
    /// 9, 3, 4, 2 or 8, 5, 6. Numbers 7 and 1 are met before a command exists.
    pub fn refusal(&self, command: &Command) -> Option<Refusal> {
        let at = command.time()?;
        if matches!(command, Command::Start { image, .. } if reserved(image)) {
            return Some(Refusal::ReservedCode);
        }
        if at.raw() >= TIME_LIMIT {
            return Some(Refusal::TimeLimit);
        }
        if command.starts() {
            return None;
        }
        if at < self.last {
            return Some(Refusal::TimeBack);
        }
        self.operand(command).or_else(|| self.moment(command, at))
    }

    /// Numbers 2 and 8: an axis out of range, levels that do not follow on.
    fn operand(&self, command: &Command) -> Option<Refusal> {
        match command {
            Command::Accelerations { axes, .. } => axes
                .iter()
                .any(|v| v.unsigned_abs() > AXIS_LIMIT)
                .then_some(Refusal::AxisRange),
            Command::Pins { levels, .. } => {
                (before(*levels) != self.lines).then_some(Refusal::PinJump)
            }
            _ => None,
        }
    }

    /// Numbers 5 and 6: what is due comes first, or is not due.
    fn moment(&self, command: &Command, at: Time) -> Option<Refusal> {
        let due = self.next_due();
        match command {
            Command::StoredImage { .. } => None,
            Command::Due { .. } => (due != Some(at)).then_some(Refusal::NotDue),
            _ => due
                .is_some_and(|due| due <= at)
                .then_some(Refusal::DueFirst),
        }
    }

    /// Refuse or carry out a command. An error is a fault of the text: no
    /// accepted call should meet one.
    pub fn apply(&mut self, command: &Command) -> Result<Reply, Error> {
        if let Some(refusal) = self.refusal(command) {
            return Ok(Err(refusal));
        }
        match *command {
            Command::Start { at, image } | Command::StartStored { at, image } => {
                self.sensor = Bma150::from_nonvolatile(at, &image)?;
                self.last = at;
                self.lines = [true; 2];
            }
            Command::Temperature(value) => self.sensor.set_temperature(value),
            Command::Select(level) => self.sensor.set_selected(level),
            Command::View(address) => {
                let byte = self.sensor.peek(address);
                let mark = byte.and_then(|_| self.mark(address));
                return Ok(Ok(Answer::Viewed(byte, mark)));
            }
            Command::StoredImage { at } => {
                return Ok(Ok(Answer::Image(self.sensor.nonvolatile(at))));
            }
            _ => return self.timed(command).map(Ok),
        }
        Ok(Ok(Answer::Plain))
    }

    fn timed(&mut self, command: &Command) -> Result<Answer, Error> {
        let now = command.time().expect("a timed call");
        let sensor = &mut self.sensor;
        sensor.sync_local_until(now, false)?;
        self.last = now;
        let mut events = Events::default();
        match *command {
            Command::Accelerations {
                axes: [x, y, z], ..
            } => {
                sensor.set_input(Acceleration { x, y, z }, now)?;
            }
            Command::Supply { millivolts, .. } => {
                sensor.set_supply(millivolts, now, &mut events)?;
                return events.report();
            }
            Command::Due { .. } => {
                sensor.at_deadline(now, &mut events)?;
                return events.report();
            }
            Command::Rising { data, .. } => {
                sensor.rising_at(data, now)?;
            }
            Command::Falling { .. } => {
                sensor.falling_at(now)?;
            }
            Command::Pins { levels, .. } => {
                sensor.i2c_pins_at(before(levels), after(levels), now)?;
                self.lines = after(levels);
            }
            _ => unreachable!("not a timed call"),
        }
        Ok(Answer::Plain)
    }
}
