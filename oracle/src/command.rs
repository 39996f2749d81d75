//! The bench program's commands: one byte, then fixed operands, big-endian.
use crate::time::Time;

pub const IMAGE: usize = 19;
/// Bytes of a time: four of seconds, eight of fraction.
const TIME: usize = 12;

#[derive(Clone, Copy, Debug, PartialEq, Eq)]
pub enum Command {
    Start { at: Time, image: [u8; IMAGE] },
    Accelerations { at: Time, axes: [i32; 3] },
    Temperature(i32),
    Supply { at: Time, millivolts: u16 },
    Due { at: Time },
    Select(bool),
    Rising { at: Time, data: bool },
    Falling { at: Time },
    Pins { at: Time, levels: u8 },
    StoredImage { at: Time },
    View(u8),
    StartStored { at: Time, image: [u8; IMAGE] },
}

/// What stands at the head of the input.
pub enum Decoded {
    /// A command and the bytes it takes.
    Command(Command, usize),
    /// The bytes so far may be the head of a longer command.
    Short,
    /// An unknown byte or an operand value that is not listed.
    Bad,
}

/// Bytes of operands after the command byte.
fn operands(code: u8) -> Option<usize> {
    Some(match code {
        0x01 | 0x0c => TIME + IMAGE,
        0x02 => TIME + 12,
        0x03 => 4,
        0x04 => TIME + 2,
        0x05 | 0x08 | 0x0a => TIME,
        0x06 | 0x0b => 1,
        0x07 | 0x09 => TIME + 1,
        _ => return None,
    })
}

fn word(bytes: &[u8]) -> u32 {
    u32::from_be_bytes([bytes[0], bytes[1], bytes[2], bytes[3]])
}

fn number(bytes: &[u8]) -> i32 {
    word(bytes) as i32
}

fn time(bytes: &[u8]) -> Time {
    let fraction = u64::from(word(&bytes[4..])) << 32 | u64::from(word(&bytes[8..]));
    Time::from_raw(u128::from(word(bytes)) << 64 | u128::from(fraction))
}

fn image(bytes: &[u8]) -> [u8; IMAGE] {
    let mut image = [0; IMAGE];
    image.copy_from_slice(&bytes[..IMAGE]);
    image
}

fn flag(byte: u8) -> Option<bool> {
    match byte {
        0 => Some(false),
        1 => Some(true),
        _ => None,
    }
}

/// The command of a code whose operands are all there.
fn command(code: u8, rest: &[u8]) -> Option<Command> {
    Some(match code {
        0x03 => Command::Temperature(number(rest)),
        0x06 => Command::Select(flag(rest[0])?),
        0x0b => Command::View(rest[0]),
        _ => {
            let (at, rest) = (time(rest), &rest[TIME..]);
            timed(code, at, rest)?
        }
    })
}

fn timed(code: u8, at: Time, rest: &[u8]) -> Option<Command> {
    Some(match code {
        0x01 => Command::Start {
            at,
            image: image(rest),
        },
        0x02 => Command::Accelerations {
            at,
            axes: [number(rest), number(&rest[4..]), number(&rest[8..])],
        },
        0x04 => Command::Supply {
            at,
            millivolts: u16::from(rest[0]) << 8 | u16::from(rest[1]),
        },
        0x05 => Command::Due { at },
        0x07 => Command::Rising {
            at,
            data: flag(rest[0])?,
        },
        0x08 => Command::Falling { at },
        0x09 if rest[0] < 16 => Command::Pins {
            at,
            levels: rest[0],
        },
        0x0a => Command::StoredImage { at },
        0x0c => Command::StartStored {
            at,
            image: image(rest),
        },
        _ => return None,
    })
}

/// Decode the head of `bytes`, which holds at least one byte.
pub fn decode(bytes: &[u8]) -> Decoded {
    let Some(length) = operands(bytes[0]) else {
        return Decoded::Bad;
    };
    if bytes.len() <= length {
        return Decoded::Short;
    }
    match command(bytes[0], &bytes[1..]) {
        Some(command) => Decoded::Command(command, 1 + length),
        None => Decoded::Bad,
    }
}

impl Command {
    pub fn code(&self) -> u8 {
        match self {
            Command::Start { .. } => 0x01,
            Command::Accelerations { .. } => 0x02,
            Command::Temperature(_) => 0x03,
            Command::Supply { .. } => 0x04,
            Command::Due { .. } => 0x05,
            Command::Select(_) => 0x06,
            Command::Rising { .. } => 0x07,
            Command::Falling { .. } => 0x08,
            Command::Pins { .. } => 0x09,
            Command::StoredImage { .. } => 0x0a,
            Command::View(_) => 0x0b,
            Command::StartStored { .. } => 0x0c,
        }
    }
    pub fn time(&self) -> Option<Time> {
        match *self {
            Command::Temperature(_) | Command::Select(_) | Command::View(_) => None,
            Command::Start { at, .. }
            | Command::Accelerations { at, .. }
            | Command::Supply { at, .. }
            | Command::Due { at }
            | Command::Rising { at, .. }
            | Command::Falling { at }
            | Command::Pins { at, .. }
            | Command::StoredImage { at }
            | Command::StartStored { at, .. } => Some(at),
        }
    }
    /// Whether it is a start, by 01 or by 0c.
    pub fn starts(&self) -> bool {
        matches!(self, Command::Start { .. } | Command::StartStored { .. })
    }
    /// Append the command's bytes. A time must lie below 2^32 s.
    pub fn encode(&self, out: &mut Vec<u8>) {
        out.push(self.code());
        if let Some(at) = self.time() {
            assert!(at.raw() >> 96 == 0, "time does not fit the format");
            out.extend_from_slice(&at.raw().to_be_bytes()[4..]);
        }
        match *self {
            Command::Start { image, .. } | Command::StartStored { image, .. } => {
                out.extend_from_slice(&image)
            }
            Command::Accelerations { axes, .. } => {
                axes.iter().for_each(|v| out.extend(v.to_be_bytes()))
            }
            Command::Temperature(value) => out.extend(value.to_be_bytes()),
            Command::Supply { millivolts, .. } => out.extend(millivolts.to_be_bytes()),
            Command::Select(level) => out.push(u8::from(level)),
            Command::Rising { data, .. } => out.push(u8::from(data)),
            Command::Pins { levels, .. } => out.push(levels),
            Command::View(address) => out.push(address),
            Command::Due { .. } | Command::Falling { .. } | Command::StoredImage { .. } => {}
        }
    }
}
