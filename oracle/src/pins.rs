//! The serial pins of a sensor at one moment, event by event. The events are
//! those of crates/pins/src/bus.rt.
pub mod random;

use crate::{
    devices::bma150::Bma150,
    records::{due, place, sampled, STOCK},
    signals::Drive,
    time::{Duration, Time},
};

/// The accelerations that are sampled: codes 341, -342 and 243.
const AXES: [i32; 3] = [2_664_063, -2_671_875, 1_898_438];

#[derive(Clone)]
pub struct Pins {
    sensor: Bma150,
    now: Time,
}

fn number(drive: Drive) -> u8 {
    match drive {
        Drive::Floating => 0,
        Drive::Low => 1,
        Drive::High => 2,
    }
}

fn levels(event: u8) -> [[bool; 2]; 2] {
    [[8, 4], [2, 1]].map(|pair| pair.map(|bit| event & bit != 0))
}

/// An event of the pins at a moment.
fn apply(sensor: &mut Bma150, event: u8, now: Time) {
    match event {
        0..=0x0f => {
            let [before, after] = levels(event);
            sensor.i2c_pins_at(before, after, now).expect("a report");
        }
        0x10 | 0x11 => sensor.set_selected(event & 1 != 0),
        0x20 | 0x21 => {
            sensor.rising_at(event & 1 != 0, now).expect("a rise");
        }
        0x30 => {
            sensor.falling_at(now).expect("a fall");
        }
        _ => {}
    }
}

/// Whether the event would take a sample that lies at its own moment first.
fn consumes(sensor: &Bma150, event: u8) -> bool {
    let Some(at) = sensor.next_sample() else {
        return false;
    };
    let mut probe = sensor.clone();
    apply(&mut probe, event, at);
    probe.next_sample() != Some(at)
}

impl Pins {
    /// Stored byte of register 15: four wires or three, shadowing off.
    pub fn start(operation: u8) -> Self {
        let mut image = STOCK;
        image[place(0x15)] = operation;
        let (sensor, now) = sampled(&image, AXES, 20_000);
        Self { sensor, now }
    }

    /// The quiet time after a soft reset ends.
    fn pass_quiet(&mut self) {
        let Some(at) = self.sensor.interaction_deadline() else {
            return;
        };
        if self.now.checked_add(Duration::from_micros(10)) == Some(at) {
            due(&mut self.sensor, at);
            self.now = at;
        }
    }

    /// The answer: both outputs and whether converted values were used, or
    /// that a view is withheld; and the byte viewed.
    pub fn event(&mut self, event: u8) -> [u8; 2] {
        let consumed = consumes(&self.sensor, event);
        match event {
            0x40 => self.pass_quiet(),
            0x60 => *self = Self::start(0x88),
            0x61 => *self = Self::start(0x08),
            _ => apply(&mut self.sensor, event, self.now),
        }
        let sensor = &self.sensor;
        let pins =
            number(sensor.output()) | number(sensor.data_output()) << 2 | u8::from(consumed) << 4;
        if event < 0x80 {
            return [pins, 0];
        }
        match sensor.peek(event & 0x7f) {
            Some(byte) => [pins, byte],
            None => [pins | 0x20, 0],
        }
    }

    /// In the quiet time after a soft reset no register can be viewed.
    pub fn quiet(&self) -> bool {
        self.sensor.peek(0).is_none()
    }

    /// Still a sensor that is all registers: awake, copying no image, not in
    /// automatic mode, shadowing off.
    pub fn plain(&self) -> bool {
        !self.sensor.sleeping()
            && self.sensor.peek(0x0a).is_none_or(|byte| byte & 0x20 == 0)
            && self.sensor.peek(0x15).is_none_or(|byte| byte & 9 == 8)
    }
}

/// The answers to a stream of events.
pub fn answers(events: &[u8]) -> Vec<u8> {
    let mut pins = Pins::start(0x88);
    events.iter().flat_map(|&event| pins.event(event)).collect()
}
