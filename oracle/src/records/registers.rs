//! Codes, temperatures, ignored writes and withheld reads, shown by whole
//! sensors that accepted calls brought into the state asked for.
use super::{raised, truths, Answer, Record};
use crate::{
    devices::bma150::Bma150,
    signals::{Acceleration, Event, Output},
    time::{Duration, Time},
};
use core::ops::ControlFlow;

pub const STOCK: [u8; 19] = [
    3, 20, 150, 160, 150, 0, 0, 162, 13, 14, 128, 0, 0, 0, 0, 128, 128, 128, 0,
];

/// The image's byte of a register from 0b to 1d.
pub fn place(register: u8) -> usize {
    usize::from(register) - 0x0b
}

struct Unheard;

impl Output for Unheard {
    fn event(&mut self, _: Event) -> ControlFlow<()> {
        ControlFlow::Continue(())
    }
}

/// The due call at its moment.
pub fn due(sensor: &mut Bma150, at: Time) {
    sensor.at_deadline(at, &mut Unheard).expect("a due call");
}

/// A sensor after 80 sample phases, and a moment before the next: by then the
/// low-pass stage stands on its input.
pub fn sampled(image: &[u8; 19], axes: [i32; 3], millicelsius: i32) -> (Bma150, Time) {
    let mut sensor = Bma150::from_nonvolatile(Time::ZERO, image).expect("19 bytes");
    let [x, y, z] = axes;
    let input = Acceleration { x, y, z };
    sensor.set_input(input, Time::ZERO).expect("an axis");
    sensor.set_temperature(millicelsius);
    let wake = sensor.interaction_deadline().expect("a wake-up");
    due(&mut sensor, wake);
    let now = wake
        .checked_add(Duration::from_micros(6700))
        .expect("early");
    sensor.sync_local_until(now, false).expect("samples");
    (sensor, now)
}

/// A register is written over SPI.
pub fn write(sensor: &mut Bma150, address: u8, value: u8, now: Time) {
    sensor.set_selected(true);
    for byte in [address, value] {
        for bit in (0..8).rev() {
            let level = byte >> bit & 1 != 0;
            sensor.rising_at(level, now).expect("a rise");
        }
    }
    sensor.set_selected(false);
}

/// At bandwidth 6, whatever `c` says: a mean would keep samples of the way.
pub fn coded(record: &Record) -> Answer {
    let mut image = STOCK;
    image[place(0x14)] = record.c & 0x18 | 6;
    for axis in 0..3 {
        image[place(0x16) + axis] = record.a;
        image[place(0x1a) + axis] = record.b;
    }
    let (sensor, _) = sampled(&image, [record.n as i32; 3], 20_000);
    let axis = (record.z % 3) as u8;
    let low = sensor.peek(2 + 2 * axis).expect("a low byte");
    let high = sensor.peek(3 + 2 * axis).expect("a high byte");
    let ten = u16::from(high) << 2 | u16::from(low >> 6);
    let code = (ten << 6) as i16 >> 6;
    (raised(code), u64::from(high) << 8 | u64::from(low))
}

pub fn temperature(record: &Record) -> Answer {
    let (sensor, _) = sampled(&STOCK, [0; 3], record.n as i32);
    (0, sensor.peek(8).expect("a temperature").into())
}

/// A sensor in the state of a record: 0a holds `c`, and the bits of `x` say
/// whether it is quiet, copies its image, sleeps, runs a stored write. The
/// register `a`, where it has a byte, holds another than `b`.
fn prepared(record: &Record) -> Bma150 {
    let Record { a, b, c, x, .. } = *record;
    let mut image = STOCK;
    if (0x0b..=0x1d).contains(&a) {
        image[place(a)] = b ^ 0x80;
    }
    let mut sensor = Bma150::from_nonvolatile(Time::ZERO, &image).expect("19 bytes");
    let mut set = |address, value| write(&mut sensor, address, value, Time::ZERO);
    set(0x0a, 0x10);
    if (0x1e..=0x2a).contains(&a) {
        set(a, b ^ 0x80);
    }
    if x & 8 != 0 {
        set(0x2b, 0);
    }
    if x & 2 != 0 {
        set(0x0a, 0x20);
    }
    set(0x0a, if x & 1 != 0 { 2 } else { c });
    sensor
}

/// Whether a write changes the sensor, whether it begins a stored write, and
/// whether a read is withheld.
pub fn access(record: &Record) -> Answer {
    let before = prepared(record);
    assert_eq!(before.sleeping(), record.x & 4 != 0, "the state asked for");
    assert_eq!(before.nonvolatile_busy(), record.x & 8 != 0);
    let mut after = before.clone();
    write(&mut after, record.a, record.b, Time::ZERO);
    let begins = after.nonvolatile_busy() && !before.nonvolatile_busy();
    let withheld = before.peek(record.a).is_none();
    (u64::from(after != before), truths(begins, withheld))
}
