//! The low-pass stage of one axis, from any state. Signed numbers of a record
//! or an answer are in two's complement.
use super::{halves, raw, Answer, Record};
use crate::{leaves::Axis, time::Time};

fn levels(output: i64, velocity: i64) -> Answer {
    (output as u64, velocity as u64)
}

/// Kind 40: an axis at rest since the moment n.x (n whole seconds, x units of
/// 2^-64 s). The answer is, if `a` is 0, its output and its velocity; else its
/// moment, whole seconds and fraction. `b`, `c`, `y` and `z` do not count.
pub fn rested(record: &Record) -> Answer {
    let (at, output, velocity) = Axis::new(record.first(), 0).fields();
    match record.a {
        0 => levels(output, velocity),
        _ => halves(at.raw()),
    }
}

/// Kind 41: an axis at the moment 0 with output `y` and velocity `z` (both 64
/// bits) goes on to the moment b.x (b whole seconds, x units of 2^-64 s) with
/// the input `n` (32 bits). The answer is, if `a` is 0, its output and its
/// velocity after the step; else the value that the step returns, and the
/// fraction of the axis's moment. `c` does not count.
pub fn advanced(record: &Record) -> Answer {
    let mut axis = Axis::of(Time::ZERO, record.y as i64, record.z as i64);
    let now = Time::from_raw(raw(record.b.into(), record.x));
    let value = axis.advance(now, record.n as i32);
    let (at, output, velocity) = axis.fields();
    match record.a {
        0 => levels(output, velocity),
        _ => (value as u64, halves(at.raw()).1),
    }
}
