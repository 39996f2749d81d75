//! A child of the text's analog.rs: an axis of any state, and its fields.
use super::Axis;
use crate::time::Time;

pub(in crate::leaves) fn axis(at: Time, output: i64, velocity: i64) -> Axis {
    Axis {
        at,
        output,
        velocity,
    }
}

pub(in crate::leaves) fn fields(axis: &Axis) -> (Time, i64, i64) {
    (axis.at, axis.output, axis.velocity)
}
