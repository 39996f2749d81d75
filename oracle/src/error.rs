//! The error type that the text uses but does not contain.
use crate::time::TimeError;

#[derive(Clone, Copy, Debug, PartialEq, Eq)]
pub enum Error {
    ImageSize {
        name: &'static str,
        expected: usize,
        actual: usize,
    },
    BadInput(&'static str),
    Snapshot(&'static str),
    Internal(&'static str),
    Time(TimeError),
}

impl From<TimeError> for Error {
    fn from(error: TimeError) -> Self {
        Error::Time(error)
    }
}
