//! The Rust text of the sensor, compiled as it stands, and the driver around
//! it. `time`, `signals`, `state` and `devices/*` are the text; `build` puts
//! them beside these files.
pub mod bench;
pub mod command;
mod devices;
mod error;
pub mod generator;
pub mod host;
pub mod leaves;
pub mod line;
pub mod model;
pub mod pins;
pub mod random;
pub mod records;
#[allow(dead_code)]
pub mod signals;
#[allow(dead_code)]
mod state;
pub mod streams;
#[allow(dead_code)]
pub mod time;

pub use error::Error;
pub use time::{Duration, Time};
