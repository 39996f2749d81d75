//! The two files of the text that hold devices.
#[allow(dead_code)]
pub(crate) mod bma150;
#[allow(dead_code)]
pub(crate) mod nv;
