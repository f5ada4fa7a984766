//! What the engine is measured beside, all in safe Rust.

pub mod direct_delay;
pub mod nests;
pub mod odometer;
pub mod odometer_forms;
pub mod packed;
