//! What is measured, and the times.

pub mod before;
pub mod calls;
pub mod cases;
pub mod contest;
pub mod delays;
pub mod forms;
pub mod labels;
pub mod one_tile;
pub mod required;
pub mod scaling;
pub mod stretches;
pub mod tile_sizes;
pub mod walks;
