//! The calls of the archive: plain calls, tile calls, state questions and delays, by their safe forms and by their pointers.

#[path = "../common/mod.rs"]
mod common;
mod delay;
mod delay_limits;
mod delay_picture;
mod delay_random;
mod delay_refusals;
mod edges;
mod empty_layers;
mod empty_tiles;
mod larger;
mod layout_words;
mod limits;
mod random;
mod refusals;
mod stretches;
mod tile_driver;
mod tile_limits;
mod tile_lists;
mod tile_refusals;
mod tile_shapes;
mod vectors;
mod with_c;
mod with_c_limits;
mod with_c_random;
mod with_c_refusals;
