//! What the tests share: tensors with their words, models of the calls, and the calls themselves under guard.
//!
//! `questions` and `direct` are the model of the plain call; `groups` and `panels` add that of the tile calls. They
//! follow the rules word by word, by the slowest and plainest means, and share neither code nor shape with the engine:
//! the sum knows no groups, and where tiles need counts of groups nothing is folded, packed or run tile by tile.
//! `job_model` adds the reading of a job file and the text that answers it; `delay` has the model of the delay call.

#![allow(dead_code)] // Each program of tests uses a part of this.

pub mod both;
pub mod broken;
pub mod call;
pub mod case;
pub mod cutting;
pub mod delay;
pub mod delay_make;
pub mod delay_notes;
pub mod direct;
/// The archive's calls by their pointers and lengths, which show what the safe calls hide where a question refuses.
#[path = "../../src/ffi.rs"]
pub mod ffi;
pub mod flaws;
pub mod formula;
pub mod groups;
pub mod guard;
pub mod job;
pub mod job_files;
pub mod job_make;
pub mod job_model;
pub mod json;
pub mod lent;
pub mod list;
pub mod make;
pub mod make_empty;
pub mod notes;
pub mod notes_empty;
pub mod panels;
pub mod program;
pub mod questions;
pub mod refusing;
pub mod request;
pub mod rng;
pub mod seen;
pub mod stretches;
pub mod temp_file;
pub mod tile_call;
