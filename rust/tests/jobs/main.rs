//! The job program: what it prints for a job file, accepted or refused, and how it takes the file.

mod changes;
#[path = "../common/mod.rs"]
mod common;
mod cuts;
mod empty_layers;
mod example;
mod files;
mod limits;
mod random;
mod reading;
mod records;
mod refusals;
mod with_c;
