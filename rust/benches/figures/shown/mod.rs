//! How the figures are shown: tables, plots, and the document that has them.

pub mod archives;
pub mod bars;
pub mod costs;
pub mod document;
pub mod lines;
pub mod machine;
pub mod scores;
pub mod svg;
pub mod tables;
pub mod text;
