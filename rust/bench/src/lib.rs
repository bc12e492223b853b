//! The proved library beside plain Rust, row by row; what a call costs as it
//! is paid, acceptance in; and how dear a batch can be.

pub mod bound;
pub mod boxes;
pub mod images;
pub mod lists;
pub mod meter;
pub mod paid;
pub mod plain;
pub mod rows;
pub mod show;
pub mod sides;
