//! What a test designer uses: sheets as text and back, and pictures of sets of
//! two coordinates.
//!
//! Sheets are written, read and searched by the second implementation. Here is
//! only what people see of them.

#![forbid(unsafe_code)]
#![warn(missing_docs)]

pub mod command;
pub mod content;
mod field;
pub mod graph;
pub mod picture;
pub mod svg;
pub mod text;
