//! A second bench, written from documents 01 and 02 alone and independent of the proved one.
//!
//! Its answers are what the proved calls are compared with, and its judge is what their speed is
//! measured against: an expert's plain Rust, with masks for sets of locations.

pub mod answer;
pub mod assign;
pub mod book;
pub mod candidate;
pub mod encode;
pub mod import;
pub mod judge;
pub mod model;
pub mod profile;
pub mod rows;
pub mod search;
pub mod shape;
pub mod text;
pub mod write;
