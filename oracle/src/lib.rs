//! The Rust original as judge: its modules compiled unchanged, and beside them a small interface in
//! the terms of the specification (`api`) and the seeded maps that are put to both sides (`maps`).
//!
//! The original refers to its modules from the crate's root, so they stand here. The build step
//! lays out a source folder in which each of them is a link to the published file; modules that
//! were not published are the stubs of `oracle/stubs`.

#![feature(uint_bit_width)]
#![allow(dead_code)]

pub mod bracket;
pub mod circle;
pub mod domain;
pub mod geodesy;
pub mod grid;
pub mod kernel;
pub mod ownership;
pub mod progress;
pub mod raster;
pub mod search;
pub mod smallest;
pub mod table;

pub mod api;
pub mod maps;
pub mod reading;
