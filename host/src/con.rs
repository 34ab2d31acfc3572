//! Document 01's constants, which the Rust has in its module of this name.

#![allow(clippy::approx_constant, clippy::excessive_precision)]

pub const RZ: f32 = 6370.0;
pub const D2R: f32 = 0.01745329251;
pub const R2D: f32 = 57.295779513;
pub const PIO2: f32 = 1.570796326;
pub const VOFL: f32 = 299.79246;
