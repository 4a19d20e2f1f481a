//! The C calls of the proved code, include/icepole.h, include/burst.h,
//! include/card.h and include/core.h, for Rust: each takes slices and lent
//! numbers, and returns what the C call does. The tool and the tests call them
//! here.
//!
//! Why each call is safe: every pointer comes from a slice and goes with that
//! slice's length, or from a lent number, which is aligned; none is null. A
//! call writes only to what is lent to it mutably, and that overlaps nothing
//! else. Nothing else can change what is lent while the call runs.

pub mod burst;
pub mod card;
pub mod hardware_core;
pub mod icepole;
