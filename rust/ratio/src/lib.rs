//! What the proved bench costs beside plain Rust.
//!
//! Three sides make the same calls: the proved library, the independent model, and [`baseline`], the
//! same bench written for speed in plain Rust. [`sides`] has them behind one trait, [`states`] what
//! they begin from, [`measures`] what is timed, [`lists`] what of lists of Steps, and [`timing`] how.

pub mod baseline;
pub mod lists;
pub mod measures;
pub mod sides;
pub mod states;
pub mod timing;
