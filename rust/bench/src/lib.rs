//! The proved bench of document 01, called from Rust: a network of 1 to 16 XS1-L nodes, their
//! links, circuits, credits and switch messages. A token that leaves a node is on the line of a cable
//! until a line step takes it off.
//!
//! What is called is the static library that the Rattle toolchain has proved and compiled from
//! `crates/host`; this crate adds names, enums and ownership, and no rule of the bench. Its parts:
//!
//! * [`Bench`]: a network that owns its memories, with a method for each call;
//! * [`StepRecord`]: one of a list of Steps that are made at once, and [`StepResult`], what it
//!   answered;
//! * [`Looks`]: the state of a network, read through the proved looks alone, with its
//!   [digest](Looks::digest);
//! * [`probe`]: tokens as transitions of a link's wires, and back; [`Probed`] is what its raw form
//!   ([`raw::write_fast`] and its like) answers;
//! * [`raw`]: each proved function over the caller's own slices, of any length and contents;
//! * [`Refusal`]: the paper's numbers for no, with their names.

mod answer;
mod clause;
mod digest;
mod freight;
mod list;
mod looks;
mod network;
pub mod probe;
mod proved;
pub mod raw;
mod records;
mod refusal;
pub mod sizes;
mod token;

pub use answer::{Answer, Opening, Stepped};
pub use clause::Clause;
pub use freight::Freight;
pub use list::{StepRecord, StepResult};
pub use looks::Looks;
pub use network::{Bench, LinkEnd, Setting};
pub use probe::Probed;
pub use records::{
    ChannelEnd, Circuit, ControlUnit, Destination, Hop, Line, Link, Node, Peer, Port, TileLink,
};
pub use refusal::{Cause, Refusal};
pub use token::{Kind, Token, Width};
