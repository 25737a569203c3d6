//! An independent reference model of the bench of document 01, "Full scope and
//! exact rules": a network of 1 to 16 XS1-L nodes, their links, circuits,
//! credits and switch messages; with the list of steps and the two starts of
//! document 02, Asks 1 and 7. A start that is lent a second memory gives a network
//! whose tokens cross by line, as Ask 4 has it; any other one whose tokens cross at
//! once, as before.
//!
//! It is written from the documents alone, to be run beside another
//! implementation. It aims at being easy to compare with the text: each function
//! quotes the sentence it implements, and no cleverness stands between them.
//! Entries of the list of open points are cited as "open point N".
//!
//! The door is [`calls::apply`]: one [`calls::Call`] in, one [`answers::Answer`]
//! out, for any arguments. [`sound`] is the list "Sound", [`digest`] the digest of
//! a state, [`script`] the text form of runs, and [`runs`] makes random ones.
//! [`probe`], which knows tokens alone, writes them as transitions of a link's wires
//! and reads them back, as Ask 8 has it.

pub mod answers;
pub mod calls;
pub mod credits;
pub mod digest;
pub mod lines;
pub mod messages;
pub mod network;
pub mod output;
mod print;
pub mod probe;
pub mod random;
pub mod registers;
pub mod routing;
pub mod runs;
pub mod script;
pub mod set;
pub mod sizes;
pub mod sound;
pub mod speech;
pub mod step;
pub mod tight;
pub mod tokens;
pub mod topology;
pub mod words;

pub use answers::{Answer, No};
pub use calls::{apply, Call, StepRecord};
pub use network::Network;
