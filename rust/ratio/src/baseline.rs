//! The same bench in plain Rust, as it is written for speed: records in fixed arrays, changed in
//! place, nothing allocated and nothing searched that can be looked up.
//!
//! It has the records of the lent state word for word (`docs/ARCHITECTURE.md`, "The state"), so that
//! a state can be wrong in every way in which a lent one can, and `is_sound` makes every test of the
//! list. It has every call, and a list of Steps with no test at all. A control unit hears a switch
//! message and does not obey it: a Step that ends one is not the paper's, and is neither compared nor
//! timed.

mod calls;
mod ends;
mod lines;
mod list;
mod records;
mod settings;
mod sound;
mod step;
mod words;

pub use records::Network;
pub use step::Stepped;
