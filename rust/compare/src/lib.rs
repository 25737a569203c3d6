//! The proved bench held against the independent model of document 01.
//!
//! Both sides know one state in two forms: the proved library as words that a host lends, the model
//! as queues and options. [`layout`] writes a model's state as words, [`reading`] reads words,
//! through the looks alone, as a model's state, and [`difference`] names the first thing in which
//! two states differ. [`calls`] makes the same call on both sides, [`pair`] a run of them,
//! [`lists`] holds a list of Steps against the same Steps one by one, and [`reached`] counts what
//! they answered. What is called is made up by the model's own random [`runs`], by [`choice`] from any
//! state on, by [`filling`] where buffers are to fill, by [`asking`] for switch messages, and by
//! [`changing`] where settings are to change and cables to come under way. [`damage`] changes words
//! at random, [`verdict`] asks both sides whether the same words are sound, and [`damaged`] all that
//! can be asked of them. [`watch`] stands beside one of the sides, keeps [`books`] of its circuits,
//! and says where a stream goes wrong. [`soak`] does all of it for one seed, and [`reduce`] makes a
//! run that differs as short as it can be; models that are [`wrong`] on purpose are found by them.
//! [`probe`] holds transitions of a link's wires to the model's.

pub mod asking;
pub mod books;
pub mod calls;
pub mod changing;
pub mod choice;
pub mod damage;
pub mod damaged;
pub mod difference;
pub mod filling;
pub mod layout;
pub mod lists;
pub mod pair;
pub mod probe;
pub mod reached;
pub mod reading;
pub mod reduce;
pub mod runs;
pub mod soak;
pub mod verdict;
pub mod watch;
pub mod wrong;
