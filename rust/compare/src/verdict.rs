//! Both sides asked whether the same words are sound.

use model::network::Network;
use model::sound;

use crate::calls::Lent;
use crate::reading::read;

/// What both say.
#[derive(Clone, Copy, Debug, PartialEq, Eq)]
pub enum Verdict {
    Sound,
    /// Read as a state of the model, and unsound.
    Unsound,
    /// No state of the model, and unsound to the proved bench.
    Unreadable,
}

/// Asks both sides of any words, and gives the state of the model that they are, if they are one.
/// Where the sides differ, or the proved tests differ among themselves, says how.
pub fn verdict(lent: &Lent) -> Result<(Verdict, Option<Network>), String> {
    let looks = lent.looks();
    let proved = looks.is_sound();
    let clause = looks.failing_clause();
    if proved != clause.is_none() {
        return Err(format!("is_sound is {proved}, and {clause:?} fails"));
    }
    let read = read(lent);
    let (expected, why) = match &read {
        Ok(network) => match sound::first_failing(network) {
            None => (Verdict::Sound, String::new()),
            Some(failing) => (Verdict::Unsound, format!("{failing:?}")),
        },
        Err(unreadable) => (Verdict::Unreadable, unreadable.0.clone()),
    };
    if proved == (expected == Verdict::Sound) {
        return Ok((expected, read.ok()));
    }
    let found = clause.map_or("sound".to_owned(), |clause| clause.to_string());
    Err(format!(
        "the library: {found}; the model: {expected:?} {why}"
    ))
}
