//! Lines: what is on them, what arrives, and the grants that receivers consider.

use model::sizes::{LINE_CAPACITY, MOST_CREDIT};
use model::{Answer, No};

use super::records::{Line, Network};

/// The words of HELLO and of the three credits.
pub const HELLO: u16 = 0x01E6;
const CREDIT8: u16 = 0x01E0;
const CREDIT16: u16 = 0x01E4;
const CREDIT64: u16 = 0x01E1;

/// The credit that a word on a line brings, 0 where it is none.
pub fn credit_of(word: u16) -> u32 {
    match word {
        CREDIT8 => 8,
        CREDIT16 => 16,
        CREDIT64 => 64,
        _ => 0,
    }
}

/// Is the word of a token, which goes into a port?
pub fn is_token(word: u16) -> bool {
    word != HELLO && credit_of(word) == 0
}

/// How much is on a line.
#[derive(Clone, Copy, Debug, Default)]
pub struct Load {
    pub tokens: u32,
    /// The credit that is on the line, and how many words bring it.
    pub credit: u32,
    pub credits: u32,
    pub hellos: u32,
}

impl Line {
    pub fn load(&self) -> Load {
        let mut load = Load::default();
        for word in self.on_it() {
            match (*word, credit_of(*word)) {
                (HELLO, _) => load.hellos += 1,
                (_, 0) => load.tokens += 1,
                (_, size) => {
                    load.credit += size;
                    load.credits += 1;
                }
            }
        }
        load
    }

    pub fn has_hello(&self) -> bool {
        self.held > 0 && self.on_it().any(|word| *word == HELLO)
    }

    /// Is something other than tokens on it?
    pub fn is_signalled(&self) -> bool {
        self.held > 0 && self.on_it().any(|word| !is_token(*word))
    }
}

impl Network {
    /// One off the far end of the line that starts at a link.
    pub(super) fn line_step(&mut self, slot: usize, place: usize) -> Result<Answer, No> {
        let node = self.node(slot)?;
        let link = node.links.get(place).ok_or(No::NoSuch)?;
        let far = link.far().filter(|_| node.lines[place].held > 0);
        let Some((far_slot, far_link)) = far else {
            return Ok(Answer::Idle);
        };
        let word = self.nodes[slot].lines[place].take();
        let receiver = &mut self.nodes[far_slot];
        let granted = match credit_of(word) {
            0 if word == HELLO => {
                receiver.lines[far_link].issued = 0;
                self.nodes[slot].links[place].greeted = 1;
                self.consider_grant((far_slot, far_link))
            }
            0 => {
                receiver.ports[far_link].put(word);
                let issued = &mut receiver.lines[far_link].issued;
                *issued = issued.saturating_sub(1);
                self.consider_grant((far_slot, far_link))
            }
            credit => {
                receiver.links[far_link].credit += credit;
                0
            }
        };
        Ok(Answer::Arrived(granted as usize))
    }

    /// A receiver considers a grant to the far end of its cable, which goes on to the line there. What
    /// is cheap to know is asked first.
    pub(super) fn consider_grant(&mut self, (slot, place): (usize, usize)) -> u32 {
        let node = &self.nodes[slot];
        let line = &node.lines[place];
        let granted = grant(line.issued, node.ports[place].held);
        if granted == 0 || line.held as usize >= LINE_CAPACITY || !self.is_heeded(slot, place) {
            return 0;
        }
        let line = &mut self.nodes[slot].lines[place];
        line.issued += granted;
        line.put(credit_word(granted));
        granted
    }

    /// Is the far end of a cable greeted, with no HELLO of it on its way?
    fn is_heeded(&self, slot: usize, place: usize) -> bool {
        let far = self.nodes[slot].links[place].far();
        far.is_some_and(|(slot, place)| {
            let sender = &self.nodes[slot];
            sender.links[place].greeted == 1 && !sender.lines[place].has_hello()
        })
    }
}

fn credit_word(size: u32) -> u16 {
    match size {
        64 => CREDIT64,
        16 => CREDIT16,
        _ => CREDIT8,
    }
}

/// The largest of 64, 16, 8 that there is room for, where less than 8 is issued.
fn grant(issued: u32, held: u32) -> u32 {
    if issued >= 8 {
        return 0;
    }
    match (MOST_CREDIT as u32).saturating_sub(held + issued) {
        64.. => 64,
        16.. => 16,
        8.. => 8,
        _ => 0,
    }
}
