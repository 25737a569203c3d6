//! Looks at a network: read-only, for any memories.

use crate::clause::Clause;
use crate::digest;
use crate::raw;
use crate::records::{ChannelEnd, ControlUnit, Line, Link, Node, Port, Record, TileLink};

/// A view of the lent memories, which may be of any length and hold anything.
///
/// Each look has an answer: a place that is not there shows a record of zeros, or no token.
///
/// ```
/// use bench::Looks;
///
/// let looks = Looks::over(&[], &[], &[]);
/// assert_eq!(looks.nodes(), 0);
/// assert_eq!(looks.failing_clause().map(|clause| clause.number()), Some(1));
/// assert_eq!(looks.link(3, 0), bench::Link::default());
/// ```
#[derive(Clone, Copy, Debug)]
pub struct Looks<'a> {
    state: &'a [u32],
    memory: &'a [u16],
    lines: &'a [u16],
}

/// Shows a record by a look that fills a buffer of its very size.
fn record<const N: usize, R: Record<N>>(look: impl FnOnce(&mut [u32]) -> bool) -> R {
    let mut words = [0; N];
    let fits = look(&mut words);
    debug_assert!(fits, "a record of this kind has not {N} words");
    R::from_words(words)
}

impl<'a> Looks<'a> {
    /// Looks at these words.
    pub fn over(state: &'a [u32], memory: &'a [u16], lines: &'a [u16]) -> Looks<'a> {
        Looks {
            state,
            memory,
            lines,
        }
    }

    /// How many nodes there are: what the state's length says.
    pub fn nodes(self) -> usize {
        raw::node_count(self.state)
    }

    /// The length of the token memory.
    pub fn memory_words(self) -> usize {
        self.memory.len()
    }

    /// The length of the lines' memory.
    pub fn line_words(self) -> usize {
        self.lines.len()
    }

    /// Whether the lengths are those of whole nodes, and the list "Sound" holds.
    pub fn is_sound(self) -> bool {
        raw::is_sound(self.state, self.memory, self.lines)
    }

    /// The first clause that an unsound memory fails.
    pub fn failing_clause(self) -> Option<Clause> {
        Clause::from_number(raw::unsound_clause(self.state, self.memory, self.lines))
    }

    /// Whether the ties hold that calls keep beside the list.
    pub fn is_tight(self) -> bool {
        raw::is_tight(self.state, self.memory, self.lines)
    }

    /// Whether there is no token, no claim and no open circuit anywhere, and nothing on a line.
    pub fn is_quiet(self) -> bool {
        raw::is_quiet(self.state, self.memory, self.lines)
    }

    pub fn node(self, slot: usize) -> Node {
        record(|out| raw::node(self.state, slot, out))
    }

    pub fn link(self, slot: usize, link: usize) -> Link {
        record(|out| raw::link(self.state, slot, link, out))
    }

    pub fn port(self, slot: usize, port: usize) -> Port {
        record(|out| raw::port(self.state, slot, port, out))
    }

    pub fn tile_link(self, slot: usize, tile_link: usize) -> TileLink {
        record(|out| raw::tile_link(self.state, slot, tile_link, out))
    }

    pub fn channel_end(self, slot: usize, channel_end: usize) -> ChannelEnd {
        record(|out| raw::channel_end(self.state, slot, channel_end, out))
    }

    pub fn control_unit(self, slot: usize) -> ControlUnit {
        record(|out| raw::control_unit(self.state, slot, out))
    }

    /// The line that starts at a link.
    pub fn line(self, slot: usize, link: usize) -> Line {
        record(|out| raw::line(self.state, slot, link, out))
    }

    /// The direction entry of a node for a bit 0..15.
    pub fn direction(self, slot: usize, bit: u32) -> u32 {
        raw::direction(self.state, slot, bit)
    }

    /// The words of the tokens that a port holds, oldest first;
    /// [`Token::from_word`](crate::Token::from_word) reads them.
    pub fn port_tokens(self, slot: usize, port: usize) -> impl Iterator<Item = u32> + use<'a> {
        (0..).map_while(move |place| raw::port_token(self.state, self.memory, slot, port, place))
    }

    /// The words of what is on the line that starts at a link, the first to arrive first: tokens,
    /// and credits and HELLO as control words; [`Freight::from_word`](crate::Freight::from_word)
    /// reads them.
    pub fn line_tokens(self, slot: usize, link: usize) -> impl Iterator<Item = u32> + use<'a> {
        (0..).map_while(move |place| raw::line_token(self.state, self.lines, slot, link, place))
    }

    /// The words of the tokens that a channel-end holds, oldest first.
    pub fn end_tokens(
        self,
        slot: usize,
        channel_end: usize,
    ) -> impl Iterator<Item = u32> + use<'a> {
        (0..).map_while(move |place| raw::end_token(self.state, slot, channel_end, place))
    }

    /// The digest of the visible state, as the script and trace format has it.
    pub fn digest(self) -> u64 {
        digest::digest(self)
    }
}
