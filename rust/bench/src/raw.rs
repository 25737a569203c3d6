//! The proved functions, over the caller's own slices.
//!
//! None of them asks anything of its arguments: slices of any length and contents, places that are
//! not there and buffers that do not fit all have an answer, and the contracts in `crates/host` say
//! which. So each is safe to call. All of this crate's `unsafe` is in this file; it hands a slice
//! over as C does, as a pointer and a length.
//!
//! A network is three memories that the caller lends: `state`, [`state_words`] words of 32 bits for
//! each node, `memory`, [`memory_words`] words of 16 bits for each, what ports hold, and `lines`,
//! [`line_words`] words of 16 bits for each, what is on its way between ports.
//!
//! ```
//! use bench::{raw, Answer, Refusal};
//!
//! // Words that are no network at all have their answers too, and are left as they are.
//! let (mut state, mut memory, mut lines) = ([7; 1000], [7; 3], [7; 5]);
//! assert_eq!(raw::unsound_clause(&state, &memory, &lines), 1);
//! assert_eq!(raw::node_count(&state), 1);
//! assert_eq!(raw::hello(&mut state, &memory, &mut lines, 0, 0), Answer::No(Refusal::Unsound));
//! assert_eq!(raw::fresh(&mut state, &mut memory, &mut lines, 1), Answer::No(Refusal::Unsound));
//! assert_eq!((state, memory, lines), ([7; 1000], [7; 3], [7; 5]));
//!
//! // Memories of the right lengths become a network of one node, in place.
//! let mut state = vec![7; raw::state_words()];
//! let mut memory = vec![7; raw::memory_words()];
//! let mut lines = vec![7; raw::line_words()];
//! assert_eq!(raw::fresh(&mut state, &mut memory, &mut lines, 1), Answer::Done);
//! assert!(raw::is_sound(&state, &memory, &lines));
//! ```
//!
//! A network begins with [`fresh`] or with [`blank`]. Both ask the same: NoSuch where the nodes are
//! not 1 to 16, whatever the lengths, then Unsound where a memory has another length than that
//! of so many nodes. Either makes a network of so many nodes, whatever the memories held, with every
//! token word 0. They differ in the links that are enabled; [`Bench::fresh`](crate::Bench::fresh) and
//! [`Bench::blank`](crate::Bench::blank) say which to use.

use crate::answer::{parts, Answer};
use crate::list::{StepRecord, StepResult};
use crate::probe::Probed;
use crate::proved;

// SAFETY, of every call below: the slices are borrowed while the call lasts, each goes over with
// its own length, and the function, which has no `requires`, is proved to read and write nothing
// beyond.

/// Fresh: a network of so many nodes as the boot ROM leaves them, links E..H enabled.
pub fn fresh(state: &mut [u32], memory: &mut [u16], lines: &mut [u16], nodes: usize) -> Answer {
    // SAFETY: as said above.
    answered(unsafe {
        proved::tarvelgyo_fresh(
            state.as_mut_ptr(),
            state.len(),
            memory.as_mut_ptr(),
            memory.len(),
            lines.as_mut_ptr(),
            lines.len(),
            nodes,
        )
    })
}

/// Blank: a network of so many nodes with every link disabled.
pub fn blank(state: &mut [u32], memory: &mut [u16], lines: &mut [u16], nodes: usize) -> Answer {
    // SAFETY: as said above.
    answered(unsafe {
        proved::tarvelgyo_blank(
            state.as_mut_ptr(),
            state.len(),
            memory.as_mut_ptr(),
            memory.len(),
            lines.as_mut_ptr(),
            lines.len(),
            nodes,
        )
    })
}

/// Wire: a cable between a link of one slot and a link of another.
pub fn wire(
    state: &mut [u32],
    memory: &[u16],
    lines: &[u16],
    slot: usize,
    link: usize,
    far_slot: usize,
    far_link: usize,
) -> Answer {
    // SAFETY: as said above.
    answered(unsafe {
        proved::tarvelgyo_wire(
            state.as_mut_ptr(),
            state.len(),
            memory.as_ptr(),
            memory.len(),
            lines.as_ptr(),
            lines.len(),
            slot,
            link,
            far_slot,
            far_link,
        )
    })
}

/// Set: a node's number.
pub fn set_number(
    state: &mut [u32],
    memory: &[u16],
    lines: &mut [u16],
    slot: usize,
    value: u32,
) -> Answer {
    // SAFETY: as said above.
    answered(unsafe {
        proved::tarvelgyo_set_number(
            state.as_mut_ptr(),
            state.len(),
            memory.as_ptr(),
            memory.len(),
            lines.as_mut_ptr(),
            lines.len(),
            slot,
            value,
        )
    })
}

/// Set: a node's width, 1 or 3.
pub fn set_width(
    state: &mut [u32],
    memory: &[u16],
    lines: &mut [u16],
    slot: usize,
    value: u32,
) -> Answer {
    // SAFETY: as said above.
    answered(unsafe {
        proved::tarvelgyo_set_width(
            state.as_mut_ptr(),
            state.len(),
            memory.as_ptr(),
            memory.len(),
            lines.as_mut_ptr(),
            lines.len(),
            slot,
            value,
        )
    })
}

/// Set: a node's direction entry for a bit.
pub fn set_direction(
    state: &mut [u32],
    memory: &[u16],
    lines: &mut [u16],
    slot: usize,
    bit: u32,
    value: u32,
) -> Answer {
    // SAFETY: as said above.
    answered(unsafe {
        proved::tarvelgyo_set_direction(
            state.as_mut_ptr(),
            state.len(),
            memory.as_ptr(),
            memory.len(),
            lines.as_mut_ptr(),
            lines.len(),
            slot,
            bit,
            value,
        )
    })
}

/// Set: a link's direction.
pub fn set_link_direction(
    state: &mut [u32],
    memory: &[u16],
    lines: &mut [u16],
    slot: usize,
    link: usize,
    value: u32,
) -> Answer {
    // SAFETY: as said above.
    answered(unsafe {
        proved::tarvelgyo_set_link_direction(
            state.as_mut_ptr(),
            state.len(),
            memory.as_ptr(),
            memory.len(),
            lines.as_mut_ptr(),
            lines.len(),
            slot,
            link,
            value,
        )
    })
}

/// Set: a link's network.
pub fn set_network(
    state: &mut [u32],
    memory: &[u16],
    lines: &mut [u16],
    slot: usize,
    link: usize,
    value: u32,
) -> Answer {
    // SAFETY: as said above.
    answered(unsafe {
        proved::tarvelgyo_set_network(
            state.as_mut_ptr(),
            state.len(),
            memory.as_ptr(),
            memory.len(),
            lines.as_mut_ptr(),
            lines.len(),
            slot,
            link,
            value,
        )
    })
}

/// Set: a link enabled (1) or disabled (0).
pub fn set_enable(
    state: &mut [u32],
    memory: &[u16],
    lines: &mut [u16],
    slot: usize,
    link: usize,
    value: u32,
) -> Answer {
    // SAFETY: as said above.
    answered(unsafe {
        proved::tarvelgyo_set_enable(
            state.as_mut_ptr(),
            state.len(),
            memory.as_ptr(),
            memory.len(),
            lines.as_mut_ptr(),
            lines.len(),
            slot,
            link,
            value,
        )
    })
}

/// Set: HELLO on a link. It goes on the line, so that the answer grants 0; sent to an absent or
/// disabled end it is lost.
pub fn hello(
    state: &mut [u32],
    memory: &[u16],
    lines: &mut [u16],
    slot: usize,
    link: usize,
) -> Answer {
    // SAFETY: as said above.
    answered(unsafe {
        proved::tarvelgyo_hello(
            state.as_mut_ptr(),
            state.len(),
            memory.as_ptr(),
            memory.len(),
            lines.as_mut_ptr(),
            lines.len(),
            slot,
            link,
        )
    })
}

/// Aim: a channel-end at a channel, 0..31 or 255, of the nodes of a number.
#[allow(clippy::too_many_arguments)] // the memories, and what document 01 has an Aim name
pub fn aim_channel(
    state: &mut [u32],
    memory: &[u16],
    lines: &[u16],
    slot: usize,
    channel_end: usize,
    number: u32,
    channel: u32,
    network: u32,
) -> Answer {
    // SAFETY: as said above.
    answered(unsafe {
        proved::tarvelgyo_aim_channel(
            state.as_mut_ptr(),
            state.len(),
            memory.as_ptr(),
            memory.len(),
            lines.as_ptr(),
            lines.len(),
            slot,
            channel_end,
            number,
            channel,
            network,
        )
    })
}

/// Aim: a channel-end at the control unit of the nodes of a number.
pub fn aim_unit(
    state: &mut [u32],
    memory: &[u16],
    lines: &[u16],
    slot: usize,
    channel_end: usize,
    number: u32,
    network: u32,
) -> Answer {
    // SAFETY: as said above.
    answered(unsafe {
        proved::tarvelgyo_aim_unit(
            state.as_mut_ptr(),
            state.len(),
            memory.as_ptr(),
            memory.len(),
            lines.as_ptr(),
            lines.len(),
            slot,
            channel_end,
            number,
            network,
        )
    })
}

/// Output: a data token.
pub fn output_data(
    state: &mut [u32],
    memory: &mut [u16],
    lines: &[u16],
    slot: usize,
    channel_end: usize,
    value: u8,
) -> Answer {
    // SAFETY: as said above.
    answered(unsafe {
        proved::tarvelgyo_output_data(
            state.as_mut_ptr(),
            state.len(),
            memory.as_mut_ptr(),
            memory.len(),
            lines.as_ptr(),
            lines.len(),
            slot,
            channel_end,
            value,
        )
    })
}

/// Output: a control token.
pub fn output_control(
    state: &mut [u32],
    memory: &mut [u16],
    lines: &[u16],
    slot: usize,
    channel_end: usize,
    value: u8,
) -> Answer {
    // SAFETY: as said above.
    answered(unsafe {
        proved::tarvelgyo_output_control(
            state.as_mut_ptr(),
            state.len(),
            memory.as_mut_ptr(),
            memory.len(),
            lines.as_ptr(),
            lines.len(),
            slot,
            channel_end,
            value,
        )
    })
}

/// Step: one of a port. A token that leaves by a link goes on the line that starts there, which
/// [`line_step`] takes it off. The Step that takes the end of a switch message has it obeyed.
pub fn step(
    state: &mut [u32],
    memory: &mut [u16],
    lines: &mut [u16],
    slot: usize,
    port: usize,
) -> Answer {
    // SAFETY: as said above.
    answered(unsafe {
        proved::tarvelgyo_step(
            state.as_mut_ptr(),
            state.len(),
            memory.as_mut_ptr(),
            memory.len(),
            lines.as_mut_ptr(),
            lines.len(),
            slot,
            port,
        )
    })
}

/// Steps: those of a list, in order, each made on what the one before has left. What each answers
/// is written as its number, which [`Answer::from_crossed`] reads, into the result of the same
/// place; a Step that is refused stops nothing. The call itself is done, on any memories: where they
/// are unsound, each Step says so for itself.
///
/// It is NoSuch where there are more or fewer results than records. Then nothing is done, and no
/// result is written.
///
/// ```
/// use bench::{raw, Answer, Refusal, StepRecord, Stepped};
///
/// let (mut state, mut memory) = (vec![0; raw::state_words()], vec![0; raw::memory_words()]);
/// let mut lines = vec![0; raw::line_words()];
/// raw::fresh(&mut state, &mut memory, &mut lines, 1);
/// let list = [StepRecord { slot: 7, port: 0 }, StepRecord { slot: 0, port: 8 }];
/// let mut results = [0; 2];
/// let answer = raw::steps(&mut state, &mut memory, &mut lines, &list, &mut results);
/// assert_eq!(answer, Answer::Done);
/// let answers = results.map(Answer::from_crossed);
/// assert_eq!(answers[0], Some(Answer::No(Refusal::NoSuch)));
/// assert_eq!(answers[1], Some(Answer::Step(Stepped::Idle)));
///
/// let mut short = [9];
/// let answer = raw::steps(&mut state, &mut memory, &mut lines, &list, &mut short);
/// assert_eq!((answer, short), (Answer::No(Refusal::NoSuch), [9]));
/// ```
pub fn steps(
    state: &mut [u32],
    memory: &mut [u16],
    lines: &mut [u16],
    list: &[StepRecord],
    results: &mut [u64],
) -> Answer {
    // SAFETY: as said above. A record is two words in the order that the library knows.
    answered(unsafe {
        proved::tarvelgyo_steps(
            state.as_mut_ptr(),
            state.len(),
            memory.as_mut_ptr(),
            memory.len(),
            lines.as_mut_ptr(),
            lines.len(),
            list.as_ptr(),
            list.len(),
            results.as_mut_ptr(),
            results.len(),
        )
    })
}

/// The numbers that a buffer of results is.
pub(crate) fn numbers(results: &mut [StepResult]) -> &mut [u64] {
    let (first, many) = (results.as_mut_ptr().cast(), results.len());
    // SAFETY: a StepResult is a u64 and nothing else (`repr(transparent)`), every u64 is one, and
    // the slice is borrowed for as long as the numbers are.
    unsafe { std::slice::from_raw_parts_mut(first, many) }
}

/// A line step: one off the far end of the line that starts at a link. A token comes to the far port,
/// a credit or a HELLO to the far link. Idle where nothing is on the line.
pub fn line_step(
    state: &mut [u32],
    memory: &mut [u16],
    lines: &mut [u16],
    slot: usize,
    link: usize,
) -> Answer {
    // SAFETY: as said above.
    answered(unsafe {
        proved::tarvelgyo_line_step(
            state.as_mut_ptr(),
            state.len(),
            memory.as_mut_ptr(),
            memory.len(),
            lines.as_mut_ptr(),
            lines.len(),
            slot,
            link,
        )
    })
}

/// Input: the next token, as data.
pub fn input_data(
    state: &mut [u32],
    memory: &[u16],
    lines: &[u16],
    slot: usize,
    channel_end: usize,
) -> Answer {
    // SAFETY: as said above.
    answered(unsafe {
        proved::tarvelgyo_input_data(
            state.as_mut_ptr(),
            state.len(),
            memory.as_ptr(),
            memory.len(),
            lines.as_ptr(),
            lines.len(),
            slot,
            channel_end,
        )
    })
}

/// Input: the next token, as control.
pub fn input_control(
    state: &mut [u32],
    memory: &[u16],
    lines: &[u16],
    slot: usize,
    channel_end: usize,
) -> Answer {
    // SAFETY: as said above.
    answered(unsafe {
        proved::tarvelgyo_input_control(
            state.as_mut_ptr(),
            state.len(),
            memory.as_ptr(),
            memory.len(),
            lines.as_ptr(),
            lines.len(),
            slot,
            channel_end,
        )
    })
}

/// How many words of state to lend for each node.
pub fn state_words() -> usize {
    // SAFETY: as said above.
    unsafe { proved::tarvelgyo_state_words() }
}

/// How many words of token memory to lend for each node: 13 ports of 64.
pub fn memory_words() -> usize {
    // SAFETY: as said above.
    unsafe { proved::tarvelgyo_memory_words() }
}

/// How many words of the lines' memory to lend for each node: 8 lines of 66.
pub fn line_words() -> usize {
    // SAFETY: as said above.
    unsafe { proved::tarvelgyo_line_words() }
}

/// How many whole nodes the state has room for: what its length says.
pub fn node_count(state: &[u32]) -> usize {
    // SAFETY: as said above.
    unsafe { proved::tarvelgyo_node_count(state.as_ptr(), state.len()) }
}

/// Whether the list "Sound" of documents 01 and 02 holds, and all lengths are right.
pub fn is_sound(state: &[u32], memory: &[u16], lines: &[u16]) -> bool {
    // SAFETY: as said above.
    unsafe {
        proved::tarvelgyo_is_sound(
            state.as_ptr(),
            state.len(),
            memory.as_ptr(),
            memory.len(),
            lines.as_ptr(),
            lines.len(),
        )
    }
}

/// Whether the ties hold that calls keep beside the list "Sound".
pub fn is_tight(state: &[u32], memory: &[u16], lines: &[u16]) -> bool {
    // SAFETY: as said above.
    unsafe {
        proved::tarvelgyo_is_tight(
            state.as_ptr(),
            state.len(),
            memory.as_ptr(),
            memory.len(),
            lines.as_ptr(),
            lines.len(),
        )
    }
}

/// Whether there is no token, no claim and no open circuit anywhere, and nothing on a line.
pub fn is_quiet(state: &[u32], memory: &[u16], lines: &[u16]) -> bool {
    // SAFETY: as said above.
    unsafe {
        proved::tarvelgyo_is_quiet(
            state.as_ptr(),
            state.len(),
            memory.as_ptr(),
            memory.len(),
            lines.as_ptr(),
            lines.len(),
        )
    }
}

/// The number of the first clause of "Sound" that fails, 0 where none does; see [`crate::Clause`].
pub fn unsound_clause(state: &[u32], memory: &[u16], lines: &[u16]) -> u32 {
    // SAFETY: as said above.
    unsafe {
        proved::tarvelgyo_unsound_clause(
            state.as_ptr(),
            state.len(),
            memory.as_ptr(),
            memory.len(),
            lines.as_ptr(),
            lines.len(),
        )
    }
}

/// The words of a node's own record, [`crate::Node`].
/// False, and nothing written, where `out` has another length.
pub fn node(state: &[u32], slot: usize, out: &mut [u32]) -> bool {
    // SAFETY: as said above.
    unsafe {
        proved::tarvelgyo_node(
            state.as_ptr(),
            state.len(),
            slot,
            out.as_mut_ptr(),
            out.len(),
        )
    }
}

/// The words of a link's record, [`crate::Link`].
/// False, and nothing written, where `out` has another length.
pub fn link(state: &[u32], slot: usize, link: usize, out: &mut [u32]) -> bool {
    // SAFETY: as said above.
    unsafe {
        proved::tarvelgyo_link(
            state.as_ptr(),
            state.len(),
            slot,
            link,
            out.as_mut_ptr(),
            out.len(),
        )
    }
}

/// The words of a port's record, [`crate::Port`].
/// False, and nothing written, where `out` has another length.
pub fn port(state: &[u32], slot: usize, port: usize, out: &mut [u32]) -> bool {
    // SAFETY: as said above.
    unsafe {
        proved::tarvelgyo_port(
            state.as_ptr(),
            state.len(),
            slot,
            port,
            out.as_mut_ptr(),
            out.len(),
        )
    }
}

/// The words of a tile link's record, [`crate::TileLink`].
/// False, and nothing written, where `out` has another length.
pub fn tile_link(state: &[u32], slot: usize, tile_link: usize, out: &mut [u32]) -> bool {
    // SAFETY: as said above.
    unsafe {
        proved::tarvelgyo_tile_link(
            state.as_ptr(),
            state.len(),
            slot,
            tile_link,
            out.as_mut_ptr(),
            out.len(),
        )
    }
}

/// The words of a channel-end's record, [`crate::ChannelEnd`].
/// False, and nothing written, where `out` has another length.
pub fn channel_end(state: &[u32], slot: usize, channel_end: usize, out: &mut [u32]) -> bool {
    // SAFETY: as said above.
    unsafe {
        proved::tarvelgyo_channel_end(
            state.as_ptr(),
            state.len(),
            slot,
            channel_end,
            out.as_mut_ptr(),
            out.len(),
        )
    }
}

/// The words of a control unit's record, [`crate::ControlUnit`].
/// False, and nothing written, where `out` has another length.
pub fn control_unit(state: &[u32], slot: usize, out: &mut [u32]) -> bool {
    // SAFETY: as said above.
    unsafe {
        proved::tarvelgyo_control_unit(
            state.as_ptr(),
            state.len(),
            slot,
            out.as_mut_ptr(),
            out.len(),
        )
    }
}

/// The words of the record of the line that starts at a link, [`crate::Line`].
/// False, and nothing written, where `out` has another length.
pub fn line(state: &[u32], slot: usize, link: usize, out: &mut [u32]) -> bool {
    // SAFETY: as said above.
    unsafe {
        proved::tarvelgyo_line(
            state.as_ptr(),
            state.len(),
            slot,
            link,
            out.as_mut_ptr(),
            out.len(),
        )
    }
}

/// A node's direction entry for a bit 0..15.
pub fn direction(state: &[u32], slot: usize, bit: u32) -> u32 {
    // SAFETY: as said above.
    unsafe { proved::tarvelgyo_direction(state.as_ptr(), state.len(), slot, bit) }
}

/// The token at a place of a port, the oldest at 0, as its word.
pub fn port_token(
    state: &[u32],
    memory: &[u16],
    slot: usize,
    port: usize,
    place: u32,
) -> Option<u32> {
    // SAFETY: as said above.
    seen(unsafe {
        proved::tarvelgyo_port_token(
            state.as_ptr(),
            state.len(),
            memory.as_ptr(),
            memory.len(),
            slot,
            port,
            place,
        )
    })
}

/// What is at a place of the line that starts at a link, the first to arrive at 0, as its word: a
/// credit or a HELLO is a control token that no port holds.
pub fn line_token(
    state: &[u32],
    lines: &[u16],
    slot: usize,
    link: usize,
    place: u32,
) -> Option<u32> {
    // SAFETY: as said above.
    seen(unsafe {
        proved::tarvelgyo_line_token(
            state.as_ptr(),
            state.len(),
            lines.as_ptr(),
            lines.len(),
            slot,
            link,
            place,
        )
    })
}

/// The token at a place of a channel-end, the oldest at 0, as its word.
pub fn end_token(state: &[u32], slot: usize, channel_end: usize, place: usize) -> Option<u32> {
    // SAFETY: as said above.
    seen(unsafe {
        proved::tarvelgyo_end_token(state.as_ptr(), state.len(), slot, channel_end, place)
    })
}

/// Tokens, oldest first, as transitions of the serial link (002, 4.2), from both wires low: ten bytes
/// a token, each the number of the wire that changes, 0 or 1. A token is a word as a port holds it;
/// its header marks are not looked at, and a word of 2048 or more is none.
pub fn write_serial(tokens: &[u16], out: &mut [u8]) -> Probed {
    let mut value = 0;
    // SAFETY: as said above.
    let number = unsafe {
        proved::tarvelgyo_write_serial(
            tokens.as_ptr(),
            tokens.len(),
            out.as_mut_ptr(),
            out.len(),
            &mut value,
        )
    };
    probed(number, value)
}

/// Tokens, oldest first, as transitions of the fast link (002, 4.3), from all wires low: four bytes a
/// token, each the number of the wire that changes, 0..4, and four more where END or PAUSE needs a
/// return. The returns themselves, control 0xFC..0xFF, are not written.
///
/// ```
/// use bench::{raw, Probed};
///
/// let mut transitions = [9; 16];
/// assert_eq!(raw::write_fast(&[0x109, 0x101], &mut transitions), Probed::Filled(12));
/// assert_eq!(transitions, [0, 2, 1, 4, 4, 4, 0, 1, 4, 3, 3, 2, 9, 9, 9, 9]);
///
/// let mut tokens = [0; 2];
/// assert_eq!(raw::read_fast(&transitions[..12], &mut tokens), Probed::Filled(2));
/// assert_eq!(tokens, [0x109, 0x101]);
/// assert_eq!(raw::read_fast(&transitions[..13], &mut tokens), Probed::Cut);
/// assert_eq!(raw::read_fast(&transitions, &mut tokens), Probed::Bad(12));
/// ```
pub fn write_fast(tokens: &[u16], out: &mut [u8]) -> Probed {
    let mut value = 0;
    // SAFETY: as said above.
    let number = unsafe {
        proved::tarvelgyo_write_fast(
            tokens.as_ptr(),
            tokens.len(),
            out.as_mut_ptr(),
            out.len(),
            &mut value,
        )
    };
    probed(number, value)
}

/// Transitions of the serial link as tokens, without header marks.
pub fn read_serial(capture: &[u8], out: &mut [u16]) -> Probed {
    let mut value = 0;
    // SAFETY: as said above.
    let number = unsafe {
        proved::tarvelgyo_read_serial(
            capture.as_ptr(),
            capture.len(),
            out.as_mut_ptr(),
            out.len(),
            &mut value,
        )
    };
    probed(number, value)
}

/// Transitions of the fast link as tokens, without header marks; returns are passed over.
pub fn read_fast(capture: &[u8], out: &mut [u16]) -> Probed {
    let mut value = 0;
    // SAFETY: as said above.
    let number = unsafe {
        proved::tarvelgyo_read_fast(
            capture.as_ptr(),
            capture.len(),
            out.as_mut_ptr(),
            out.len(),
            &mut value,
        )
    };
    probed(number, value)
}

/// What a call of the probe answered. Every number that the proved functions give stands for one.
fn probed(number: u8, value: usize) -> Probed {
    let answer = Probed::from_crossed(number, value);
    answer.unwrap_or_else(|| unreachable!("no answer crosses as {number}"))
}

/// What a look at a token found: case 1 carries the token's word, case 0 is nothing.
fn seen(crossed: u64) -> Option<u32> {
    match parts(crossed) {
        (1, word) => Some(word),
        _ => None,
    }
}

/// What a call answered. Every number that the proved functions give stands for an answer.
fn answered(crossed: u64) -> Answer {
    let answer = Answer::from_crossed(crossed);
    answer.unwrap_or_else(|| unreachable!("no answer crosses as {crossed:#x}"))
}
