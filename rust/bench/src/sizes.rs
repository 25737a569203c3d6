//! The bench's sizes (document 01, "What the bench holds" and "Sizes").

use std::ops::Range;

/// Nodes of a network, at most.
pub const MOST_NODES: usize = 16;
/// Links A..H of a node, which are its ports 0..7.
pub const LINKS: usize = 8;
/// Links from the switch to the tile.
pub const TILE_LINKS: usize = 4;
/// The ports from the tile.
pub const TILE_PORTS: Range<usize> = LINKS..LINKS + 4;
/// The port by which the control unit's replies leave.
pub const REPLY_PORT: usize = TILE_PORTS.end;
/// Ports of a node: the links, those from the tile, and one for the control unit's replies.
pub const PORTS: usize = REPLY_PORT + 1;
/// Channel-ends of a node.
pub const CHANNEL_ENDS: usize = 32;
/// Channels that a header can name, beside the sink.
pub const CHANNELS: usize = 32;
/// Tokens that a port holds, at most.
pub const PORT_BUFFER: usize = 64;
/// Tokens, credits and HELLOs on a line, at most.
pub const LINE_BUFFER: usize = 66;
/// Tokens that a channel-end holds, at most.
pub const END_BUFFER: usize = 8;
/// Tokens of a message that a control unit keeps, at most.
pub const UNIT_BUFFER: usize = 11;
/// Directions of links and of a switch's table.
pub const DIRECTIONS: u32 = 16;
/// Bits of a node's number, each with a direction entry.
pub const BITS: u32 = 16;
