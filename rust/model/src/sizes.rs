//! The sizes of document 01, "What the bench holds" and "Sizes", each once.

use std::ops::Range;

/// "A network of 1 to 16 XS1-L nodes, known by slot 0..15."
pub const MOST_NODES: usize = 16;
/// Links A..H are ports 0..7.
pub const LINKS: usize = 8;
/// "links E to H", which the boot ROM leaves enabled (document 02, Ask 7).
pub const BOOT_LINKS: Range<usize> = 4..LINKS;
/// "four from the switch to the tile"
pub const TILE_LINKS: usize = 4;
/// "four links from the tile to the switch (ports 8..11)"
pub const TILE_PORTS: Range<usize> = LINKS..LINKS + 4;
/// "a control unit whose replies leave by port 12"
pub const REPLY_PORT: usize = TILE_PORTS.end;
/// The links, those from the tile, and the control unit's replies.
pub const PORTS: usize = REPLY_PORT + 1;
/// "channel-ends 0..31"
pub const CHANNEL_ENDS: usize = 32;
/// What a header can name, beside the sink: "a channel 0..31".
pub const CHANNELS: usize = 32;
/// "port buffer: 64 tokens"
pub const PORT_CAPACITY: usize = 64;
/// "a line of up to 66 tokens" (document 02, Ask 4)
pub const LINE_CAPACITY: usize = 66;
/// "channel-end input buffer: 8 tokens"
pub const CHANNEL_END_CAPACITY: usize = 8;
/// The longest message, a write, has ten tokens before its END. One more decides
/// that a message is too long, and none beyond that is kept (open point 51).
pub const HEARD: usize = 11;
/// "credit of a link: 0..64"
pub const MOST_CREDIT: usize = 64;
/// "network number: 0..3"
pub const HIGHEST_NETWORK: u32 = 3;
/// "direction: 0..15"
pub const HIGHEST_DIRECTION: u32 = 15;
/// A node's number is "the 16-bit identifier written into its switch".
pub const HIGHEST_NUMBER: u32 = 0xFFFF;
/// The bits of a number, each with an entry in the direction table.
pub const BITS: usize = 16;
