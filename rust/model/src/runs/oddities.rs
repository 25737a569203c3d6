//! Calls without much sense: arguments out of range, tokens out of place.

use super::{Runner, TALKERS};
use crate::calls::Call;
use crate::network::{memory_words, LinkEnd, Start};
use crate::sizes::{
    CHANNELS, CHANNEL_ENDS, HIGHEST_NETWORK, HIGHEST_NUMBER, LINKS, MOST_NODES, PORTS, REPLY_PORT,
};
use crate::tokens::{Destination, SINK};

impl Runner {
    pub(super) fn wire(&mut self) -> Call {
        let one = self.link_end();
        let another = self.link_end();
        let same = self.random.chance(10);
        let other = if same { one } else { another };
        Call::Wire { one, other }
    }

    fn link_end(&mut self) -> LinkEnd {
        let slot = self.any_slot();
        let link = self.below_or_beyond(LINKS);
        LinkEnd { slot, link }
    }

    pub(super) fn odd_output(&mut self) -> Call {
        let few = self.random.chance(80);
        let talkers = if few { TALKERS } else { CHANNEL_ENDS };
        Call::Output {
            slot: self.any_slot(),
            channel_end: self.below_or_beyond(talkers),
            kind: self.kind(),
            value: self.random.byte(),
        }
    }

    pub(super) fn odd_aim(&mut self) -> Call {
        let number = self.value_below_or_beyond(HIGHEST_NUMBER + 1);
        let channels = [
            0,
            CHANNELS - 1,
            CHANNELS,
            SINK - 1,
            SINK,
            SINK + 1,
            u32::MAX as usize,
        ];
        let channel = self.random.pick(&channels).unwrap_or(0);
        let to_channel = self.random.chance(70);
        Call::Aim {
            slot: self.any_slot(),
            channel_end: self.below_or_beyond(TALKERS),
            destination: if to_channel {
                Destination::Channel { number, channel }
            } else {
                Destination::Control { number }
            },
            network: self.value_below_or_beyond(HIGHEST_NETWORK + 1),
        }
    }

    pub(super) fn odd_step(&mut self) -> Call {
        let reply = self.random.chance(20);
        let slot = self.any_slot();
        let any_port = self.below_or_beyond(PORTS);
        let port = if reply { REPLY_PORT } else { any_port };
        Call::Step { slot, port }
    }

    pub(super) fn odd_input(&mut self) -> Call {
        Call::Input {
            slot: self.any_slot(),
            channel_end: self.below_or_beyond(CHANNEL_ENDS),
            kind: self.kind(),
        }
    }

    /// A start that is refused: no such count, or another memory.
    pub(super) fn odd_start(&mut self) -> Call {
        let counts = [0, 1, 5, MOST_NODES, MOST_NODES + 1, usize::MAX];
        let nodes = self.random.pick(&counts).unwrap_or(0);
        let right = memory_words(nodes).unwrap_or(usize::MAX);
        let lengths = [0, 1, right - right.min(1), right.saturating_add(1)];
        let start = self.random.pick(&Start::ALL).unwrap_or(Start::Fresh);
        Call::beginning(start, nodes, self.random.pick(&lengths).unwrap_or(0))
    }
}
