//! The switch registers of source document 000, section 9.3, as far as they hold
//! settings of Set.

use crate::network::Node;
use crate::set::Setting;
use crate::sizes::BITS;
use crate::tokens::{ONE_BYTE, THREE_BYTES};

/// "Known addresses are those where 9.3 places at least one setting of Set."
#[derive(Clone, Copy, Debug, PartialEq, Eq)]
enum Register {
    /// 0x04, node configuration: bit 0 is "Short headers".
    Width,
    /// 0x05, "Node ID, lower 16 bits only".
    Number,
    /// 0x0C and 0x0D: eight direction entries, from this bit on.
    Directions { first_bit: usize },
    /// 0x20..0x27: direction and network of this link.
    LinkRoute { link: usize },
    /// 0x80..0x87: enable and HELLO of this link.
    LinkStart { link: usize },
}

/// Section 9.3 lists the links as C, D, A, B, G, H, E, F.
const LINK_ORDER: [usize; 8] = [2, 3, 0, 1, 6, 7, 4, 5];

const HELLO_BIT: u32 = 24;
const ENABLE_BIT: u32 = 31;
const DIRECTION_SHIFT: u32 = 8;
const NETWORK_SHIFT: u32 = 4;

/// The register at an address, if it is known. All sixteen bits count.
fn register(address: u32) -> Option<Register> {
    match address {
        0x04 => Some(Register::Width),
        0x05 => Some(Register::Number),
        0x0C => Some(Register::Directions { first_bit: 0 }),
        0x0D => Some(Register::Directions { first_bit: 8 }),
        0x20..=0x27 => Some(Register::LinkRoute {
            link: LINK_ORDER[address as usize - 0x20],
        }),
        0x80..=0x87 => Some(Register::LinkStart {
            link: LINK_ORDER[address as usize - 0x80],
        }),
        _ => None,
    }
}

/// The address of the register that has a link's enable and HELLO.
pub fn start_address(link: usize) -> Option<u32> {
    let of_link = |address: &u32| {
        let found = register(*address);
        matches!(found, Some(Register::LinkStart { link: found }) if found == link)
    };
    (0x80..0x88).find(of_link)
}

/// All known addresses, in order.
pub fn known_addresses() -> Vec<u32> {
    (0..0x100).filter(|a| register(*a).is_some()).collect()
}

/// What a read of an address gives, if the address is known: "Fields that Set lacks
/// [...] read 0, as does HELLO."
pub fn read(node: &Node, address: u32) -> Option<u32> {
    Some(match register(address)? {
        Register::Width => u32::from(node.width == ONE_BYTE),
        Register::Number => node.number,
        Register::Directions { first_bit } => read_directions(node, first_bit),
        Register::LinkRoute { link } => {
            let link = &node.links[link];
            link.direction << DIRECTION_SHIFT | link.network << NETWORK_SHIFT
        }
        Register::LinkStart { link } => u32::from(node.links[link].enabled) << ENABLE_BIT,
    })
}

fn read_directions(node: &Node, first_bit: usize) -> u32 {
    (0..8).fold(0, |word, entry| {
        word | node.directions[first_bit + entry] << entry_shift(entry)
    })
}

/// The Sets that a write to an address is, if the address is known: "Several fields in one write are tried as Sets in the
/// order number, width, direction entries from bit 0, link direction, network,
/// enable, HELLO. Fields that Set lacks are ignored in writes". Enable is tried in
/// every write to its register, HELLO only if its bit is set (open point 45).
pub fn settings(address: u32, data: u32) -> Option<Vec<Setting>> {
    Some(match register(address)? {
        Register::Width => vec![Setting::Width {
            value: if bit(data, 0) { ONE_BYTE } else { THREE_BYTES },
        }],
        Register::Number => vec![Setting::Number {
            value: data & 0xFFFF,
        }],
        Register::Directions { first_bit } => direction_settings(first_bit, data),
        Register::LinkRoute { link } => link_route_settings(link, data),
        Register::LinkStart { link } => link_start_settings(link, data),
    })
}

/// "the entry for bit b is bits 4(b mod 8) to 4(b mod 8)+3, bits 0..7 in the first
/// register, 8..15 in the second"
fn direction_settings(first_bit: usize, data: u32) -> Vec<Setting> {
    let bits = first_bit..(first_bit + 8).min(BITS);
    bits.map(|bit| Setting::Direction {
        bit,
        value: data >> entry_shift(bit % 8) & 0xF,
    })
    .collect()
}

/// Section 9.4: bits 11..8 are "the direction to which this link belongs", bits
/// 5..4 "Network" (open point 47).
fn link_route_settings(link: usize, data: u32) -> Vec<Setting> {
    vec![
        Setting::LinkDirection {
            link,
            value: data >> DIRECTION_SHIFT & 0xF,
        },
        Setting::Network {
            link,
            value: data >> NETWORK_SHIFT & 0x3,
        },
    ]
}

/// Section 9.3: bit 31 is "Enable link", bit 24 "Issue a HELLO".
fn link_start_settings(link: usize, data: u32) -> Vec<Setting> {
    let value = u32::from(bit(data, ENABLE_BIT));
    let enable = Setting::Enable { link, value };
    let hello = bit(data, HELLO_BIT).then_some(Setting::Hello { link });
    [Some(enable), hello].into_iter().flatten().collect()
}

/// Where an entry of a direction register begins.
fn entry_shift(entry: usize) -> u32 {
    4 * entry as u32
}

fn bit(data: u32, place: u32) -> bool {
    data >> place & 1 == 1
}
