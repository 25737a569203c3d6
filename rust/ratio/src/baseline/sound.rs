//! The list "Sound": one pass over the nodes, and what a record names is looked up.

use model::sizes::{
    HEARD, HIGHEST_DIRECTION, HIGHEST_NETWORK, HIGHEST_NUMBER, MOST_CREDIT, MOST_NODES, REPLY_PORT,
    TILE_PORTS,
};
use model::tokens::SINK;

use super::lines::is_token;
use super::records::{
    is_channel, ChannelEnd, Circuit, Hop, Line, Link, Network, Node, Peer, Port, Unit, END,
    NO_ROUTE, OUTWARD, PAUSE, TO_CHANNEL, TO_UNIT,
};

const PORT_CAPACITY: u32 = model::sizes::PORT_CAPACITY as u32;
const LINE_CAPACITY: u32 = model::sizes::LINE_CAPACITY as u32;
const END_CAPACITY: u32 = model::sizes::CHANNEL_END_CAPACITY as u32;

/// Where a walk over a port's tokens is.
#[derive(Clone, Copy)]
enum Stage {
    /// Between circuits: nothing comes next, or a header.
    Fresh,
    Body,
    /// What is left of a header that is sent on or dropped.
    OneDue,
    ThreeDue,
    TwoDue,
    LastDue,
}

impl Network {
    pub fn is_sound(&self) -> bool {
        (1..=MOST_NODES).contains(&self.count)
            && (0..).zip(&self.nodes[..self.count]).all(|(slot, node)| {
                self.links_are_sound(slot, node) && node.is_sound() && self.ports_are_sound(node)
            })
    }

    /// The ports of a node whose cables are known to lead somewhere, each with the line to it behind.
    fn ports_are_sound(&self, node: &Node) -> bool {
        (0..).zip(&node.ports).all(|(place, port)| {
            let far = node.links.get(place).and_then(Link::far);
            let coming = far.map(|(slot, link)| &self.nodes[slot].lines[link]);
            node.port_is_sound(place, port, coming.filter(|line| line.held > 0))
        })
    }

    fn links_are_sound(&self, slot: usize, node: &Node) -> bool {
        let mut links = (0..).zip(&node.links);
        links.all(|(place, link)| {
            link.counts_hold()
                && node.lines[place].counts_hold()
                && (link.credit == 0 || link.greeted == 1)
                && node.user_agrees(place, link)
                && self.cable_is_sound((slot, place), link, &node.lines[place])
        })
    }

    /// Where a cable leads, what it leads to, what its credit and greeting stand on, and what is on the
    /// lines between.
    fn cable_is_sound(&self, here: (usize, usize), link: &Link, line: &Line) -> bool {
        let Some((slot, place)) = link.far() else {
            return link.greeted == 0 && line.held == 0 && line.issued == 0;
        };
        let Some(far_node) = self.nodes[..self.count].get(slot) else {
            return false;
        };
        let Some(far) = far_node.links.get(place) else {
            return false;
        };
        let back = &far_node.lines[place];
        far.far() == Some(here)
            && (slot, place) != here
            && (link.greeted == 0 || (link.enabled == 1 && far.enabled == 1))
            && back.counts_hold()
            && lines_are_sound(link, line, back, far_node.ports[place].held)
    }
}

/// Few enough on a line, room for all that is to come, and the receiver's count of it.
fn lines_are_sound(link: &Link, line: &Line, back: &Line, held: u32) -> bool {
    let (sent, coming) = (line.load(), back.load().credit);
    let on_its_way = link.credit + coming + sent.tokens;
    sent.credits <= 1
        && sent.hellos <= 1
        && held + on_its_way <= MOST_CREDIT as u32
        && (sent.hellos > 0 || back.issued == on_its_way)
}

impl Node {
    fn is_sound(&self) -> bool {
        self.number <= HIGHEST_NUMBER
            && (self.width == 1 || self.width == 3)
            && self.unit_is_sound(&self.unit)
            && (0..)
                .zip(&self.tile_users)
                .all(|(t, x)| self.tile_is_sound(t, *x))
            && (0..).zip(&self.ends).all(|(c, x)| self.end_is_sound(c, x))
    }

    fn user_agrees(&self, place: usize, link: &Link) -> bool {
        let outward = Circuit {
            kind: OUTWARD,
            index: place as u32,
        };
        link.user.kind == 0
            || self
                .port_of(link.user)
                .is_some_and(|port| port.circuit == outward)
    }

    /// The port that a link's user, a tile link's user or a control unit names.
    fn port_of(&self, circuit: Circuit) -> Option<&Port> {
        self.ports.get(circuit.index as usize)
    }

    fn unit_is_sound(&self, unit: &Unit) -> bool {
        unit.serves.kind == 0
            || (unit.serves.kind == 1
                && unit.heard <= HEARD as u32
                && unit.tokens_are_legal()
                && self.ports[REPLY_PORT].held == 0
                && self
                    .port_of(unit.serves)
                    .is_some_and(|port| port.circuit.kind == TO_UNIT))
    }

    fn tile_is_sound(&self, place: u32, user: Circuit) -> bool {
        user.kind == 0
            || (user.kind == 1
                && self
                    .port_of(user)
                    .is_some_and(|port| port.circuit.kind == TO_CHANNEL && port.tile == place))
    }

    fn port_is_sound(&self, place: usize, port: &Port, coming: Option<&Line>) -> bool {
        port.counts_hold(place)
            && self.hop_agrees(place, port)
            && self.sender_agrees(place, port.sender)
            && port.tokens_are_legal(coming)
    }

    /// "a port's output names that port back and no other", and its channel is claimed for it.
    fn hop_agrees(&self, place: usize, port: &Port) -> bool {
        let this = Circuit::port(place);
        match port.hop() {
            Hop::Shut | Hop::Dropped(_) => true,
            Hop::Outward(link) => self.links.get(link).is_some_and(|link| link.user == this),
            Hop::Channel(channel) => {
                self.tile_users.get(port.tile as usize) == Some(&this)
                    && (channel == SINK
                        || self.ends.get(channel).is_some_and(|end| end.claim == this))
            }
            Hop::Unit => self.unit.serves == this,
        }
    }

    fn sender_agrees(&self, place: usize, sender: Circuit) -> bool {
        match sender.peer() {
            Peer::Nobody => sender.kind == 0,
            Peer::Port(_) => false,
            Peer::End(end) => {
                let end = self.ends.get(end);
                end.is_some_and(|end| end.sending == Circuit::port(place))
            }
        }
    }

    fn end_is_sound(&self, place: usize, end: &ChannelEnd) -> bool {
        end.counts_hold()
            && self.claim_agrees(place, end.claim)
            && (end.sending.kind == 0 || (end.aim != 0 && self.sending_agrees(place, end.sending)))
            && end.tokens_are_legal()
    }

    /// "each claim [...] names one circuit that exists"
    fn claim_agrees(&self, place: usize, claim: Circuit) -> bool {
        let index = place as u32;
        let to_this = Circuit {
            kind: TO_CHANNEL,
            index,
        };
        match claim.peer() {
            Peer::Nobody => claim.kind == 0,
            Peer::Port(port) => {
                let port = self.ports.get(port);
                port.is_some_and(|port| port.circuit == to_this)
            }
            Peer::End(sender) => {
                let sender = self.ends.get(sender);
                sender.is_some_and(|sender| sender.sending == Circuit::end(place))
            }
        }
    }

    /// "each [...] open channel-end names one circuit that exists"
    fn sending_agrees(&self, place: usize, sending: Circuit) -> bool {
        let this = Circuit::end(place);
        match sending.peer() {
            Peer::Nobody => false,
            Peer::Port(port) => {
                TILE_PORTS.contains(&port)
                    && self.ports[port].is_taken()
                    && self.ports[port].sender == this
            }
            Peer::End(SINK) => true,
            Peer::End(channel) => {
                let channel = self.ends.get(channel);
                channel.is_some_and(|channel| channel.claim == this)
            }
        }
    }
}

impl Link {
    fn counts_hold(&self) -> bool {
        self.wired <= 1
            && self.enabled <= 1
            && self.direction <= HIGHEST_DIRECTION
            && self.network <= HIGHEST_NETWORK
            && self.greeted <= 1
            && self.credit <= MOST_CREDIT as u32
            && self.user.kind <= 1
    }
}

impl Port {
    fn counts_hold(&self, place: usize) -> bool {
        self.head < PORT_CAPACITY
            && self.held <= PORT_CAPACITY
            && self.circuit.kind <= NO_ROUTE
            && (self.network <= HIGHEST_NETWORK || !TILE_PORTS.contains(&place) || !self.is_taken())
    }

    /// What may stand in a port, from the oldest token to the last, and on the line to it behind.
    fn tokens_are_legal(&self, coming: Option<&Line>) -> bool {
        let (wrapped, first) = self.tokens.split_at(self.head as usize);
        let held = self.held as usize;
        let first = &first[..held.min(first.len())];
        let wrapped = &wrapped[..held - first.len()];
        let mut tokens = first.iter().chain(wrapped);
        let begin = match self.hop() {
            Hop::Shut => Some(Stage::Fresh),
            Hop::Channel(_) | Hop::Unit => Some(Stage::Body),
            Hop::Outward(_) | Hop::Dropped(_) => due(tokens.clone()),
        };
        let end = begin.and_then(|begin| tokens.try_fold(begin, after));
        match (end, coming) {
            (Some(end), Some(line)) => {
                let mut tokens = line.on_it().filter(|word| is_token(**word));
                tokens.try_fold(end, after).is_some()
            }
            (end, _) => end.is_some(),
        }
    }
}

/// What is left of the header of a circuit that is sent on or dropped: none where it has too many.
fn due<'a>(tokens: impl Iterator<Item = &'a u16> + Clone) -> Option<Stage> {
    let first = tokens.clone().next();
    let is_three = |token: &&u16| matches!(**token, 0x0600..=0x06FF | 0x07C3);
    match tokens.take(4).take_while(is_three).count() {
        0 if first.is_some_and(|token| matches!(token, 0x0200..=0x02FF)) => Some(Stage::OneDue),
        0 => Some(Stage::Body),
        1 => Some(Stage::LastDue),
        2 => Some(Stage::TwoDue),
        3 => Some(Stage::ThreeDue),
        _ => None,
    }
}

/// Where the next token takes a walk; none where it may not stand there.
fn after(stage: Stage, token: &u16) -> Option<Stage> {
    match (stage, *token) {
        (Stage::Body, 0..=0x0100) => Some(Stage::Body),
        (Stage::Body, END | PAUSE) => Some(Stage::Fresh),
        (Stage::Body, 0x0103..=0x01C1) => Some(Stage::Body),
        (Stage::Fresh | Stage::OneDue, 0x0200..=0x02FF) => Some(Stage::Body),
        (Stage::Fresh | Stage::ThreeDue, 0x0600..=0x06FF) => Some(Stage::TwoDue),
        (Stage::TwoDue, 0x0600..=0x06FF) => Some(Stage::LastDue),
        (Stage::LastDue, 0x0600..=0x061F | 0x06FF | 0x07C3) => Some(Stage::Body),
        _ => None,
    }
}

impl ChannelEnd {
    fn counts_hold(&self) -> bool {
        self.held <= END_CAPACITY && (self.aim == 0 || self.aim_holds())
    }

    fn aim_holds(&self) -> bool {
        self.number <= HIGHEST_NUMBER
            && self.network <= HIGHEST_NETWORK
            && (self.aim == 2 || (self.aim == 1 && is_channel(self.channel as usize)))
    }

    fn tokens_are_legal(&self) -> bool {
        let held = &self.tokens[..self.held as usize];
        held.iter().all(|token| may_be_kept(*token))
    }
}

/// No header, no privileged token but 0xC0 and 0xC1, no PAUSE.
fn may_be_kept(token: u32) -> bool {
    token <= 0x01C1 && token != u32::from(PAUSE)
}

impl Line {
    fn counts_hold(&self) -> bool {
        self.head < LINE_CAPACITY && self.held <= LINE_CAPACITY && self.issued <= MOST_CREDIT as u32
    }
}

impl Unit {
    /// END ends a message, as PAUSE does, and is not kept.
    fn tokens_are_legal(&self) -> bool {
        let heard = &self.tokens[..self.heard as usize];
        heard
            .iter()
            .all(|token| may_be_kept(*token) && *token != u32::from(END))
    }
}
