//! Runs that ask control units: switch messages good and damaged, one after the other, to a board's
//! own unit and to the other's, with settings that change under way, links in use, and HELLO over a
//! cable between two links of one board.

mod boards;

use model::calls::Call;
use model::network::{LinkEnd, Network, Node, Start};
use model::random::Random;
use model::set::Setting;
use model::sizes::{CHANNELS, TILE_PORTS};
use model::speech;
use model::tokens::{Destination, Kind, Token, END, SINK};
use model::{Answer, No};

use crate::choice::{busy_ports, lines_in_use, list_of, plug};
use boards::{NODES, OWN, OWN_BIT, OWN_START};

/// A run of that many calls on two boards. The same seed gives the same run.
pub fn calls(seed: u64, count: usize) -> Vec<Call> {
    run(Asking::new(seed, false), count)
}

/// The same, with lists of Steps among single ones: messages are carried, heard and ended in them.
pub fn calls_with_lists(seed: u64, count: usize) -> Vec<Call> {
    run(Asking::new(seed, true), count)
}

fn run(mut asking: Asking, count: usize) -> Vec<Call> {
    while asking.calls.len() < count {
        asking.scene();
    }
    asking.calls.truncate(count);
    asking.calls
}

/// How many channel-ends of a board ask.
const ASKERS: usize = 5;
/// The channel-end that keeps a circuit open, and the channel that it sends to.
const KEEPER: usize = 7;
const KEPT: usize = 9;
/// After so many Steps in a row what still moves goes in a circle.
const PATIENCE: usize = 200;
/// How many records a list has by which messages are carried on.
const LIST: usize = 24;

const HELLO: u32 = 1 << 24;
const ENABLE: u32 = 1 << 31;

/// A channel-end by slot and place.
#[derive(Clone, Copy)]
struct End {
    slot: usize,
    end: usize,
}

/// Makes up one scene after the other, with an eye on the state.
struct Asking {
    random: Random,
    /// The settings that the boards are meant to have.
    settings: Vec<Call>,
    network: Option<Network>,
    calls: Vec<Call>,
    /// Are lists of Steps made, too?
    lists: bool,
    /// Behind how many Steps of a hundred all lines are emptied.
    carried: usize,
}

impl Asking {
    fn new(seed: u64, lists: bool) -> Asking {
        let mut asking = Asking {
            random: Random::new(seed),
            settings: Vec::new(),
            network: None,
            calls: Vec::new(),
            lists,
            carried: 100,
        };
        asking.start_anew();
        asking
    }

    /// The boards as they are meant to be, with nothing under way.
    fn start_anew(&mut self) {
        let number = self.random.pick(&[0, 0, 0x0120, 0xFF00]).unwrap_or(0);
        self.settings = boards::settings(number);
        let start = self.random.pick(&Start::ALL).unwrap_or(Start::Fresh);
        for call in boards::cabling(start) {
            self.make(call);
        }
        self.mend();
    }

    fn scene(&mut self) {
        self.carried = self.random.pick(&[100, 100, 100, 90, 50]).unwrap_or(100);
        match self.random.below(40) {
            0 => self.start_anew(),
            1..=8 => self.ask_while_it_changes(),
            9..=11 => self.greet_over_own_cable(),
            12..=15 => self.ask_to_disable_a_link_in_use(),
            16..=17 => self.ask_while_hello_is_on_its_way(),
            _ => self.ask_at_once(),
        }
        if self.random.chance(20) {
            self.plug();
        }
        if self.random.chance(85) {
            self.take_replies();
        }
        if self.random.chance(70) {
            self.mend();
        }
    }

    fn make(&mut self, call: Call) -> Answer {
        let answer = model::apply(&mut self.network, &call);
        self.calls.push(call);
        answer
    }

    fn set(&mut self, slot: usize, setting: Setting) {
        self.make(Call::Set { slot, setting });
    }

    /// A cable for a link by which a circuit is to leave and that has none: what waits there, such as
    /// a reply to a number that no table knows, goes on.
    fn plug(&mut self) {
        for call in plug(&mut self.random, self.network.as_ref()) {
            self.make(call);
        }
    }

    /// Makes the settings again that are not as they are meant to be. HELLO is refused while a credit
    /// or another HELLO is on its way, so lines are emptied behind each of them, mostly.
    fn mend(&mut self) {
        for call in self.settings.clone() {
            if boards::is_undone(&self.network, &call) {
                self.make(call);
                self.carry_mostly();
            }
        }
    }

    fn nodes(&self) -> &[Node] {
        self.network.as_ref().map_or(&[], |network| &network.nodes)
    }

    fn number(&self, slot: usize) -> u32 {
        self.nodes().get(slot).map_or(0, |node| node.number)
    }

    /// Who asks, which board is asked, and a message, with the asker aimed; none where Aim is refused.
    fn message_to_any(&mut self) -> Option<(End, usize, Vec<Token>)> {
        let (from, goal) = (self.asker(), self.random.below(NODES));
        let tokens = self.message(from, goal);
        let number = self.number(goal);
        let aimed = self.aim(from, Destination::Control { number });
        aimed.then_some((from, goal, tokens))
    }

    // Scenes.

    /// A message that is said, carried and heard out, mostly with nothing in between.
    fn ask_at_once(&mut self) {
        let Some((from, goal, tokens)) = self.message_to_any() else {
            return;
        };
        for token in tokens {
            self.say(from, token);
            if self.random.chance(40) {
                self.step_any();
            }
            if self.random.chance(1) {
                self.change(goal);
            }
        }
        self.settle();
    }

    /// A message during which a setting of the node changes that hears it, mostly its width.
    fn ask_while_it_changes(&mut self) {
        let Some((from, goal, tokens)) = self.message_to_any() else {
            return;
        };
        for token in tokens {
            self.say(from, token);
        }
        for _ in 0..40 {
            let serves = |node: &Node| node.control_unit.serves.is_some();
            if self.nodes().get(goal).is_some_and(serves) {
                self.change(goal);
                break;
            }
            self.step_any();
        }
        self.settle();
    }

    /// A message that leaves by a board's own cable, is the board's own once its number has changed,
    /// and says HELLO on the link that it left by, with tokens of other circuits before and behind it, so
    /// that the taking of its END brings a grant now and then, and is in its own way.
    fn greet_over_own_cable(&mut self) {
        self.take_replies();
        self.settle();
        self.mend();
        let slot = self.random.below(NODES);
        let (from, behind) = (End { slot, end: 0 }, End { slot, end: 1 });
        let number = self.number(slot) ^ OWN_BIT;
        let channel = SINK;
        let ahead = self.random.below(9);
        let mut before = vec![Token::data(3); ahead];
        before.push(Token::control(END));
        let sink = Destination::Channel { number, channel };
        self.send_all(End { slot, end: 2 }, sink, before);
        let tokens = speech::write(number, from.end, OWN_START, ENABLE | HELLO);
        self.send_all(from, Destination::Control { number }, tokens);
        let held = 40 + self.random.below(17);
        let filling = vec![Token::data(7); held];
        self.send_all(behind, sink, filling);
        self.set(slot, Setting::Number { value: number });
        for _ in 0..18 + ahead {
            self.step((slot, OWN[1]));
            self.send_on(behind);
        }
        self.say(behind, Token::control(END));
        self.settle();
    }

    /// A write to a board's own unit that says HELLO on a link, or disables it, while a HELLO is on the
    /// link's line.
    fn ask_while_hello_is_on_its_way(&mut self) {
        self.take_replies();
        self.settle();
        self.mend();
        self.settle();
        let from = self.asker();
        let (number, link) = (self.number(from.slot), self.random.below(2));
        let data = self.random.pick(&[0, ENABLE | HELLO]).unwrap_or(0);
        let tokens = speech::write(number, from.end, 0x82 + link as u32, data);
        self.carried = 0;
        if self.aim(from, Destination::Control { number }) {
            for token in tokens {
                self.say(from, token);
            }
            self.set(from.slot, Setting::Hello { link });
            self.send_on(from);
        }
        self.carried = 100;
        self.settle();
    }

    /// A write that would disable a link by which a circuit goes that stays open.
    fn ask_to_disable_a_link_in_use(&mut self) {
        let slot = self.random.below(NODES);
        let keeper = End { slot, end: KEEPER };
        let (number, channel) = (self.number(1 - slot), KEPT);
        self.send_all(
            keeper,
            Destination::Channel { number, channel },
            vec![Token::data(1), Token::data(2)],
        );
        let (from, goal) = (self.asker(), self.random.below(NODES));
        let address = self.random.pick(&[0x82, 0x82, 0x83]).unwrap_or(0x82);
        let data = self.random.pick(&[0, HELLO, ENABLE | HELLO]).unwrap_or(0);
        let tokens = speech::write(self.number(from.slot), from.end, address, data);
        let number = self.number(goal);
        self.send_all(from, Destination::Control { number }, tokens);
        self.settle();
        if self.random.chance(60) {
            self.say(keeper, Token::control(END));
            self.settle();
        }
    }

    /// The width of a node, most often, or its number or a link.
    fn change(&mut self, slot: usize) {
        let link = self.random.pick(&[0, 1, OWN[0]]).unwrap_or(0);
        let number = self.number(slot) ^ OWN_BIT;
        let setting = match self.random.below(8) {
            0 => Setting::Number { value: number },
            1 => Setting::Hello { link },
            2 => Setting::Enable { link, value: 0 },
            3 => Setting::Width { value: 3 },
            _ => Setting::Width { value: 1 },
        };
        self.set(slot, setting);
    }

    // What is said.

    fn asker(&mut self) -> End {
        End {
            slot: self.random.below(NODES),
            end: self.random.below(ASKERS),
        }
    }

    /// A message to a node's control unit. The reply is to go to the asker, to the asked node
    /// itself, to the sink, or to a channel that is none.
    fn message(&mut self, from: End, goal: usize) -> Vec<Token> {
        let channel = match self.random.below(10) {
            0..=4 => from.end,
            5 => self.random.below(CHANNELS),
            6..=8 => SINK,
            _ => self.random.pick(&[CHANNELS, SINK - 1]).unwrap_or(CHANNELS),
        };
        let own = self.random.chance(25);
        let number = self.number(if own { goal } else { from.slot });
        let node = self.network.as_ref().map(|network| &network.nodes[goal]);
        let message = |node| speech::message(&mut self.random, node, number, channel);
        node.map(message).unwrap_or_default().into()
    }

    /// Aims a channel-end, whose circuit is closed before if one was left open.
    fn aim(&mut self, from: End, destination: Destination) -> bool {
        let ends = self.nodes().get(from.slot).map(|node| &node.channel_ends);
        if ends.is_some_and(|ends| ends[from.end].sending.is_some()) {
            self.say(from, Token::control(END));
        }
        let aimed = self.make(Call::Aim {
            slot: from.slot,
            channel_end: from.end,
            destination,
            network: 0,
        });
        aimed == Answer::Done
    }

    /// Puts a token out, if need be after what is in its way has moved.
    fn say(&mut self, from: End, token: Token) {
        let call = Call::Output {
            slot: from.slot,
            channel_end: from.end,
            kind: token.kind,
            value: token.value,
        };
        if self.make(call.clone()) == Answer::No(No::Full) {
            self.take_replies();
            self.settle();
            self.make(call);
        }
    }

    /// Puts tokens out and sends them as far as the first cable.
    fn send_all(&mut self, from: End, destination: Destination, tokens: Vec<Token>) {
        if self.aim(from, destination) {
            for token in tokens {
                self.say(from, token);
            }
            self.send_on(from);
        }
    }

    // What is carried.

    /// Steps the ports 8..11 of a channel-end's board until they wait.
    fn send_on(&mut self, from: End) {
        for port in TILE_PORTS {
            let place = (from.slot, port);
            let mut left = PATIENCE;
            while left > 0 && !matches!(self.step(place), Answer::Waiting | Answer::Idle) {
                left -= 1;
            }
        }
    }

    /// Steps ports that hold a token until all of them wait and nothing is on a line.
    fn settle(&mut self) {
        while self.lists && self.random.chance(60) {
            self.make_list(LIST);
        }
        let mut waiting = Vec::new();
        for _ in 0..PATIENCE {
            let mut busy = self.busy_ports();
            busy.retain(|place| !waiting.contains(place));
            let Some(place) = self.random.pick(&busy) else {
                if !self.carry() {
                    return;
                }
                waiting.clear();
                continue;
            };
            match self.step(place) {
                Answer::Waiting => waiting.push(place),
                _ => waiting.clear(),
            }
        }
    }

    fn make_list(&mut self, most: usize) {
        let count = self.random.below(most + 1);
        let call = list_of(&mut self.random, self.network.as_ref(), count);
        self.make(call);
        self.carry_mostly();
    }

    /// Steps lines until nothing is on any of them; false where nothing was.
    fn carry(&mut self) -> bool {
        let mut carried = false;
        while let Some(LinkEnd { slot, link }) = self.line_in_use() {
            self.make(Call::Line { slot, link });
            carried = true;
        }
        carried
    }

    fn carry_mostly(&mut self) {
        if self.random.chance(self.carried) {
            self.carry();
        }
    }

    fn line_in_use(&mut self) -> Option<LinkEnd> {
        let used = self.network.as_ref().map(lines_in_use).unwrap_or_default();
        self.random.pick(&used)
    }

    fn step_any(&mut self) {
        if self.lists && self.random.chance(30) {
            return self.make_list(4);
        }
        let busy = self.busy_ports();
        if let Some(place) = self.random.pick(&busy) {
            self.step(place);
        }
    }

    fn step(&mut self, (slot, port): (usize, usize)) -> Answer {
        let answer = self.make(Call::Step { slot, port });
        self.carry_mostly();
        answer
    }

    fn busy_ports(&self) -> Vec<(usize, usize)> {
        self.network.as_ref().map(busy_ports).unwrap_or_default()
    }

    /// Takes all that channel-ends hold.
    fn take_replies(&mut self) {
        while let Some((at, kind)) = self.first_held() {
            self.make(Call::Input {
                slot: at.slot,
                channel_end: at.end,
                kind,
            });
        }
    }

    fn first_held(&self) -> Option<(End, Kind)> {
        let mut nodes = self.nodes().iter().enumerate();
        nodes.find_map(|(slot, node)| {
            let mut ends = node.channel_ends.iter().enumerate();
            ends.find_map(|(end, state)| Some((End { slot, end }, state.tokens.front()?.kind)))
        })
    }
}
