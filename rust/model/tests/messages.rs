//! Switch messages: writes, reads, replies, and all that can be wrong with them.

mod common;

use common::Bench;
use model::network::Network;
use model::random::Random;
use model::registers;

/// Node 0's channel-end 4 speaks to the control unit of node 1. Gives the answer to
/// the step that takes the last token, which the test then follows up.
fn tell(bench: &mut Bench, tokens: &str) -> String {
    bench.play("aim 0 4 control 1 0 0");
    bench.output_tokens(0, 4, tokens);
    assert_eq!(bench.drain(0, 8), "idle");
    hear_out(bench, 1, 0)
}

/// Steps a port through the message it holds, and gives the last answer.
fn hear_out(bench: &mut Bench, slot: usize, port: usize) -> String {
    let step = format!("step {slot} {port}");
    bench.expect(&step, "opened control");
    let rest = bench.held(slot, port);
    bench.repeat(rest - 1, &step, "moved");
    let last = bench.call(&step);
    assert_eq!(bench.node(slot).control_unit.serves, None);
    last
}

/// A message with reply address 0x0000, channel 4, and what it brought back.
fn ask(bench: &mut Bench, tokens: &str) -> String {
    assert_eq!(tell(bench, tokens), "moved", "{tokens}");
    bench.settle();
    bench.input_all(0, 4)
}

fn write_words(address: u32, data: u32) -> String {
    let [high, low] = (address as u16).to_be_bytes();
    let data = data.to_be_bytes().map(|byte| format!("{byte:02X}"));
    format!("!C0 00 00 04 {high:02X} {low:02X} {} !01", data.join(" "))
}

fn write(bench: &mut Bench, address: u32, data: u32) -> String {
    ask(bench, &write_words(address, data))
}

fn read(bench: &mut Bench, address: u32) -> String {
    let [high, low] = (address as u16).to_be_bytes();
    ask(bench, &format!("!C1 00 00 04 {high:02X} {low:02X} !01"))
}

const ACK: &str = "!03 !01";
const NACK: &str = "!04 !01";

// Writes and reads.

#[test]
fn write_and_read_the_number() {
    let mut bench = Bench::line(2);
    bench.play("set 1 direction 8 1");
    assert_eq!(read(&mut bench, 0x05), "!03 00 00 00 01 !01");
    assert_eq!(write(&mut bench, 0x05, 0x0000_0101), ACK);
    assert_eq!(bench.node(1).number, 0x0101);
    bench.play("aim 0 4 control 0x0101 0 0");
    bench.output_tokens(0, 4, "!C1 00 00 04 00 05 !01");
    bench.settle();
    assert_eq!(bench.input_all(0, 4), "!03 00 00 01 01 !01");
}

/// "Node ID, lower 16 bits only": the high bits are ignored (open point 46a).
#[test]
fn high_bits_of_a_number_are_ignored() {
    let mut bench = Bench::line(2);
    assert_eq!(write(&mut bench, 0x05, 0xFFFF_0001), ACK);
    assert_eq!(bench.node(1).number, 1);
    assert_eq!(read(&mut bench, 0x05), "!03 00 00 00 01 !01");
}

#[test]
fn write_and_read_the_width() {
    let mut bench = Bench::line(2);
    assert_eq!(write(&mut bench, 0x04, 0xFFFF_FFFE), ACK);
    assert_eq!(bench.node(1).width, 3);
    assert_eq!(read(&mut bench, 0x04), "!03 00 00 00 00 !01");
    assert_eq!(tell(&mut bench, &write_words(0x04, 1)), "moved");
    assert_eq!(bench.node(1).width, 1);
    assert_eq!(registers::read(bench.node(1), 0x04), Some(1));
}

#[test]
fn write_and_read_directions() {
    let mut bench = Bench::line(2);
    assert_eq!(write(&mut bench, 0x0C, 0x8765_4321), ACK);
    assert_eq!(bench.node(1).directions[..8], [1, 2, 3, 4, 5, 6, 7, 8]);
    assert_eq!(bench.node(1).directions[8], 2);
    assert_eq!(write(&mut bench, 0x0D, 0xFEDC_BA98), ACK);
    assert_eq!(bench.node(1).directions[..8], [1, 2, 3, 4, 5, 6, 7, 8]);
    assert_eq!(
        bench.node(1).directions[8..],
        [8, 9, 10, 11, 12, 13, 14, 15]
    );
    assert_eq!(read(&mut bench, 0x0C), "!03 87 65 43 21 !01");
    assert_eq!(read(&mut bench, 0x0D), "!03 FE DC BA 98 !01");
}

/// Links stand as C D A B G H E F; direction in bits 11..8, network in bits 5..4.
#[test]
fn link_directions_and_networks() {
    let order = [2, 3, 0, 1, 6, 7, 4, 5];
    for (place, link) in order.into_iter().enumerate() {
        let mut bench = Bench::blank_line(2);
        let address = 0x20 + place as u32;
        if link == 0 {
            // The link that the reply needs: its network is Busy, its direction not.
            assert_eq!(
                tell(&mut bench, &write_words(address, 0xFFFF_FACF)),
                "moved"
            );
            assert_eq!(bench.link(1, 0).direction, 10);
            assert_eq!(registers::read(bench.node(1), address), Some(0x0A00));
            continue;
        }
        assert_eq!(write(&mut bench, address, 0xFFFF_FA2F), ACK);
        let found = bench.link(1, link);
        assert_eq!((found.direction, found.network), (10, 2));
        assert_eq!(read(&mut bench, address), "!03 00 00 0A 20 !01");
    }
}

#[test]
fn link_enables_in_the_same_order() {
    let order = [2, 3, 0, 1, 6, 7, 4, 5];
    for (place, link) in order.into_iter().enumerate() {
        let mut bench = Bench::blank_line(2);
        if link == 0 {
            continue;
        }
        let address = 0x80 + place as u32;
        assert_eq!(write(&mut bench, address, 0xFEFF_FFFF), ACK);
        assert!(bench.link(1, link).enabled);
        assert_eq!(read(&mut bench, address), "!03 80 00 00 00 !01");
        assert_eq!(write(&mut bench, address, 0x7EFF_FFFF), ACK);
        assert!(!bench.link(1, link).enabled);
        assert_eq!(read(&mut bench, address), "!03 00 00 00 00 !01");
    }
}

/// All sixteen bits of the address count.
#[test]
fn known_addresses() {
    let mut known = vec![0x04, 0x05, 0x0C, 0x0D];
    known.extend(0x20..=0x27);
    known.extend(0x80..=0x87);
    assert_eq!(registers::known_addresses(), known);
    let bench = Bench::fresh(1);
    for address in 0..=0x1_0004 {
        let expected = known.contains(&address);
        assert_eq!(registers::read(bench.node(0), address).is_some(), expected);
        assert_eq!(registers::settings(address, 0).is_some(), expected);
    }
}

#[test]
fn unknown_addresses_are_nacked() {
    let mut bench = Bench::line(2);
    for address in [
        0, 1, 6, 0x0B, 0x0E, 0x1F, 0x28, 0x40, 0x7F, 0x88, 0xA0, 0x0104, 0x0500,
    ] {
        let before = bench.network.clone();
        assert_eq!(write(&mut bench, address, 0), NACK);
        assert_eq!(read(&mut bench, address), NACK);
        let settings = |network: &Option<Network>| network.clone().map(|n| settings(&n));
        assert_eq!(settings(&bench.network), settings(&before));
    }
}

/// Everything of a network that is a setting of Set.
fn settings(network: &Network) -> Vec<u32> {
    let mut found = Vec::new();
    for node in &network.nodes {
        found.extend([node.number, node.width]);
        found.extend(node.directions);
        for link in &node.links {
            found.extend([link.direction, link.network, u32::from(link.enabled)]);
        }
    }
    found
}

/// What a message writes equals the same Sets made by call, whole or not at all.
#[test]
fn writes_are_sets() {
    let mut random = Random::new(5);
    for _ in 0..600 {
        let mut bench = Bench::line(2);
        let address = random.pick(&registers::known_addresses()).unwrap_or(0);
        let data = random.bits() as u32;
        let tried = registers::settings(address, data).unwrap_or_default();
        let mut by_sets = Some(bench.state().clone());
        let answers = tried.iter().map(|&setting| {
            let call = model::calls::Call::Set { slot: 1, setting };
            model::calls::apply(&mut by_sets, &call).to_string()
        });
        let refused = answers.filter(|answer| answer.starts_with("no")).count() > 0;
        if refused {
            by_sets = Some(bench.state().clone());
        }
        assert_eq!(tell(&mut bench, &write_words(address, data)), "moved");
        let by_sets = by_sets.map(|network| settings(&network));
        assert_eq!(
            Some(settings(bench.state())),
            by_sets,
            "{address:x} {data:x}"
        );
        let reply = bench.tokens(1, 12);
        assert!(reply.ends_with(if refused { NACK } else { ACK }), "{reply}");
    }
}

// Order and wholeness.

/// Direction goes before network; the network of an enabled link is Busy, and then
/// the direction is not written either.
#[test]
fn a_write_is_whole_or_not_at_all() {
    let mut bench = Bench::line(2);
    bench.play("set 1 enable 7 1\nset 1 linkdirection 7 3");
    assert_eq!(write(&mut bench, 0x25, 0x0000_0910), NACK);
    assert_eq!(
        (bench.link(1, 7).direction, bench.link(1, 7).network),
        (3, 0)
    );
    assert_eq!(write(&mut bench, 0x25, 0x0000_0900), ACK);
    assert_eq!(bench.link(1, 7).direction, 9);
}

/// Enable is tried before HELLO: both in one write, the grant is given, and the
/// answer stays Moved.
#[test]
fn enable_and_hello_in_one_write() {
    let mut bench = Bench::line(2);
    bench.play("wire 0 2 1 2\nset 0 enable 2 1");
    assert_eq!(write(&mut bench, 0x80, 0x8100_0000), ACK);
    let link = bench.link(1, 2);
    assert!(link.enabled && link.greeted);
    assert_eq!(link.credit, 64);
    assert_eq!(read(&mut bench, 0x80), "!03 80 00 00 00 !01");
    // HELLO again, with enable kept.
    bench.state_mut().nodes[1].links[2].credit = 3;
    assert_eq!(write(&mut bench, 0x80, 0x8100_0000), ACK);
    assert_eq!(bench.link(1, 2).credit, 64);
}

/// Clear enable with HELLO set is disable, then HELLO on a disabled link: NACK, and
/// the link stays enabled (open point 45).
#[test]
fn hello_without_enable_is_refused() {
    let mut bench = Bench::line(2);
    bench.cable(0, 2, 1, 2);
    assert_eq!(write(&mut bench, 0x80, 0x0100_0000), NACK);
    assert!(bench.link(1, 2).enabled && bench.link(1, 2).greeted);
    assert_eq!(bench.link(1, 2).credit, 64);
    assert_eq!(write(&mut bench, 0x80, 0), ACK);
    assert!(!bench.link(1, 2).enabled && !bench.link(0, 2).greeted);
    assert_eq!(write(&mut bench, 0x80, 0x0100_0000), NACK);
}

/// "The hop closes first [...], then the write is made": a message may disable the
/// very link it came by.
#[test]
fn a_message_may_disable_the_link_it_came_by() {
    let mut bench = Bench::line(2);
    assert_eq!(tell(&mut bench, &write_words(0x82, 0)), "moved");
    assert!(!bench.link(1, 0).enabled);
    assert!(!bench.link(0, 1).greeted);
    assert_eq!(bench.tokens(1, 12), "h3:00 h3:00 h3:04 !03 !01");
    bench.expect("step 1 12", "refused noroute");
}

/// With another circuit behind it in the buffer the link is Busy.
#[test]
fn a_message_cannot_disable_a_busy_link() {
    let mut bench = Bench::line(2);
    bench.play("aim 0 4 control 1 0 0");
    bench.output_tokens(0, 4, &write_words(0x82, 0));
    assert_eq!(bench.drain(0, 8), "idle");
    bench.play("aim 0 5 channel 1 5 0\noutput 0 5 control 1");
    bench.play("step 0 8 -> opened link 1\nstep 0 8 -> moved");
    bench.expect("step 1 0", "opened control");
    bench.repeat(11, "step 1 0", "moved");
    assert!(bench.link(1, 0).enabled);
    bench.settle();
    assert_eq!(bench.input_all(0, 4), NACK);
}

/// "with any grant that the taking of its last token brings, then the write is
/// made": seen where the message says HELLO on the link that sent it (open point
/// 48a); the grant is then 16, not 8.
#[test]
fn the_last_token_is_taken_before_the_write() {
    let mut bench = Bench::fresh(1);
    bench.cable(0, 0, 0, 1);
    bench.play(
        "set 0 linkdirection 0 1
         set 0 direction 2 1
         aim 0 4 control 4 0 0
         aim 0 5 channel 4 5 0",
    );
    bench.output_tokens(0, 4, "!C0 00 00 04 00 82 81 00 00 00 !01");
    assert_eq!(bench.drain(0, 8), "idle");
    for _ in 0..12 {
        bench.play("output 0 5 control 1");
        assert_eq!(bench.drain(0, 8), "idle");
    }
    assert_eq!((bench.link(0, 0).credit, bench.held(0, 1)), (2, 14 + 48));
    bench.play("set 0 number 0 4\nstep 0 1 -> opened control");
    bench.repeat(10, "step 0 1", "moved");
    assert_eq!((bench.link(0, 0).credit, bench.held(0, 1)), (10, 49));
    bench.expect("step 0 1", "moved");
    assert_eq!((bench.link(0, 0).credit, bench.held(0, 1)), (16, 48));
}

/// "The hop closes first, with any grant that the taking of its last token brings".
#[test]
fn the_last_token_brings_its_grant() {
    let mut bench = Bench::line(2);
    bench.play("aim 0 4 control 1 0 0\naim 0 5 channel 1 5 0");
    bench.output_tokens(0, 4, "!C1 00 00 20 !01");
    assert_eq!(bench.drain(0, 8), "idle");
    bench.output_data(0, 5, 53);
    assert_eq!(bench.drain(0, 8), "idle");
    assert_eq!((bench.link(0, 1).credit, bench.held(1, 0)), (0, 64));
    bench.expect("step 1 0", "opened control");
    bench.repeat(4, "step 1 0", "moved");
    assert_eq!((bench.link(0, 1).credit, bench.held(1, 0)), (0, 57));
    bench.expect("step 1 0", "malformed");
    assert_eq!((bench.link(0, 1).credit, bench.held(1, 0)), (8, 56));
    bench.expect("step 1 0", "opened channel");
}

// Malformed, NACK and Unheard.

/// "No known reply address [...]: no reply, answer Malformed."
#[test]
fn no_known_reply_address_is_malformed() {
    let malformed = [
        "!01",
        "!C0 !01",
        "!C0 00 !01",
        "!C0 00 00 !01",
        "!C1 00 00 !01",
        "00 00 00 04 00 05 !01",
        "C0 00 00 04 00 05 00 00 00 01 !01",
        "!03 00 00 04 00 05 00 00 00 01 !01",
        "!C0 !00 00 04 00 05 00 00 00 01 !01",
        "!C0 00 !03 04 00 05 00 00 00 01 !01",
        "!C0 00 00 !04 00 05 00 00 00 01 !01",
        "!C0 !C0 00 00 04 00 05 00 00 00 01 !01",
        "!C0 00 00 20 00 05 00 00 00 02 !01",
        "!C0 00 00 FE 00 05 00 00 00 02 !01",
        "!C1 00 00 20 00 05 !01",
    ];
    for tokens in malformed {
        let mut bench = Bench::line(2);
        assert_eq!(tell(&mut bench, tokens), "malformed", "{tokens}");
        assert_eq!(bench.held(1, 12), 0);
        assert_eq!(bench.node(1).number, 1);
        assert_eq!(read(&mut bench, 0x05), "!03 00 00 00 01 !01");
    }
}

/// "PAUSE as the end": Malformed also for a perfect message, and nothing is written
/// (open point 42).
#[test]
fn pause_as_the_end_is_malformed() {
    let mut bench = Bench::line(2);
    for tokens in [
        "!C0 00 00 04 00 05 00 00 00 09 !02",
        "!C1 00 00 04 00 05 !02",
        "!C0 00 00 04 !02",
        "!02",
    ] {
        assert_eq!(tell(&mut bench, tokens), "malformed", "{tokens}");
        assert_eq!((bench.held(1, 12), bench.node(1).number), (0, 1));
    }
}

/// "A known reply address [...] with anything else wrong": NACK.
#[test]
fn anything_else_wrong_is_nacked() {
    let wrong = [
        "!C0 00 00 04 !01",
        "!C1 00 00 04 !01",
        "!C0 00 00 04 00 !01",
        "!C1 00 00 04 00 !01",
        "!C0 00 00 04 00 05 !01",
        "!C0 00 00 04 00 05 00 00 09 !01",
        "!C0 00 00 04 00 05 00 00 00 00 09 !01",
        "!C1 00 00 04 00 05 00 !01",
        "!C1 00 00 04 00 05 00 00 00 09 !01",
        "!C0 00 00 04 !00 05 00 00 00 09 !01",
        "!C0 00 00 04 00 !05 00 00 00 09 !01",
        "!C0 00 00 04 00 05 00 00 00 !09 !01",
        "!C0 00 00 04 00 05 !C0 00 00 09 !01",
        "!C1 00 00 04 !80 05 !01",
        "!C1 00 00 04 00 !C1 !01",
    ];
    for tokens in wrong {
        let mut bench = Bench::line(2);
        assert_eq!(ask(&mut bench, tokens), NACK, "{tokens}");
        assert_eq!(bench.node(1).number, 1);
    }
}

/// Messages of any length are taken to their end.
#[test]
fn a_very_long_message_is_nacked() {
    let mut bench = Bench::line(2);
    bench.play("aim 0 4 control 1 0 0");
    bench.output_tokens(0, 4, "!C0 00 00 04");
    for _ in 0..500 {
        bench.output_tokens(0, 4, "00");
        bench.settle();
    }
    bench.output_tokens(0, 4, "!01");
    bench.settle();
    assert_eq!(bench.input_all(0, 4), NACK);
}

/// A read of the sink's address: the reply goes to the sink.
#[test]
fn a_reply_may_go_to_the_sink() {
    let mut bench = Bench::line(2);
    assert_eq!(tell(&mut bench, "!C1 00 00 FF 00 05 !01"), "moved");
    assert_eq!(bench.tokens(1, 12), "h3:00 h3:00 h3:FF !03 00 00 00 01 !01");
    bench.settle();
    assert_eq!(bench.held(1, 12), 0);
}

/// "if that width cannot carry the reply channel there is no reply and the answer
/// says Unheard"; the write stays (open point 41).
#[test]
fn unheard_after_the_write() {
    let mut bench = Bench::line(2);
    assert_eq!(
        tell(&mut bench, "!C0 00 00 FF 00 04 00 00 00 01 !01"),
        "unheard"
    );
    assert_eq!((bench.node(1).width, bench.held(1, 12)), (1, 0));
}

/// Unheard also for NACK and for reads, where the width was set to one while the
/// message came in; Malformed is looked at first.
#[test]
fn unheard_for_reads_and_nacks() {
    for (tokens, answer) in [
        ("!C1 00 00 FF 00 05 !01", "unheard"),
        ("!C0 00 00 FF 00 !01", "unheard"),
        ("!C0 00 00 FF 00 05 00 00 00 09 !01", "unheard"),
        ("!C0 00 00 FF 00 04 00 00 00 00 !01", "moved"),
        ("!C1 00 00 1F 00 05 !01", "moved"),
        ("!C1 00 FF 20 00 05 !01", "malformed"),
        ("!C1 00 00 FF 00 05 !02", "malformed"),
    ] {
        let mut bench = Bench::line(2);
        bench.play("aim 0 4 control 1 0 0");
        bench.output_tokens(0, 4, tokens);
        assert_eq!(bench.drain(0, 8), "idle");
        bench.play("step 1 0 -> opened control\nset 1 width 0 1");
        let rest = bench.held(1, 0);
        bench.repeat(rest - 1, "step 1 0", "moved");
        bench.expect("step 1 0", answer);
    }
}

// Replies.

/// "The reply's header has the width the node has after the write", in both
/// directions.
#[test]
fn reply_header_width_is_that_after_the_write() {
    let mut bench = Bench::line(2);
    assert_eq!(tell(&mut bench, &write_words(0x04, 1)), "moved");
    assert_eq!(bench.tokens(1, 12), "h1:04 !03 !01");
    let mut bench = Bench::line(2);
    bench.play("aim 0 4 control 1 0 0");
    bench.output_tokens(0, 4, "!C0 12 35 04 00 04 00 00 00 00 !01");
    assert_eq!(bench.drain(0, 8), "idle");
    bench.play("step 1 0 -> opened control\nset 1 width 0 1");
    bench.repeat(11, "step 1 0", "moved");
    assert_eq!(bench.tokens(1, 12), "h3:12 h3:35 h3:04 !03 !01");
}

/// A one-byte reply header has the low three bits of the reply number.
#[test]
fn one_byte_reply_header() {
    let mut bench = Bench::line(2);
    let tokens = "!C0 12 35 1F 00 04 00 00 00 01 !01";
    assert_eq!(tell(&mut bench, tokens), "moved");
    assert_eq!(bench.tokens(1, 12), "h1:BF !03 !01");
}

/// A reply whose number is renumbered by the very write it answers.
#[test]
fn the_number_is_written_before_the_reply_is_routed() {
    let mut bench = Bench::line(2);
    assert_eq!(
        tell(&mut bench, "!C0 00 09 04 00 05 00 00 00 09 !01"),
        "moved"
    );
    bench.expect("step 1 12", "opened channel");
    bench.settle();
    assert_eq!(bench.input_all(1, 4), ACK);
}

/// The reply always goes by port 12 with a header, also to this very node (open
/// point 49); its own control unit is reached by a port with a header (open point
/// 16).
#[test]
fn a_message_to_this_very_node() {
    let mut bench = Bench::fresh(1);
    bench.play("aim 0 4 control 0 0 2");
    bench.output_tokens(0, 4, "!C1 00 00 04 00 05 !01");
    assert_eq!(
        bench.tokens(0, 8),
        "h3:00 h3:00 h3:!C3 !C1 00 00 04 00 05 !01"
    );
    assert_eq!(hear_out(&mut bench, 0, 8), "moved");
    assert_eq!(bench.tokens(0, 12), "h3:00 h3:00 h3:04 !03 00 00 00 00 !01");
    bench.expect("step 0 12", "opened channel");
    bench.repeat(6, "step 0 12", "moved");
    bench.expect("step 0 12", "idle");
    assert_eq!(bench.input_all(0, 4), "!03 00 00 00 00 !01");
}

/// "port 12 is network 0", whatever network the message came by.
#[test]
fn replies_are_on_network_zero() {
    let mut bench = Bench::line(2);
    bench.play(
        "set 0 enable 1 0
         set 0 network 1 3
         set 0 enable 1 1
         set 1 enable 0 0
         set 1 network 0 3
         set 1 enable 0 1
         set 0 hello 1 0
         set 1 hello 0 0
         aim 0 4 control 1 0 3",
    );
    bench.output_tokens(0, 4, "!C1 00 00 04 00 05 !01");
    assert_eq!(bench.drain(0, 8), "idle");
    assert_eq!(hear_out(&mut bench, 1, 0), "moved");
    bench.expect("step 1 12", "refused noroute");
}

// Who is served.

/// "Waiting while it serves a circuit or port 12 is not empty".
#[test]
fn one_message_at_a_time() {
    let mut bench = Bench::line(3);
    bench.play("aim 0 4 control 1 0 0\naim 2 5 control 1 0 0");
    bench.output_tokens(0, 4, "!C1 00 00 04 00 05 !01");
    bench.output_tokens(2, 5, "!C1 00 02 05 00 05 !01");
    assert_eq!(bench.drain(0, 8), "idle");
    assert_eq!(bench.drain(2, 8), "idle");
    bench.play(
        "step 1 0 -> opened control
         step 1 1 -> waiting",
    );
    bench.repeat(6, "step 1 0", "moved");
    bench.expect("step 1 1", "waiting");
    bench.expect("step 1 0", "moved");
    bench.play("step 1 1 -> waiting\nstep 1 12 -> opened link 0");
    bench.repeat(8, "step 1 12", "moved");
    bench.play("step 1 1 -> waiting\nstep 1 12 -> moved\nstep 1 1 -> opened control");
    bench.settle();
    assert_eq!(bench.input_all(0, 4), "!03 00 00 00 01 !01");
    assert_eq!(bench.input_all(2, 5), "!03 00 00 00 01 !01");
}

/// A reply that is refused and being dropped keeps the unit waiting too (open point
/// 38).
#[test]
fn a_dropped_reply_keeps_the_unit_waiting() {
    let mut bench = Bench::line(2);
    assert_eq!(tell(&mut bench, "!C1 40 00 04 00 05 !01"), "moved");
    bench.output_tokens(0, 4, "!C1 00 00 04 00 05 !01");
    assert_eq!(bench.drain(0, 8), "idle");
    bench.play("set 1 direction 14 9\nstep 1 12 -> refused noroute");
    bench.expect("step 1 0", "waiting");
    bench.repeat(8, "step 1 12", "dropped noroute");
    bench.play("step 1 0 -> waiting\nstep 1 12 -> dropped noroute");
    bench.expect("step 1 0", "opened control");
}

/// A message reaches a control unit only where all sixteen bits match (open point
/// 50), and a three-byte switch (open point 52).
#[test]
fn messages_are_routed_like_any_header() {
    let mut bench = Bench::line(2);
    bench.play("aim 0 4 control 9 0 0\noutput 0 4 control 0xC1\nset 1 direction 3 9");
    assert_eq!(bench.drain(0, 8), "idle");
    bench.expect("step 1 0", "refused noroute");
    let mut bench = Bench::line(2);
    bench.play("aim 0 4 control 1 0 0\noutput 0 4 control 0xC1\nset 1 width 0 1");
    assert_eq!(bench.drain(0, 8), "idle");
    bench.expect("step 1 0", "refused split");
}

/// A message broken off by PAUSE leaves nothing behind for the next.
#[test]
fn each_message_begins_anew() {
    let mut bench = Bench::line(2);
    assert_eq!(tell(&mut bench, "!C0 00 00 04 00 05 !02"), "malformed");
    assert_eq!(tell(&mut bench, "00 00 00 09 !01"), "malformed");
    assert_eq!(read(&mut bench, 0x05), "!03 00 00 00 01 !01");
}

/// What an idle unit may still remember is no part of a message.
#[test]
fn an_idle_unit_remembers_nothing() {
    let mut bench = Bench::line(2);
    let rubbish = vec![model::tokens::Token::control(0x55); 5];
    bench.state_mut().nodes[1].control_unit.heard = rubbish;
    assert_eq!(read(&mut bench, 0x05), "!03 00 00 00 01 !01");
}
