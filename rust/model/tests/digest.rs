//! The digest: its bytes in their order, and the hash over them.

mod common;

use common::Bench;
use model::digest::{bytes, digest, fnv1a};

const NODE: usize = 2 + 1 + 16 + 8 * 9 + 4 + 13 * 4 + 32 * 10 + 1;
const LINKS_AT: usize = 19;
const TILE_LINKS_AT: usize = LINKS_AT + 8 * 9;
const PORTS_AT: usize = TILE_LINKS_AT + 4;

#[test]
fn fnv1a_vectors() {
    assert_eq!(fnv1a(b""), 0xcbf2_9ce4_8422_2325);
    assert_eq!(fnv1a(b"a"), 0xaf63_dc4c_8601_ec8c);
    assert_eq!(fnv1a(b"foobar"), 0x8594_4171_f739_67e8);
}

#[test]
fn no_network_is_zero() {
    assert_eq!(digest(None), 0);
}

/// A node of which only these links are enabled.
fn bytes_of_a_started_node(enabled: [u8; 8]) -> Vec<u8> {
    let mut node = vec![0, 0, 3];
    node.extend([0; 16]);
    for enabled in enabled {
        node.extend([0, 0, 0, enabled, 0, 0, 0, 0, 255]);
    }
    node.extend([255; 4]);
    node.extend([0; 13 * 4]);
    node.extend([0; 32 * 10]);
    node.push(255);
    assert_eq!(node.len(), NODE);
    node
}

/// "Ask 7's start shows in the enabled flags."
#[test]
fn bytes_of_both_starts() {
    for (bench, enabled) in [
        (Bench::fresh(2), [0, 0, 0, 0, 1, 1, 1, 1]),
        (Bench::blank(2), [0; 8]),
    ] {
        let node = bytes_of_a_started_node(enabled);
        let expected = [&[2][..], &node, &node].concat();
        assert_eq!(bytes(bench.state()), expected);
        assert_eq!(digest(bench.network.as_ref()), fnv1a(&expected));
    }
}

/// Settings, cables and credits at their places.
#[test]
fn bytes_of_settings_and_links() {
    let mut bench = Bench::fresh(2);
    bench.play(
        "set 0 number 0 0x1234
         set 0 width 0 1
         set 0 direction 0 7
         set 0 direction 15 8
         set 0 linkdirection 2 9
         set 0 network 2 3
         wire 0 2 1 5
         set 0 enable 2 1
         set 1 enable 5 1
         set 0 hello 2 0",
    );
    let found = bytes(bench.state());
    assert_eq!(found[..5], [2, 0x12, 0x34, 1, 7]);
    assert_eq!(found[19], 8);
    let link = 1 + LINKS_AT + 2 * 9;
    assert_eq!(found[link..link + 9], [1, 1, 5, 1, 9, 3, 1, 64, 255]);
    let far = 1 + NODE + LINKS_AT + 5 * 9;
    assert_eq!(found[far..far + 9], [1, 0, 2, 1, 0, 0, 0, 0, 255]);
}

/// One circuit outward, one without a route, one to the control unit and one split,
/// in ports 8 to 11.
fn four_circuits() -> Bench {
    let mut bench = Bench::line(2);
    bench.play(
        "aim 0 0 channel 1 7 0
         output 0 0 data 5
         output 0 0 control 3
         step 0 8 -> opened link 1
         aim 0 1 channel 1 6 2
         output 0 1 data 5
         step 0 9 -> refused noroute
         aim 0 2 control 0 0 3
         output 0 2 control 0xC1
         output 0 2 data 9
         step 0 10 -> opened control
         aim 0 3 channel 1 7 1
         output 0 3 data 5
         set 0 width 0 1
         step 0 11 -> refused split",
    );
    bench
}

/// Hops, networks and tokens.
#[test]
fn bytes_of_ports() {
    let found = bytes(four_circuits().state());
    let ports = 1 + PORTS_AT;
    assert_eq!(found[ports..ports + 8 * 4], [0; 8 * 4]);
    #[rustfmt::skip]
    let expected = [
        1, 1, 0, 5, 6, 0, 6, 1, 6, 7, 0, 5, 1, 3,
        5, 0, 2, 4, 6, 0, 6, 1, 6, 6, 0, 5,
        3, 0, 3, 2, 1, 0xC1, 0, 9,
        4, 0, 1, 4, 6, 0, 6, 1, 6, 7, 0, 5,
        0, 0, 0, 0,
    ];
    assert_eq!(found[ports + 8 * 4..][..expected.len()], expected);
    assert_eq!(found[1 + LINKS_AT + 9 + 8], 8, "link 1 is used by port 8");
    assert_eq!(found[1 + LINKS_AT + 8], 255, "link 0 is free");
}

/// Aims and who is sending.
#[test]
fn bytes_of_channel_ends() {
    let found = bytes(four_circuits().state());
    let second_node = found.len() - NODE;
    let ends = second_node - 32 * 10 - 1;
    #[rustfmt::skip]
    let expected = [
        1, 0, 1, 7, 0, 1, 8, 0, 0, 0,
        1, 0, 1, 6, 2, 1, 9, 0, 0, 0,
        2, 0, 0, 0, 3, 1, 10, 0, 0, 0,
        1, 0, 1, 7, 1, 1, 11, 0, 0, 0,
        0, 0, 0, 0, 0, 0, 0, 0, 0, 0,
    ];
    assert_eq!(found[ends..][..expected.len()], expected);
    assert_eq!(found[second_node - 1], 10, "the unit serves port 10");
}

/// A header with a control unit in it, one-byte headers, and channel-ends that are
/// claimed and hold tokens.
#[test]
fn bytes_of_headers_and_channel_ends() {
    let mut bench = Bench::fresh(1);
    bench.play(
        "aim 0 0 control 0x0102 0 0
         output 0 0 control 0xC0
         aim 0 1 channel 0 2 1
         output 0 1 data 8
         output 0 1 control 4
         aim 0 3 channel 0 255 0
         output 0 3 data 8
         set 0 width 0 1
         aim 0 4 channel 5 7 0
         output 0 4 control 1",
    );
    let found = bytes(bench.state());
    let tile_ports = 1 + PORTS_AT + 8 * 4;
    #[rustfmt::skip]
    let expected = [
        0, 0, 0, 4, 6, 1, 6, 2, 7, 0xC3, 1, 0xC0,
        0, 0, 0, 2, 2, 0xA7, 1, 1,
        0, 0, 0, 0,
        0, 0, 0, 0,
        0, 0, 0, 0,
        2, 1, 2, 0, 0, 1, 8, 0, 0, 0,
        1, 0, 0, 2, 1, 2, 2, 0, 0, 0,
        0, 0, 0, 0, 0, 0, 0, 2, 1, 2, 0, 8, 1, 4,
        1, 0, 0, 255, 0, 2, 255, 0, 0, 0,
        1, 0, 5, 7, 0, 0, 0, 0, 0, 0,
    ];
    assert_eq!(found[tile_ports..tile_ports + expected.len()], expected);
}

/// A claim by a port, its tile link, and the sink's hop.
#[test]
fn bytes_of_claims_and_tile_links() {
    let mut bench = Bench::line(2);
    bench.play(
        "aim 0 0 channel 1 1 0
         output 0 0 data 5
         aim 1 0 control 1 0 0
         output 1 0 control 0xC1",
    );
    assert_eq!(bench.drain(0, 8), "idle");
    bench.play(
        "step 1 8 -> opened control
         step 1 0 -> opened channel",
    );
    let found = bytes(bench.state());
    let node = found.len() - NODE - 2 - 2;
    assert_eq!(found[node + TILE_LINKS_AT..][..4], [0, 255, 255, 255]);
    assert_eq!(found[node + PORTS_AT..][..6], [2, 1, 0, 1, 0, 5]);
    let ends = node + PORTS_AT + 6 + 7 * 4 + 6 + 4 * 4;
    assert_eq!(found[ends..][..10], [2, 0, 1, 0, 0, 1, 8, 0, 0, 0]);
    assert_eq!(found[ends + 10..][..10], [0, 0, 0, 0, 0, 0, 0, 1, 0, 0]);
    assert_eq!(found.last(), Some(&8));
}

/// The unfinished message of a control unit is left out.
#[test]
fn the_message_so_far_is_left_out() {
    let mut bench = Bench::line(2);
    bench.play("aim 1 0 control 1 0 0\noutput 1 0 control 0xC1\nstep 1 8\nstep 1 8");
    let with = digest(bench.network.as_ref());
    bench.state_mut().nodes[1].control_unit.heard.clear();
    assert_eq!(digest(bench.network.as_ref()), with);
}

/// The digest of an unsound state is no matter, but it is given.
#[test]
fn digest_of_nonsense() {
    let mut bench = Bench::fresh(1);
    let node = &mut bench.state_mut().nodes[0];
    node.links[0].credit = usize::MAX;
    node.links[0].used_by = Some(usize::MAX);
    node.number = u32::MAX;
    node.ports[0]
        .tokens
        .extend([model::tokens::Token::data(1); 300]);
    assert!(digest(bench.network.as_ref()) != 0);
}
