//! Every example of document 01's "Both sides of the line" and "Errors that look
//! reasonable".

mod common;

use common::Bench;
use model::credits::grant;
use model::routing::highest_differing_bit;
use model::tokens::{header, Destination, Token};

fn header_bytes(number: u32, channel: usize, width: u32) -> Vec<u8> {
    let destination = Destination::Channel { number, channel };
    let tokens = header(destination, width).expect("a header");
    assert!(tokens.iter().all(|token| token.header == Some(width)));
    tokens.iter().map(|token| token.value).collect()
}

#[test]
fn headers_of_both_widths() {
    assert_eq!(header_bytes(0x0125, 7, 3), [0x01, 0x25, 0x07]);
    assert_eq!(header_bytes(5, 7, 1), [0xA7]);
    assert_eq!(header_bytes(9, 7, 1), [0x27]);
}

#[test]
fn headers_as_output_puts_them() {
    let mut bench = Bench::fresh(1);
    bench.play(
        "set 0 number 0 0x7000
         aim 0 0 channel 0x0125 7 0
         output 0 0 data 9",
    );
    assert_eq!(bench.tokens(0, 8), "h3:01 h3:25 h3:07 09");
    bench.play(
        "set 0 width 0 1
         aim 0 1 channel 5 7 0
         output 0 1 data 9
         set 0 number 0 0x7003
         aim 0 2 channel 9 7 0
         output 0 2 data 9",
    );
    assert_eq!(bench.tokens(0, 9), "h1:A7 09");
    assert_eq!(bench.tokens(0, 10), "h1:27 09");
}

#[test]
fn header_of_a_control_unit() {
    let control = Destination::Control { number: 0x0125 };
    let expected = vec![
        Token::data(0x01).in_header(3),
        Token::data(0x25).in_header(3),
        Token::control(0xC3).in_header(3),
    ];
    assert_eq!(header(control, 3), Some(expected));
    assert_eq!(header(control, 1), None);
    let sink = Destination::Channel {
        number: 1,
        channel: 255,
    };
    assert_eq!(header(sink, 1), None);
    assert!(header(sink, 3).is_some());
}

#[test]
fn highest_differing_bits() {
    assert_eq!(highest_differing_bit(0x0005, 0x0005, 3), None);
    assert_eq!(highest_differing_bit(0x0005, 0x8005, 3), Some(15));
    assert_eq!(highest_differing_bit(0x0000, 0x0009, 3), Some(3));
    assert_eq!(highest_differing_bit(1, 9, 1), None);
    assert_eq!(highest_differing_bit(2, 7, 1), Some(2));
}

#[test]
fn grants() {
    assert_eq!(grant(0, 0), 64);
    assert_eq!(grant(0, 40), 16);
    assert_eq!(grant(0, 56), 8);
    assert_eq!(grant(0, 57), 0);
    assert_eq!(grant(7, 0), 16);
    assert_eq!(grant(8, 0), 0);
}

/// "Credit 7, held 0: 16, making 23. Credit 8: none", as a link lives through it.
#[test]
fn credit_seven_becomes_twenty_three() {
    let mut bench = Bench::line(2);
    bench.play("aim 0 0 channel 1 255 0");
    bench.output_data(0, 0, 53);
    bench.expect("step 0 8", "opened link 1");
    bench.repeat(56, "step 0 8", "moved");
    assert_eq!((bench.link(0, 1).credit, bench.held(1, 0)), (8, 56));
    bench.expect("step 1 0", "opened channel");
    bench.repeat(53, "step 1 0", "moved");
    assert_eq!((bench.link(0, 1).credit, bench.held(1, 0)), (8, 0));
    bench.output_data(0, 0, 1);
    bench.expect("step 0 8", "moved");
    assert_eq!((bench.link(0, 1).credit, bench.held(1, 0)), (23, 1));
}

#[test]
fn control_tokens_at_the_class_borders() {
    let mut bench = Bench::fresh(1);
    bench.play(
        "aim 0 0 channel 0 1 0
         output 0 0 control 0xBF -> done
         output 0 0 control 0xC0 -> no 8
         output 0 0 control 0xDF -> no 8
         output 0 0 control 0xE0 -> no 7
         output 0 0 control 0xFF -> no 7
         input 0 1 control -> token 191",
    );
}

/// "Hub at one-byte, lane at three-byte: the lane opens, the hub's step says
/// Refused, Split; three header tokens and the rest are Dropped."
#[test]
fn hub_at_one_byte_and_lane_at_three() {
    let mut bench = Bench::line(2);
    bench.play(
        "set 0 width 0 1
         aim 1 0 channel 0 5 0
         output 1 0 data 17
         output 1 0 data 18
         output 1 0 control 1
         step 1 8 -> opened link 0",
    );
    bench.repeat(6, "step 1 8", "moved");
    bench.expect("step 0 1", "refused split");
    assert_eq!(bench.held(0, 1), 6);
    bench.repeat(6, "step 0 1", "dropped split");
    bench.expect("step 0 1", "idle");
    assert_eq!(bench.input_all(0, 5), "");
}

/// "A message sets a node to one-byte: the ACK leaves with a one-byte header and is
/// Split at a neighbour still at three."
#[test]
fn ack_with_a_one_byte_header() {
    let mut bench = Bench::line(2);
    bench.play("aim 0 4 control 1 0 0");
    bench.output_tokens(0, 4, "!C0 00 00 04 00 04 00 00 00 01 !01");
    assert_eq!(bench.drain(0, 8), "idle");
    assert_eq!(bench.drain(1, 0), "idle");
    assert_eq!(bench.node(1).width, 1);
    assert_eq!(bench.tokens(1, 12), "h1:04 !03 !01");
    bench.expect("step 1 12", "opened link 0");
    bench.repeat(3, "step 1 12", "moved");
    bench.expect("step 0 1", "refused split");
    bench.repeat(3, "step 0 1", "dropped split");
    bench.expect("step 0 1", "idle");
    assert_eq!(bench.input_all(0, 4), "");
}

/// "Taking a one-byte destination of 9 as NoRoute at node 1. Three bits are
/// compared."
#[test]
fn one_byte_nine_is_node_one() {
    let mut bench = Bench::line(2);
    bench.play(
        "set 0 width 0 1
         set 1 width 0 1
         aim 0 0 channel 9 7 0
         output 0 0 data 3
         output 0 0 control 1
         step 0 8 -> opened link 1
         step 0 8 -> moved
         step 1 0 -> opened channel",
    );
    bench.settle();
    assert_eq!(bench.input_all(1, 7), "03 !01");
}

/// The same for a circuit that never leaves its node (open point 15a).
#[test]
fn one_byte_nine_is_local_at_node_one() {
    let mut bench = Bench::line(2);
    bench.play(
        "set 1 width 0 1
         aim 1 0 channel 9 7 0
         output 1 0 data 3",
    );
    assert_eq!(bench.held(1, 8), 0);
    assert_eq!(bench.input_all(1, 7), "03");
}

/// "Reading the width when the header is made, and not when each switch reads it."
#[test]
fn width_is_read_by_each_switch() {
    let mut bench = Bench::line(3);
    bench.play(
        "aim 0 0 channel 2 7 0
         output 0 0 control 1
         set 0 width 0 1
         step 0 8 -> refused split
         aim 0 1 channel 2 7 0
         set 0 width 0 3
         output 0 1 control 1
         set 0 width 0 1
         set 0 width 0 3
         step 0 9 -> opened link 1",
    );
    bench.repeat(4, "step 0 9", "moved");
    bench.play(
        "set 1 width 0 1
         set 2 width 0 1
         step 1 0 -> refused split",
    );
}

/// A circuit once opened goes on, whatever the width is set to.
#[test]
fn width_is_not_read_again() {
    let mut bench = Bench::line(2);
    bench.play(
        "aim 0 0 channel 1 7 0
         output 0 0 data 1
         step 0 8 -> opened link 1
         set 0 width 0 1
         output 0 0 control 1",
    );
    bench.repeat(5, "step 0 8", "moved");
    bench.play("step 1 0 -> opened channel");
}

/// "Treating "all in use" as "none": one waits, the other discards."
#[test]
fn all_in_use_waits_and_none_discards() {
    let mut bench = Bench::line(2);
    bench.play(
        "aim 0 0 channel 1 7 0
         aim 0 1 channel 1 8 0
         aim 0 2 channel 1 9 1
         output 0 0 data 1
         output 0 1 data 1
         output 0 2 data 1
         step 0 8 -> opened link 1
         step 0 9 -> waiting
         step 0 10 -> refused noroute
         step 0 9 -> waiting
         step 0 10 -> dropped noroute",
    );
}

/// "Granting 64 because the credit is 0, with 40 tokens still held."
#[test]
fn hello_with_forty_held_grants_sixteen() {
    let mut bench = Bench::line(2);
    bench.play("aim 0 0 channel 1 7 0");
    bench.output_data(0, 0, 37);
    bench.expect("step 0 8", "opened link 1");
    bench.repeat(40, "step 0 8", "moved");
    assert_eq!((bench.link(0, 1).credit, bench.held(1, 0)), (24, 40));
    bench.expect("set 0 hello 1 0", "granted 16");
    assert_eq!(bench.link(0, 1).credit, 16);
}

/// "Handing PAUSE to a program."
#[test]
fn pause_is_never_handed_on() {
    let mut bench = Bench::line(2);
    bench.play(
        "aim 0 0 channel 1 7 0
         output 0 0 data 1
         output 0 0 control 2",
    );
    bench.settle();
    bench.play(
        "aim 1 0 channel 1 7 0
         output 1 0 data 2
         output 1 0 control 2",
    );
    assert_eq!(bench.input_all(1, 7), "01 02");
}
