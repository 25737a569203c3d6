//! Each rule of "What a Step does", "Routing" and "Credits". That Waiting and Idle
//! change nothing is looked at by the bench itself.

mod common;

use common::Bench;
use model::answers::Cause;
use model::network::{Claim, Hop};

// Headers.

#[test]
fn empty_is_idle_also_with_an_open_circuit() {
    let mut bench = Bench::line(2);
    bench.play(
        "step 0 8 -> idle
         aim 0 0 channel 1 7 0
         output 0 0 data 1
         step 0 8 -> opened link 1",
    );
    bench.repeat(4, "step 0 8", "moved");
    bench.expect("step 0 8", "idle");
    assert_eq!(bench.port(0, 8).hop, Some(Hop::Outward(1)));
}

/// "With no circuit and a header short of its tokens: Waiting", at either width of
/// the switch; only when whole it is Split (open point 32).
#[test]
fn short_header_waits() {
    for (width, then) in [(3, "opened channel"), (1, "refused split")] {
        let mut bench = Bench::line(2);
        bench.play(&format!(
            "set 1 width 0 {width}
             aim 0 0 channel 1 7 0
             output 0 0 data 1
             step 0 8 -> opened link 1
             step 0 8 -> moved
             step 1 0 -> waiting
             step 0 8 -> moved
             step 1 0 -> waiting
             step 0 8 -> moved
             step 1 0 -> {then}"
        ));
    }
}

/// "width differs from the switch: Refused, Split", before the number is looked at.
#[test]
fn split_goes_before_routing() {
    let mut bench = Bench::line(2);
    bench.play(
        "aim 0 0 channel 0x4000 7 3
         output 0 0 data 1
         set 0 width 0 1
         step 0 8 -> refused split",
    );
}

#[test]
fn one_byte_header_at_a_three_byte_switch_is_split() {
    let mut bench = Bench::line(2);
    bench.play(
        "set 0 width 0 1
         aim 0 0 channel 1 7 0
         output 0 0 control 1
         step 0 8 -> opened link 1
         step 0 8 -> moved
         step 1 0 -> refused split
         step 0 8 -> moved
         step 1 0 -> dropped split
         step 1 0 -> dropped split
         step 1 0 -> idle",
    );
}

/// The step that refuses drops nothing, a refused circuit stays refused though the
/// settings be mended, and each later step drops one token (open point 34).
#[test]
fn refused_circuit_stays_refused() {
    for (spoil, mend, cause) in [
        ("set 0 width 0 1", "set 0 width 0 3", "split"),
        (
            "set 0 linkdirection 1 9",
            "set 0 linkdirection 1 2",
            "noroute",
        ),
    ] {
        let mut bench = Bench::line(2);
        bench.play("aim 0 0 channel 1 7 0\noutput 0 0 data 1\noutput 0 0 data 2");
        bench.play(spoil);
        bench.expect("step 0 8", &format!("refused {cause}"));
        assert_eq!(bench.held(0, 8), 5);
        bench.play(mend);
        let dropped = format!("dropped {cause}");
        bench.repeat(5, "step 0 8", &dropped);
        bench.expect("step 0 8", "idle");
        bench.play("output 0 0 data 3");
        bench.expect("step 0 8", &dropped);
        bench.play("output 0 0 control 1");
        bench.expect("step 0 8", &dropped);
        assert!(!bench.port(0, 8).is_taken());
        bench.play("output 0 0 data 4\nstep 0 8 -> opened link 1");
    }
}

/// "the switch reads it, anew at each such Step"
#[test]
fn waiting_header_is_read_anew() {
    let mut bench = Bench::line(3);
    bench.play(
        "aim 1 0 channel 2 7 0
         output 1 0 data 1
         step 1 8 -> opened link 1
         aim 1 1 channel 2 8 0
         output 1 1 data 1
         step 1 9 -> waiting
         set 1 direction 1 1
         step 1 9 -> opened link 0
         aim 1 2 channel 2 9 0
         output 1 2 data 1
         step 1 10 -> waiting
         set 1 number 0 2
         step 1 10 -> opened channel",
    );
}

/// "Opened [...] header tokens stay and travel on in later steps", one a step.
#[test]
fn opening_outward_moves_nothing() {
    let mut bench = Bench::line(3);
    bench.play(
        "aim 0 0 channel 2 7 0
         output 0 0 data 9
         step 0 8 -> opened link 1",
    );
    assert_eq!(bench.tokens(0, 8), "h3:00 h3:02 h3:07 09");
    bench.expect("step 0 8", "moved");
    assert_eq!(bench.tokens(0, 8), "h3:02 h3:07 09");
    assert_eq!(bench.tokens(1, 0), "h3:00");
    bench.repeat(3, "step 0 8", "moved");
    assert_eq!(bench.tokens(1, 0), "h3:00 h3:02 h3:07 09");
    bench.expect("step 1 0", "opened link 1");
    assert_eq!(bench.tokens(1, 0), "h3:00 h3:02 h3:07 09");
}

/// "A header byte of value 1 is data": it closes nothing.
#[test]
fn header_bytes_and_data_of_value_one_and_two_close_nothing() {
    let mut bench = Bench::line(2);
    bench.play(
        "set 0 number 0 0x0300
         set 1 number 0 0x0201
         set 0 direction 8 2
         aim 0 0 channel 0x0201 2 0
         output 0 0 data 1
         output 0 0 data 2
         output 0 0 control 1",
    );
    bench.settle();
    assert_eq!(bench.input_all(1, 2), "01 02 !01");
}

// Routing.

/// "Candidates are links that are enabled, have that direction and have the
/// circuit's network number."
#[test]
fn candidates_need_all_three() {
    for spoil in ["set 0 enable 1 0", "set 0 linkdirection 1 3"] {
        let mut bench = Bench::line(2);
        bench.play("aim 0 0 channel 1 7 0\noutput 0 0 data 1");
        bench.play(spoil);
        bench.expect("step 0 8", "refused noroute");
    }
    let mut bench = Bench::line(2);
    bench.play(
        "set 0 enable 1 0
         set 0 network 1 2
         set 0 enable 1 1
         aim 0 0 channel 1 7 0
         aim 0 1 channel 1 7 2
         output 0 0 data 1
         output 0 1 data 1
         step 0 8 -> refused noroute
         step 0 9 -> opened link 1",
    );
}

/// "Otherwise the lowest-numbered free one is taken."
#[test]
fn lowest_free_link_is_taken() {
    let mut bench = Bench::fresh(1);
    for link in [2, 5, 6] {
        bench.play(&format!(
            "set 0 linkdirection {link} 4\nset 0 enable {link} 1"
        ));
    }
    bench.play("set 0 direction 3 4");
    for end in 0..4 {
        bench.play(&format!(
            "aim 0 {end} channel 8 {end} 0\noutput 0 {end} data 1"
        ));
    }
    bench.play(
        "step 0 10 -> opened link 2
         step 0 8 -> opened link 5
         step 0 11 -> opened link 6
         step 0 9 -> waiting",
    );
}

/// A link of the middle that comes free is taken before higher ones.
#[test]
fn freed_link_is_taken_again() {
    let mut bench = Bench::fresh(2);
    for link in 0..3 {
        bench.cable(0, link, 1, link);
        bench.play(&format!("set 0 linkdirection {link} 4"));
    }
    bench.play("set 0 number 0 1\nset 0 direction 0 4");
    for end in 0..3 {
        bench.play(&format!(
            "aim 0 {end} channel 0 {end} 0\noutput 0 {end} control 1"
        ));
        bench.expect(
            &format!("step 0 {}", 8 + end),
            &format!("opened link {end}"),
        );
    }
    bench.repeat(4, "step 0 9", "moved");
    bench.play(
        "output 0 1 control 1
         step 0 9 -> opened link 1",
    );
}

/// "Cabling is not looked at": an unwired link and one with a disabled far end are
/// candidates; the circuit opens and waits at credit 0 (open point 30).
#[test]
fn cabling_is_not_looked_at() {
    let mut bench = Bench::fresh(2);
    bench.play(
        "set 0 number 0 2
         set 0 enable 0 1
         aim 0 0 channel 0 3 0
         output 0 0 control 1
         step 0 8 -> opened link 0
         step 0 8 -> waiting
         set 0 enable 0 0 -> no 4
         set 0 hello 0 0 -> granted 0
         step 0 8 -> waiting
         wire 0 1 1 1
         set 0 enable 1 1
         aim 0 1 channel 0 3 0
         output 0 1 control 1
         step 0 9 -> opened link 1
         step 0 9 -> waiting
         set 1 enable 1 1
         step 0 9 -> waiting
         set 0 hello 1 0 -> granted 64
         step 0 9 -> moved",
    );
}

/// Only use outward makes a link busy; a circuit coming in does not (open point
/// 36).
#[test]
fn incoming_circuit_does_not_use_the_link() {
    let mut bench = Bench::line(2);
    bench.play(
        "aim 1 0 channel 0 7 0
         output 1 0 data 1",
    );
    bench.settle();
    bench.play(
        "aim 0 0 channel 1 7 0
         output 0 0 data 1
         step 0 8 -> opened link 1",
    );
}

/// The link it came by is a candidate too (open point 35): two nodes with bad tables
/// send a circuit back and forth.
#[test]
fn circuit_may_go_back_where_it_came_from() {
    let mut bench = Bench::line(2);
    bench.play(
        "set 1 number 0 4
         set 1 direction 2 1
         set 1 direction 0 1
         aim 0 0 channel 5 7 0
         output 0 0 control 1
         step 0 8 -> opened link 1",
    );
    bench.repeat(4, "step 0 8", "moved");
    bench.expect("step 1 0", "opened link 0");
    bench.repeat(4, "step 1 0", "moved");
    bench.expect("step 0 1", "opened link 1");
    bench.repeat(4, "step 0 1", "moved");
    assert_eq!(bench.tokens(1, 0), "h3:00 h3:05 h3:07 !01");
}

/// At one-byte width the bit is 2..0, looked up in the same table.
#[test]
fn one_byte_routing_uses_the_low_entries() {
    let mut bench = Bench::line(2);
    bench.play(
        "set 0 number 0 0x0102
         set 0 direction 2 2
         set 0 direction 15 9
         set 0 width 0 1
         aim 0 0 channel 0x8207 7 0
         output 0 0 control 1",
    );
    assert_eq!(bench.tokens(0, 8), "h1:E7 !01");
    bench.expect("step 0 8", "opened link 1");
}

/// "In a direction register [...]": each bit has its own entry.
#[test]
fn each_bit_has_its_own_direction() {
    for bit in 0..16 {
        let mut bench = Bench::fresh(1);
        for other in 0..16 {
            let direction = if other == bit { 5 } else { 6 };
            bench.play(&format!("set 0 direction {other} {direction}"));
        }
        bench.play(&format!(
            "set 0 linkdirection 3 5
             set 0 enable 3 1
             set 0 number 0 0xFFFF
             aim 0 0 channel {} 1 0
             output 0 0 control 1
             step 0 8 -> opened link 3",
            0xFFFF ^ ((2 << bit) - 1)
        ));
    }
}

// Networks.

/// A circuit that came over a cable has the network of the receiving link end, also
/// where the cable's two ends differ (open point 9).
#[test]
fn network_of_the_receiving_end() {
    let mut bench = Bench::line(3);
    bench.play(
        "set 1 enable 0 0
         set 1 network 0 2
         set 1 enable 0 1
         set 0 hello 1 0 -> granted 64
         aim 0 0 channel 2 7 0
         output 0 0 control 1
         step 0 8 -> opened link 1",
    );
    bench.repeat(4, "step 0 8", "moved");
    bench.expect("step 1 0", "refused noroute");
}

/// A circuit keeps the network it was opened with (open point 8).
#[test]
fn network_of_the_opening() {
    let mut bench = Bench::line(2);
    bench.play(
        "aim 0 0 channel 1 7 0
         output 0 0 control 1
         aim 0 0 channel 1 7 3
         step 0 8 -> opened link 1
         output 0 0 control 1",
    );
    assert_eq!((bench.port(0, 8).network, bench.port(0, 9).network), (0, 3));
    bench.expect("step 0 9", "refused noroute");
    bench.repeat(4, "step 0 9", "dropped noroute");
    assert_eq!(bench.port(0, 9).network, 0);
}

/// "Tile links serve all networks", and a local circuit looks at none.
#[test]
fn a_channel_is_reached_from_any_network() {
    let mut bench = Bench::line(2);
    bench.play(
        "aim 1 0 channel 1 7 3
         output 1 0 control 1
         set 0 enable 1 0
         set 0 network 1 2
         set 0 enable 1 1
         set 0 hello 1 0 -> granted 64
         aim 0 0 channel 1 7 2
         output 0 0 control 1",
    );
    bench.settle();
    assert_eq!(bench.input_all(1, 7), "!01 !01");
}

// To a channel.

/// "This node's channel: Waiting if no tile link is free", the sink too (open point
/// 37).
#[test]
fn tile_links_all_used_waits() {
    let mut bench = Bench::fresh(2);
    for link in 0..6 {
        bench.cable(0, link, 1, link);
        bench.play(&format!("set 0 linkdirection {link} {link}"));
    }
    bench.play("set 0 number 0 1");
    for round in 0..5 {
        let channel = if round == 4 { 255 } else { round };
        bench.play(&format!(
            "set 0 direction 0 {round}
             aim 0 {round} channel 0 {channel} 0
             output 0 {round} data 1"
        ));
        bench.expect("step 0 8", &format!("opened link {round}"));
        bench.repeat(4, "step 0 8", "moved");
        if round < 4 {
            bench.expect(&format!("step 1 {round}"), "opened channel");
            assert_eq!(bench.node(1).tile_links[round], Some(round));
            // The sender's port is freed by PAUSE, the far hop stays open for now.
            bench.play(&format!("output 0 {round} control 2"));
            bench.expect("step 0 8", "moved");
        }
    }
    bench.expect("step 1 4", "waiting");
    bench.repeat(2, "step 1 2", "moved");
    assert_eq!(bench.node(1).tile_links, [Some(0), Some(1), None, Some(3)]);
    bench.expect("step 1 4", "opened channel");
    assert_eq!(bench.node(1).tile_links[2], Some(4));
    assert_eq!(bench.port(1, 4).hop, Some(Hop::Channel(255)));
}

/// "then Waiting if the channel is claimed (the sink never is)"
#[test]
fn claimed_channel_waits() {
    let mut bench = Bench::line(3);
    bench.play(
        "aim 0 0 channel 1 7 0
         aim 2 0 channel 1 7 0
         output 0 0 data 1
         output 2 0 data 2",
    );
    assert_eq!(bench.drain(0, 8), "idle");
    assert_eq!(bench.drain(2, 8), "idle");
    bench.expect("step 1 1", "opened channel");
    assert_eq!(bench.channel_end(1, 7).claim, Some(Claim::ByPort(1)));
    bench.play(
        "step 1 0 -> waiting
         step 1 1 -> moved
         step 1 0 -> waiting
         output 2 0 control 2
         step 2 8 -> moved
         step 1 1 -> moved
         step 1 0 -> opened channel",
    );
    assert_eq!(bench.channel_end(1, 7).claim, Some(Claim::ByPort(0)));
}

/// A channel claimed by a local circuit makes circuits by ports wait as well.
#[test]
fn locally_claimed_channel_waits() {
    let mut bench = Bench::line(2);
    bench.play(
        "aim 1 3 channel 1 7 0
         output 1 3 data 1
         aim 0 0 channel 1 7 0
         output 0 0 control 1",
    );
    assert_eq!(bench.drain(0, 8), "idle");
    bench.play(
        "step 1 0 -> waiting
         output 1 3 control 1
         step 1 0 -> opened channel",
    );
}

#[test]
fn several_circuits_share_the_sink() {
    let mut bench = Bench::line(3);
    bench.play(
        "aim 0 0 channel 1 255 0
         aim 2 0 channel 1 255 0",
    );
    bench.output_data(0, 0, 20);
    bench.output_data(2, 0, 20);
    bench.settle();
    assert_eq!(bench.port(1, 0).hop, Some(Hop::Channel(255)));
    assert_eq!(bench.port(1, 1).hop, Some(Hop::Channel(255)));
    assert_eq!((bench.held(1, 0), bench.held(1, 1)), (0, 0));
    bench.play("output 0 0 control 1\noutput 2 0 control 2");
    bench.settle();
    assert_eq!(bench.node(1).tile_links, [None; 4]);
}

/// "else Opened and the header is removed"
#[test]
fn opening_to_a_channel_removes_the_header() {
    let mut bench = Bench::line(2);
    bench.play("aim 0 0 channel 1 7 0\noutput 0 0 data 5");
    assert_eq!(bench.drain(0, 8), "idle");
    assert_eq!(bench.tokens(1, 0), "h3:00 h3:01 h3:07 05");
    bench.expect("step 1 0", "opened channel");
    assert_eq!(bench.tokens(1, 0), "05");
    assert_eq!(bench.held(1, 0), 1);
    assert!(bench.channel_end(1, 7).tokens.is_empty());
}

/// "To a channel: Waiting if 8 are held, unless it is PAUSE"
#[test]
fn eight_held_waits_but_not_for_pause() {
    let mut bench = Bench::line(2);
    bench.play("aim 0 0 channel 1 7 0");
    bench.output_data(0, 0, 8);
    bench.settle();
    assert_eq!(bench.channel_end(1, 7).tokens.len(), 8);
    bench.play("output 0 0 control 2");
    bench.play(
        "step 0 8 -> moved
         step 1 0 -> moved",
    );
    assert_eq!(bench.channel_end(1, 7).claim, None);
    bench.play("output 0 0 control 1");
    assert_eq!(bench.drain(0, 8), "idle");
    bench.play(
        "step 1 0 -> opened channel
         step 1 0 -> waiting
         input 1 7 data -> token 0
         step 1 0 -> moved",
    );
    assert_eq!(bench.input_all(1, 7), "01 02 03 04 05 06 07 !01");
}

#[test]
fn sink_takes_and_forgets() {
    let mut bench = Bench::line(2);
    bench.play("aim 0 0 channel 1 255 0");
    bench.output_data(0, 0, 40);
    bench.play("output 0 0 control 1");
    assert_eq!(bench.drain(0, 8), "idle");
    assert_eq!(bench.drain(1, 0), "idle");
    assert!(bench
        .node(1)
        .channel_ends
        .iter()
        .all(|end| end.tokens.is_empty()));
}

/// PAUSE as a first token opens and closes each hop and hands nothing (open point
/// 12).
#[test]
fn lone_pause_travels_and_hands_nothing() {
    let mut bench = Bench::line(3);
    bench.play("aim 0 0 channel 2 7 0\noutput 0 0 control 2");
    assert_eq!(bench.tokens(0, 8), "h3:00 h3:02 h3:07 !02");
    assert_eq!(bench.channel_end(0, 0).sending, None);
    assert_eq!(bench.drain(0, 8), "idle");
    assert_eq!(bench.drain(1, 0), "idle");
    bench.play(
        "step 2 0 -> opened channel
         step 2 0 -> moved
         step 2 0 -> idle",
    );
    assert_eq!(bench.input_all(2, 7), "");
    assert_eq!(bench.channel_end(2, 7).claim, None);
}

/// Locally it changes nothing at all.
#[test]
fn lone_local_pause_changes_nothing() {
    let mut bench = Bench::fresh(1);
    bench.play("aim 0 0 channel 0 7 0");
    let before = bench.network.clone();
    bench.play("output 0 0 control 2 -> done");
    assert_eq!(bench.network, before);
}

// Ends.

/// "END and PAUSE close the hop": link, tile link and claim are free again.
#[test]
fn end_and_pause_free_what_the_circuit_used() {
    for last in ["1", "2"] {
        let mut bench = Bench::line(3);
        bench.play("aim 0 0 channel 2 7 0\noutput 0 0 data 1");
        bench.settle();
        assert_eq!(bench.link(0, 1).used_by, Some(8));
        assert_eq!(bench.link(1, 1).used_by, Some(0));
        assert_eq!(bench.node(2).tile_links[0], Some(0));
        bench.play(&format!("output 0 0 control {last}\nstep 0 8 -> moved"));
        assert_eq!(
            (bench.link(0, 1).used_by, bench.port(0, 8).hop),
            (None, None)
        );
        assert_eq!(bench.link(1, 1).used_by, Some(0));
        bench.expect("step 1 0", "moved");
        assert_eq!(
            (bench.link(1, 1).used_by, bench.port(1, 0).hop),
            (None, None)
        );
        assert_eq!(bench.channel_end(2, 7).claim, Some(Claim::ByPort(0)));
        bench.expect("step 2 0", "moved");
        assert_eq!(bench.node(2).tile_links[0], None);
        assert_eq!(bench.channel_end(2, 7).claim, None);
        assert_eq!(bench.port(2, 0).hop, None);
    }
}

/// Several circuits can stand behind one another in a link's port (open point 36).
#[test]
fn circuits_stand_behind_one_another() {
    let mut bench = Bench::line(2);
    bench.play("aim 0 0 channel 1 7 0");
    for byte in 1..4 {
        bench.play(&format!("output 0 0 data {byte}\noutput 0 0 control 1"));
        assert_eq!(bench.drain(0, 8), "idle");
    }
    assert_eq!(bench.held(1, 0), 15);
    for _ in 0..3 {
        bench.play(
            "step 1 0 -> opened channel
             step 1 0 -> moved
             step 1 0 -> moved",
        );
    }
    assert_eq!(bench.input_all(1, 7), "01 !01 02 !01 03 !01");
}

/// Two streams of one channel-end can overtake each other (open point 39).
#[test]
fn streams_can_overtake_each_other() {
    let mut bench = Bench::line(2);
    bench.play(
        "aim 0 0 channel 1 7 0
         output 0 0 data 1
         output 0 0 control 2
         output 0 0 data 2
         output 0 0 control 2",
    );
    assert_eq!((bench.held(0, 8), bench.held(0, 9)), (5, 5));
    assert_eq!(bench.drain(0, 9), "idle");
    bench.settle();
    assert_eq!(bench.input_all(1, 7), "02 01");
}

/// Dropped tokens are dropped one a step, END and PAUSE included, and what follows
/// is read anew.
#[test]
fn dropping_ends_with_the_circuit() {
    let mut bench = Bench::line(2);
    bench.play(
        "aim 0 0 channel 1 7 0
         output 0 0 data 1
         output 0 0 control 2",
    );
    assert_eq!(bench.drain(0, 8), "idle");
    bench.play("output 0 0 data 2\noutput 0 0 control 1");
    assert_eq!(bench.drain(0, 8), "idle");
    bench.play("set 1 width 0 1\nstep 1 0 -> refused split");
    assert_eq!(bench.port(1, 0).hop, Some(Hop::Dropped(Cause::Split)));
    bench.repeat(5, "step 1 0", "dropped split");
    bench.play("set 1 width 0 3\nstep 1 0 -> opened channel");
    bench.settle();
    assert_eq!(bench.input_all(1, 7), "02 !01");
}

// Settings changed under circuits.

/// An open hop goes on, whatever number and tables say by then; a local circuit
/// stays local and one by port stays by port (open points 15 and 22).
#[test]
fn open_circuits_go_on_under_new_settings() {
    let mut bench = Bench::line(2);
    bench.play(
        "aim 0 0 channel 1 7 0
         aim 0 1 channel 0 8 0
         output 0 0 data 1
         output 0 1 data 1
         step 0 8 -> opened link 1
         set 0 number 0 1
         set 0 linkdirection 1 9
         output 0 0 control 1
         output 0 1 control 1",
    );
    assert_eq!(bench.input_all(0, 8), "01 !01");
    bench.repeat(5, "step 0 8", "moved");
    bench.expect("step 1 0", "opened channel");
    bench.play("set 1 number 0 9");
    bench.settle();
    assert_eq!(bench.input_all(1, 7), "01 !01");
}

/// Two nodes may carry the same number: the first that compares equal takes it.
#[test]
fn two_nodes_with_one_number() {
    let mut bench = Bench::line(3);
    bench.play(
        "set 1 number 0 2
         set 0 direction 1 2
         aim 0 0 channel 2 7 0
         output 0 0 control 1",
    );
    bench.settle();
    assert_eq!(bench.input_all(1, 7), "!01");
    assert_eq!(bench.input_all(2, 7), "");
}

// Credits.

/// "A disabled link's credit is 0 and ungreeted"; enabling greets nobody.
#[test]
fn enabling_does_not_greet() {
    let mut bench = Bench::fresh(2);
    bench.play(
        "wire 0 0 1 0
         set 0 enable 0 1
         set 1 enable 0 1",
    );
    let (near, far) = (bench.link(0, 0), bench.link(1, 0));
    assert!(!near.greeted && !far.greeted);
    assert_eq!((near.credit, far.credit), (0, 0));
}

/// A HELLO touches the saying link alone (open point 28), and one that nobody hears
/// greets nobody (open point 29).
#[test]
fn hello_heard_and_unheard() {
    let mut bench = Bench::fresh(2);
    bench.play(
        "wire 0 0 1 0
         set 0 enable 0 1
         set 0 hello 0 0 -> granted 0",
    );
    assert!(!bench.link(0, 0).greeted);
    bench.play("set 1 enable 0 1");
    assert!(!bench.link(0, 0).greeted);
    bench.play("set 0 hello 0 0 -> granted 64");
    assert!(bench.link(0, 0).greeted && !bench.link(1, 0).greeted);
    assert_eq!((bench.link(0, 0).credit, bench.link(1, 0).credit), (64, 0));
    bench.play("set 1 hello 0 0 -> granted 64");
    assert_eq!((bench.link(0, 0).credit, bench.link(1, 0).credit), (64, 64));
}

/// Disabling zeroes and un-greets both ends; enabling anew does not greet.
#[test]
fn disabling_forgets_both_ends() {
    let mut bench = Bench::line(2);
    bench.play("set 1 enable 0 0");
    for (slot, link) in [(0, 1), (1, 0)] {
        assert!(!bench.link(slot, link).greeted);
        assert_eq!(bench.link(slot, link).credit, 0);
    }
    assert!(bench.link(0, 1).enabled && !bench.link(1, 0).enabled);
    bench.play(
        "set 1 enable 0 1
         aim 0 0 channel 1 7 0
         output 0 0 control 1
         step 0 8 -> opened link 1
         step 0 8 -> waiting
         set 0 hello 1 0 -> granted 64
         step 0 8 -> moved",
    );
}

/// HELLO on a greeted link in mid-circuit: to 0, then a grant by what is held; it
/// can leave the credit at 0 until tokens are taken (open point 28).
#[test]
fn hello_in_mid_circuit() {
    for (held, granted) in [
        (0, 64),
        (1, 16),
        (48, 16),
        (49, 8),
        (56, 8),
        (57, 0),
        (60, 0),
    ] {
        let mut bench = Bench::line(2);
        bench.play("aim 0 0 channel 1 7 0");
        bench.output_data(0, 0, 61);
        bench.expect("step 0 8", "opened link 1");
        bench.repeat(held, "step 0 8", "moved");
        bench.expect("set 0 hello 1 0", &format!("granted {granted}"));
        assert_eq!(bench.link(0, 1).credit, granted);
        let next = if granted == 0 { "waiting" } else { "moved" };
        bench.expect("step 0 8", next);
    }
}

/// "Outward: Waiting at credit 0": the buffer is full and nothing is taken.
#[test]
fn credit_runs_out_with_the_buffer_full() {
    let mut bench = Bench::line(2);
    bench.play("aim 0 0 channel 1 7 0");
    bench.output_data(0, 0, 61);
    bench.expect("step 0 8", "opened link 1");
    bench.repeat(3, "step 0 8", "moved");
    bench.output_data(0, 0, 3);
    bench.repeat(61, "step 0 8", "moved");
    assert_eq!((bench.link(0, 1).credit, bench.held(1, 0)), (0, 64));
    bench.repeat(3, "step 0 8", "waiting");
    // The header's three make room for nothing yet, the eighth taken token does.
    bench.expect("step 1 0", "opened channel");
    assert_eq!((bench.link(0, 1).credit, bench.held(1, 0)), (0, 61));
    bench.repeat(4, "step 1 0", "moved");
    assert_eq!((bench.link(0, 1).credit, bench.held(1, 0)), (0, 57));
    bench.expect("step 1 0", "moved");
    assert_eq!((bench.link(0, 1).credit, bench.held(1, 0)), (8, 56));
}

/// A grant is considered after each token sent, header tokens included.
#[test]
fn grant_after_sending() {
    let mut bench = Bench::line(2);
    bench.play("aim 0 0 channel 1 255 0");
    // Each packet is a header and END: four tokens, taken at once.
    for packet in 1..=14 {
        bench.play("output 0 0 control 1");
        assert_eq!(bench.drain(0, 8), "idle");
        assert_eq!(bench.drain(1, 0), "idle");
        assert_eq!(bench.link(0, 1).credit, 64 - 4 * packet);
    }
    bench.play(
        "output 0 0 control 1
         step 0 8 -> opened link 1
         step 0 8 -> moved",
    );
    assert_eq!(bench.link(0, 1).credit, 7 + 16);
}

/// Ways for tokens to be taken from a port: what they are aimed at, what is set when
/// they have arrived, the first answer there and all later ones.
const TAKINGS: [[&str; 4]; 6] = [
    ["channel 2 7 0", "", "opened link 1", "moved"],
    ["channel 1 7 0", "", "opened channel", "moved"],
    ["channel 1 255 0", "", "opened channel", "moved"],
    ["control 1 0 0", "", "opened control", "moved"],
    [
        "channel 1 7 0",
        "set 1 width 0 1",
        "refused split",
        "dropped split",
    ],
    [
        "channel 1 7 0",
        "set 1 number 0 1024",
        "refused noroute",
        "dropped noroute",
    ],
];

/// A grant is considered after each token taken: moved on, handed on, heard by the
/// control unit, dropped, or removed with the header.
#[test]
fn grant_after_taking() {
    for [aim, spoil, first, then] in TAKINGS {
        let mut bench = Bench::line(3);
        bench.play("set 1 direction 10 9");
        bench.play(&format!("aim 0 0 {aim}"));
        bench.output_data(0, 0, 61);
        assert_eq!(bench.drain(0, 8), "idle");
        assert_eq!(
            (bench.link(0, 1).credit, bench.held(1, 0)),
            (0, 64),
            "{aim}"
        );
        bench.play(spoil);
        bench.expect("step 1 0", first);
        let removed = 64 - bench.held(1, 0);
        bench.repeat(7 - removed, "step 1 0", then);
        assert_eq!(
            (bench.link(0, 1).credit, bench.held(1, 0)),
            (0, 57),
            "{aim}"
        );
        bench.expect("step 1 0", then);
        assert_eq!(
            (bench.link(0, 1).credit, bench.held(1, 0)),
            (8, 56),
            "{aim}"
        );
    }
}

/// The last taken token may be one of a header: each is a taking of its own.
#[test]
fn grant_after_removing_a_header() {
    let mut bench = Bench::line(2);
    bench.play("aim 0 0 channel 1 255 0");
    // Sixteen packets of header and END fill the buffer.
    for _ in 0..16 {
        bench.play("output 0 0 control 1");
        assert_eq!(bench.drain(0, 8), "idle");
    }
    assert_eq!((bench.link(0, 1).credit, bench.held(1, 0)), (0, 64));
    bench.repeat(1, "step 1 0", "opened channel");
    bench.repeat(1, "step 1 0", "moved");
    bench.play("set 0 hello 1 0 -> granted 0");
    assert_eq!((bench.link(0, 1).credit, bench.held(1, 0)), (0, 60));
    bench.expect("step 1 0", "opened channel");
    assert_eq!((bench.link(0, 1).credit, bench.held(1, 0)), (0, 57));
    bench.expect("step 1 0", "moved");
    assert_eq!((bench.link(0, 1).credit, bench.held(1, 0)), (8, 56));
    bench.expect("step 1 0", "opened channel");
    assert_eq!((bench.link(0, 1).credit, bench.held(1, 0)), (8, 53));
}

/// PAUSE and END are tokens like any other where grants are concerned.
#[test]
fn grant_after_taking_pause() {
    let mut bench = Bench::line(2);
    bench.play("aim 0 0 channel 1 7 0");
    bench.output_data(0, 0, 4);
    bench.play("output 0 0 control 2");
    assert_eq!(bench.drain(0, 8), "idle");
    bench.output_data(0, 0, 53);
    assert_eq!(bench.drain(0, 8), "idle");
    assert_eq!((bench.link(0, 1).credit, bench.held(1, 0)), (0, 64));
    bench.expect("step 1 0", "opened channel");
    bench.repeat(4, "step 1 0", "moved");
    assert_eq!((bench.link(0, 1).credit, bench.held(1, 0)), (0, 57));
    bench.expect("step 1 0", "moved");
    assert_eq!((bench.link(0, 1).credit, bench.held(1, 0)), (8, 56));
}

/// Input, Aim and other Sets bring no grant; tokens of tile ports and port 12 come
/// over no cable.
#[test]
fn no_grant_at_other_moments() {
    let mut bench = Bench::line(2);
    bench.play("aim 0 0 channel 1 7 0");
    bench.output_data(0, 0, 61);
    assert_eq!(bench.drain(0, 8), "idle");
    bench.expect("step 1 0", "opened channel");
    bench.repeat(8, "step 1 0", "moved");
    assert_eq!((bench.link(0, 1).credit, bench.held(1, 0)), (8, 53));
    bench.play("set 0 hello 1 0 -> granted 8");
    bench.output_data(0, 0, 8);
    bench.repeat(8, "step 0 8", "moved");
    assert_eq!((bench.link(0, 1).credit, bench.held(1, 0)), (0, 61));
    bench.play(
        "input 1 7 data -> token 0
         set 0 linkdirection 1 2
         set 0 enable 1 1
         set 1 hello 0 0 -> granted 64
         aim 0 5 channel 1 1 0
         aim 1 5 channel 0 1 0
         output 1 5 control 1
         step 1 8 -> opened link 0
         step 1 8 -> moved",
    );
    assert_eq!((bench.link(0, 1).credit, bench.held(1, 0)), (0, 61));
}

/// A cable between two links of one node (open points 20 and 27): a circuit sent
/// back by the link that feeds its port goes round and stays whole.
#[test]
fn a_circuit_goes_round_a_cable_of_one_node() {
    let mut bench = Bench::fresh(1);
    bench.cable(0, 0, 0, 1);
    bench.play(
        "set 0 linkdirection 0 1
         set 0 direction 2 1
         aim 0 0 channel 4 7 0
         output 0 0 data 5
         output 0 0 control 1
         step 0 8 -> opened link 0",
    );
    bench.repeat(5, "step 0 8", "moved");
    assert_eq!((bench.link(0, 0).credit, bench.held(0, 1)), (59, 5));
    for _ in 0..3 {
        bench.expect("step 0 1", "opened link 0");
        bench.repeat(5, "step 0 1", "moved");
        assert_eq!(bench.tokens(0, 1), "h3:00 h3:04 h3:07 05 !01");
    }
    assert_eq!((bench.link(0, 0).credit, bench.held(0, 1)), (44, 5));
    bench.play("set 0 number 0 4");
    bench.settle();
    assert_eq!(bench.input_all(0, 7), "05 !01");
}

/// From end to end over many hops, longer than any buffer.
#[test]
fn a_long_stream_arrives_whole() {
    let mut bench = Bench::line(5);
    bench.play("aim 0 0 channel 4 7 0");
    let mut arrived = Vec::new();
    for byte in 0..400 {
        bench.expect(&format!("output 0 0 data {}", byte % 256), "done");
        for (slot, port) in [(0, 8), (1, 0), (2, 0), (3, 0), (4, 0)] {
            bench.drain(slot, port);
        }
        arrived.push(bench.input_all(4, 7));
    }
    bench.play("output 0 0 control 1");
    bench.settle();
    arrived.push(bench.input_all(4, 7));
    arrived.retain(|tokens| !tokens.is_empty());
    let mut expected: Vec<_> = (0..400).map(|byte| format!("{:02X}", byte % 256)).collect();
    expected.push("!01".to_string());
    assert_eq!(arrived.join(" "), expected.join(" "));
}
