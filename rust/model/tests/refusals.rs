//! Each refusal of each call on both sides of its line, and the order of refusals.
//! That a refused call changes nothing is looked at by the bench itself.

mod common;

use common::Bench;
use model::answers::No;

// The numbers themselves.

#[test]
fn numbers_and_names() {
    let names: Vec<_> = No::ALL.iter().map(|no| (no.number(), no.name())).collect();
    let expected = [
        (1, "Unsound"),
        (2, "NoSuch"),
        (3, "Value"),
        (4, "Busy"),
        (5, "Unaimed"),
        (6, "Open"),
        (7, "Hardware"),
        (8, "Privileged"),
        (9, "Narrow"),
        (10, "Full"),
        (11, "Empty"),
        (12, "Trap"),
    ];
    assert_eq!(names, expected);
    assert!((1..=12).all(|n| No::from_number(n).is_some_and(|no| no.number() == n)));
    assert_eq!(No::from_number(0), None);
    assert_eq!(No::from_number(13), None);
}

// Fresh and blank.

/// Both starts, with the same arguments, refusals and order.
const STARTS: [&str; 2] = ["fresh", "blank"];

#[test]
fn count_goes_before_memory() {
    for start in STARTS {
        let mut bench = Bench::empty();
        let refused = "
            START 0 0 -> no 2
            START 0 832 -> no 2
            START 17 14144 -> no 2
            START 17 0 -> no 2
            START 18446744073709551615 18446744073709551615 -> no 2
            START 1 0 -> no 1
            START 1 831 -> no 1
            START 1 833 -> no 1
            START 16 13311 -> no 1
            START 16 13313 -> no 1
            START 2 832 -> no 1
            START 1 18446744073709551615 -> no 1";
        bench.play(&refused.replace("START", start));
        assert!(bench.network.is_none());
        bench.expect(&format!("{start} 1 832"), "done");
        bench.expect(&format!("{start} 16 13312"), "done");
    }
}

#[test]
fn a_refused_start_keeps_the_network() {
    for start in STARTS {
        let mut bench = Bench::line(2);
        bench.expect(&format!("{start} 0 0"), "no 2");
        bench.expect(&format!("{start} 2 0"), "no 1");
        assert_eq!(bench.state().nodes.len(), 2);
        assert!(bench.link(0, 1).greeted);
        bench.expect(&format!("{start} 3 2496"), "done");
        assert_eq!(bench.state().nodes.len(), 3);
        assert!(!bench.link(0, 1).enabled);
    }
}

#[test]
fn before_fresh_every_call_is_unsound() {
    let mut bench = Bench::empty();
    bench.play(
        "wire 0 0 0 1 -> no 1
         set 0 number 0 1 -> no 1
         aim 0 0 channel 0 0 0 -> no 1
         output 0 0 data 0 -> no 1
         input 0 0 data -> no 1
         step 0 0 -> no 1
         step 99 99 -> no 1",
    );
}

/// Unsound goes before all others, and leaves the state as it was.
#[test]
fn unsound_goes_first() {
    let calls = [
        "wire 0 0 0 1",
        "wire 9 9 9 9",
        "set 0 number 0 1",
        "set 9 enable 9 9",
        "aim 0 0 channel 0 0 0",
        "aim 9 99 channel 99999 99 9",
        "output 0 0 data 0",
        "output 9 99 control 0xE0",
        "input 0 0 data",
        "input 9 99 data",
        "step 0 0",
        "step 9 99",
    ];
    for words in calls {
        for disturb in [true, false] {
            let mut network = Bench::line(2).network;
            if let Some(network) = &mut network {
                if disturb {
                    network.nodes[0].links[5].credit = 1;
                } else {
                    network.memory_words += 1;
                }
            }
            let before = network.clone();
            let call = model::words::parse_call(words).expect("a call");
            let answer = model::calls::apply(&mut network, &call);
            assert_eq!(answer.to_string(), "no 1", "{words}");
            assert_eq!(network, before, "{words}");
        }
    }
}

/// A start does not look at the old state.
#[test]
fn a_start_on_an_unsound_state() {
    for start in STARTS {
        let mut bench = Bench::line(2);
        bench.state_mut().nodes[0].links[5].credit = 1;
        bench.expect(&format!("{start} 2 1664"), "done");
    }
}

// Wire.

#[test]
fn wire_no_such() {
    let mut bench = Bench::fresh(2);
    bench.play(
        "wire 2 0 1 0 -> no 2
         wire 0 8 1 0 -> no 2
         wire 0 0 2 0 -> no 2
         wire 0 0 1 8 -> no 2
         wire 5 9 5 9 -> no 2
         wire 1 7 0 7 -> done",
    );
}

#[test]
fn wire_value_is_a_link_joined_to_itself() {
    let mut bench = Bench::fresh(2);
    bench.play(
        "wire 0 3 0 3 -> no 3
         wire 0 3 0 4 -> done
         wire 0 3 0 3 -> no 3
         wire 1 3 1 3 -> no 3
         set 1 enable 3 1
         wire 1 3 1 3 -> no 3",
    );
}

#[test]
fn wire_busy_on_a_wired_end() {
    let mut bench = Bench::fresh(3);
    bench.play(
        "wire 0 0 1 0 -> done
         wire 0 0 2 0 -> no 4
         wire 2 0 1 0 -> no 4
         wire 0 0 1 0 -> no 4",
    );
}

/// "no longer for an enabled one": one end enabled, the other, both, or none.
#[test]
fn wire_does_not_look_at_enables() {
    for start in ["fresh", "blank"] {
        for enabled in [[0, 0], [0, 1], [1, 0], [1, 1]] {
            for link in 0..8 {
                let [near, far] = enabled;
                let mut bench = Bench::begun(start, 2);
                bench.play(&format!(
                    "set 0 enable {link} {near} -> done
                     set 1 enable 2 {far} -> done
                     wire 0 {link} 1 2 -> done
                     wire 0 {link} 1 3 -> no 4
                     wire 1 3 1 2 -> no 4"
                ));
                let ends = [bench.link(0, link), bench.link(1, 2)];
                assert_eq!(ends.map(|end| u32::from(end.enabled)), enabled);
                assert!(ends.iter().all(|end| !end.greeted && end.credit == 0));
            }
        }
    }
}

// Set.

#[test]
fn set_no_such_goes_before_value() {
    let mut bench = Bench::fresh(2);
    for setting in ["number 0 65536", "width 0 2", "direction 16 16"] {
        bench.expect(&format!("set 2 {setting}"), "no 2");
        bench.expect(&format!("set 1 {setting}"), "no 3");
    }
    for setting in [
        "linkdirection 8 16",
        "network 8 4",
        "enable 8 2",
        "hello 8 0",
    ] {
        bench.expect(&format!("set 0 {setting}"), "no 2");
    }
    for setting in ["linkdirection 7 16", "network 7 4", "enable 7 2"] {
        bench.expect(&format!("set 2 {setting}"), "no 2");
        bench.expect(&format!("set 0 {setting}"), "no 3");
    }
    bench.expect("set 2 hello 7 0", "no 2");
}

#[test]
fn set_value_limits() {
    let mut bench = Bench::blank(1);
    bench.play(
        "set 0 number 0 65535 -> done
         set 0 number 0 65536 -> no 3
         set 0 number 0 4294967295 -> no 3
         set 0 width 0 1 -> done
         set 0 width 0 3 -> done
         set 0 width 0 0 -> no 3
         set 0 width 0 2 -> no 3
         set 0 width 0 4 -> no 3
         set 0 direction 15 15 -> done
         set 0 direction 0 0 -> done
         set 0 direction 16 0 -> no 3
         set 0 direction 0 16 -> no 3
         set 0 linkdirection 7 15 -> done
         set 0 linkdirection 7 16 -> no 3
         set 0 network 7 3 -> done
         set 0 network 7 4 -> no 3
         set 0 enable 7 1 -> done
         set 0 enable 7 0 -> done
         set 0 enable 7 2 -> no 3",
    );
    assert_eq!(bench.node(0).number, 65535);
    assert_eq!(bench.node(0).directions[15], 15);
}

/// "network changed to another while enabled", after the value's range.
#[test]
fn set_network_busy() {
    let mut bench = Bench::fresh(1);
    bench.play(
        "set 0 network 2 1 -> done
         set 0 enable 2 1
         set 0 network 2 1 -> done
         set 0 network 2 2 -> no 4
         set 0 network 2 4 -> no 3
         set 0 enable 2 0
         set 0 network 2 2 -> done",
    );
}

#[test]
fn set_hello_busy_on_a_disabled_link() {
    let mut bench = Bench::fresh(1);
    bench.play(
        "set 0 hello 2 0 -> no 4
         set 0 enable 2 1
         set 0 hello 2 0 -> granted 0",
    );
}

/// "disabling an enabled link while either end's buffer holds a token or either
/// direction is in a circuit"
#[test]
fn set_disable_busy_while_a_token_is_held() {
    let mut bench = Bench::line(2);
    bench.play(
        "aim 0 0 channel 1 7 0
         output 0 0 control 1
         step 0 8 -> opened link 1
         set 0 enable 1 0 -> no 4
         set 1 enable 0 0 -> no 4",
    );
    bench.repeat(4, "step 0 8", "moved");
    assert_eq!(bench.link(0, 1).used_by, None);
    bench.play(
        "set 0 enable 1 0 -> no 4
         set 1 enable 0 0 -> no 4
         step 1 0 -> opened channel
         set 0 enable 1 0 -> no 4
         set 1 enable 0 0 -> no 4
         step 1 0 -> moved
         set 0 enable 1 2 -> no 3
         set 0 enable 1 0 -> done",
    );
}

/// A circuit in the middle, with both buffers empty.
#[test]
fn set_disable_busy_while_a_circuit_is_open() {
    let mut bench = Bench::line(2);
    bench.play(
        "aim 0 0 channel 1 7 0
         output 0 0 data 1",
    );
    bench.settle();
    assert_eq!((bench.held(0, 1), bench.held(1, 0)), (0, 0));
    bench.play(
        "set 0 enable 1 0 -> no 4
         set 1 enable 0 0 -> no 4
         output 0 0 control 2",
    );
    bench.settle();
    bench.play("set 1 enable 0 0 -> done");
    assert!(!bench.link(0, 1).greeted);
    assert!(bench.link(0, 1).enabled);
}

/// Disabling a disabled link is done, though its far end is in use (open point 18).
#[test]
fn set_disable_a_disabled_link() {
    let mut bench = Bench::fresh(2);
    bench.play(
        "wire 0 0 1 0
         set 0 enable 0 1
         set 0 number 0 2
         set 0 direction 1 0
         aim 0 0 channel 0 3 0
         output 0 0 data 1
         step 0 8 -> opened link 0
         set 1 enable 0 0 -> done
         set 0 enable 0 0 -> no 4
         set 0 enable 0 1 -> done",
    );
}

// Aim.

#[test]
fn aim_no_such_goes_before_value() {
    let mut bench = Bench::fresh(1);
    bench.play(
        "aim 1 0 channel 0 32 4 -> no 2
         aim 0 32 channel 0 32 4 -> no 2
         aim 0 32 control 0 0 0 -> no 2
         aim 0 31 channel 0 0 0 -> done
         aim 0 255 channel 0 0 0 -> no 2",
    );
}

#[test]
fn aim_value_limits() {
    let mut bench = Bench::fresh(1);
    bench.play(
        "aim 0 0 channel 0 31 0 -> done
         aim 0 0 channel 0 32 0 -> no 3
         aim 0 0 channel 0 254 0 -> no 3
         aim 0 0 channel 0 255 0 -> done
         aim 0 0 channel 0 256 0 -> no 3
         aim 0 0 channel 65535 0 3 -> done
         aim 0 0 channel 65536 0 3 -> no 3
         aim 0 0 channel 65535 0 4 -> no 3
         aim 0 0 control 65535 0 3 -> done
         aim 0 0 control 65536 0 3 -> no 3
         aim 0 0 control 65535 0 4 -> no 3",
    );
}

/// "Aim between its opening Output and that circuit's END or PAUSE"
#[test]
fn aim_open_lasts_until_end_is_put_out() {
    for last in ["1", "2"] {
        let mut bench = Bench::line(2);
        bench.play(&format!(
            "aim 0 0 channel 1 7 0
             aim 0 0 channel 1 8 0 -> done
             output 0 0 data 1
             aim 0 0 channel 1 7 0 -> no 6
             aim 0 0 channel 1 32 0 -> no 3
             aim 0 0 channel 1 8 0 -> no 6
             output 0 0 control {last}
             aim 0 0 channel 1 7 0 -> done"
        ));
        assert_eq!(bench.held(0, 8), 5);
    }
}

#[test]
fn aim_open_while_a_local_circuit_is_open() {
    let mut bench = Bench::fresh(1);
    bench.play(
        "aim 0 0 channel 0 7 0
         output 0 0 data 1
         aim 0 0 channel 0 7 0 -> no 6
         aim 0 7 channel 0 0 0 -> done
         output 0 0 control 2
         aim 0 0 channel 0 255 0 -> done
         output 0 0 data 1
         aim 0 0 channel 0 7 0 -> no 6
         output 0 0 control 1
         aim 0 0 channel 0 7 0 -> done",
    );
}

/// A first token that ends the circuit leaves nothing open.
#[test]
fn aim_after_a_lone_end() {
    let mut bench = Bench::line(2);
    bench.play(
        "aim 0 0 channel 1 7 0
         output 0 0 control 1
         aim 0 0 channel 1 8 0 -> done
         output 0 0 control 2
         aim 0 0 channel 1 9 0 -> done",
    );
}

// Output.

#[test]
fn output_no_such() {
    let mut bench = Bench::fresh(1);
    bench.play(
        "output 1 0 control 0xE0 -> no 2
         output 0 32 control 0xE0 -> no 2
         output 0 255 data 0 -> no 2
         output 0 31 data 0 -> no 5",
    );
}

/// "an unaimed channel-end leaves at once with 5, also for a hardware token"
#[test]
fn output_unaimed_goes_before_the_token() {
    let mut bench = Bench::fresh(1);
    bench.play(
        "output 0 0 data 0 -> no 5
         output 0 0 control 0xE6 -> no 5
         output 0 0 control 0xC0 -> no 5
         aim 0 0 channel 0 1 0
         output 0 0 control 0xE6 -> no 7
         output 0 0 control 0xC0 -> no 8",
    );
}

#[test]
fn output_hardware_and_privileged_to_a_channel() {
    let mut bench = Bench::line(2);
    bench.play("aim 0 0 channel 1 7 0");
    for value in 0xC0..=0xDF {
        bench.expect(&format!("output 0 0 control {value}"), "no 8");
        bench.expect(&format!("output 0 0 data {value}"), "done");
    }
    for value in 0xE0..=0xFF {
        bench.expect(&format!("output 0 0 control {value}"), "no 7");
    }
    for value in [0x00, 0x03, 0x7F, 0x80, 0xBF] {
        bench.expect(&format!("output 0 0 control {value}"), "done");
    }
}

#[test]
fn output_hardware_and_privileged_to_a_control_unit() {
    let mut bench = Bench::line(2);
    bench.play("aim 0 0 control 1 0 0");
    for value in 0xC2..=0xDF {
        bench.expect(&format!("output 0 0 control {value}"), "no 8");
    }
    for value in 0xE0..=0xFF {
        bench.expect(&format!("output 0 0 control {value}"), "no 7");
    }
    bench.play(
        "output 0 0 control 0xC0 -> done
         output 0 0 control 0xC1 -> done
         output 0 0 control 0xC2 -> no 8",
    );
}

/// 7 and 8 are looked at before 9 and 10.
#[test]
fn output_token_goes_before_narrow_and_full() {
    let mut bench = Bench::fresh(1);
    bench.play(
        "set 0 width 0 1
         aim 0 0 channel 0 255 0
         output 0 0 data 0 -> no 9
         output 0 0 control 0xC0 -> no 8
         output 0 0 control 0xE0 -> no 7
         aim 0 0 control 0 0 0
         output 0 0 control 0xC0 -> no 9
         output 0 0 control 0xC2 -> no 8",
    );
}

/// "opening at one-byte width towards channel 255 or a control unit"
#[test]
fn output_narrow_only_when_opening() {
    let mut bench = Bench::line(2);
    bench.play(
        "set 0 width 0 1
         aim 0 0 channel 1 255 0
         aim 0 1 control 1 0 0
         aim 0 2 channel 0 255 0
         aim 0 3 channel 1 31 0
         output 0 0 control 1 -> no 9
         output 0 1 control 0xC0 -> no 9
         output 0 2 control 2 -> no 9
         output 0 3 control 1 -> done
         set 0 width 0 3
         output 0 0 data 1 -> done
         output 0 1 control 0xC0 -> done
         output 0 2 data 1 -> done
         set 0 width 0 1
         output 0 0 data 1 -> done
         output 0 1 data 1 -> done
         output 0 2 data 1 -> done
         output 0 2 control 1 -> done
         output 0 2 control 1 -> no 9",
    );
}

/// Narrow goes before Full.
#[test]
fn output_narrow_goes_before_full() {
    let mut bench = Bench::line(2);
    for end in 0..4 {
        bench.play(&format!(
            "aim 0 {end} channel 1 7 0\noutput 0 {end} control 1"
        ));
    }
    bench.play(
        "aim 0 4 channel 1 255 0
         output 0 4 control 1 -> no 10
         set 0 width 0 1
         output 0 4 control 1 -> no 9",
    );
}

/// "no port 8..11 free", and the lowest free one is taken.
#[test]
fn output_full_with_no_port_free() {
    let mut bench = Bench::line(2);
    for end in 0..4 {
        bench.play(&format!(
            "aim 0 {end} channel 1 {end} 0\noutput 0 {end} control 1"
        ));
        assert_eq!(bench.held(0, 8 + end), 4);
    }
    bench.play(
        "aim 0 4 channel 1 7 0
         output 0 4 data 0 -> no 10
         output 0 0 data 0 -> no 10
         step 0 9 -> opened link 1",
    );
    bench.repeat(3, "step 0 9", "moved");
    bench.play(
        "output 0 4 data 0 -> no 10
         step 0 9 -> moved
         output 0 4 data 0 -> done",
    );
    assert_eq!(bench.held(0, 9), 4);
}

/// A port whose tokens have all left is still taken until its END or PAUSE has.
#[test]
fn output_port_is_taken_until_the_end_has_left() {
    let mut bench = Bench::line(2);
    bench.play(
        "aim 0 0 channel 1 7 0
         aim 0 1 channel 1 7 0
         output 0 0 data 1",
    );
    bench.settle();
    assert_eq!(bench.held(0, 8), 0);
    bench.play("output 0 1 data 1");
    assert_eq!((bench.held(0, 8), bench.held(0, 9)), (0, 4));
    bench.play("output 0 0 control 2");
    assert_eq!(bench.held(0, 8), 1);
    bench.play(
        "aim 0 2 channel 1 7 0
         output 0 2 data 1",
    );
    assert_eq!((bench.held(0, 8), bench.held(0, 10)), (1, 4));
    bench.play(
        "step 0 8 -> moved
         aim 0 3 channel 1 7 0
         output 0 3 data 1",
    );
    assert_eq!(bench.held(0, 8), 4);
}

/// "the taken port holds 64", for END and PAUSE too.
#[test]
fn output_full_at_sixty_four() {
    let mut bench = Bench::line(2);
    bench.play("aim 0 0 channel 1 7 0");
    bench.output_data(0, 0, 61);
    assert_eq!(bench.held(0, 8), 64);
    bench.play(
        "output 0 0 data 0 -> no 10
         output 0 0 control 1 -> no 10
         output 0 0 control 2 -> no 10
         step 0 8 -> opened link 1
         output 0 0 control 2 -> no 10
         step 0 8 -> moved
         output 0 0 control 2 -> done",
    );
}

/// "locally: another circuit claims the channel", for PAUSE too.
#[test]
fn output_full_while_another_claims_the_channel() {
    let mut bench = Bench::line(2);
    bench.play(
        "aim 1 0 channel 1 7 0
         aim 1 1 channel 1 7 0
         output 1 0 data 1
         output 1 1 data 2 -> no 10
         output 1 1 control 1 -> no 10
         output 1 1 control 2 -> no 10
         output 1 0 control 2
         output 1 1 data 2 -> done
         output 1 1 control 2 -> done
         aim 0 0 channel 1 7 0
         output 0 0 data 3",
    );
    bench.settle();
    bench.play(
        "output 1 1 data 2 -> no 10
         output 1 1 control 2 -> no 10",
    );
    assert_eq!(bench.input_all(1, 7), "01 02 03");
}

/// "8 are held and the token is not PAUSE"
#[test]
fn output_full_locally_at_eight() {
    let mut bench = Bench::fresh(1);
    bench.play("aim 0 0 channel 0 7 0");
    bench.output_data(0, 0, 8);
    bench.play(
        "output 0 0 data 8 -> no 10
         output 0 0 control 1 -> no 10
         output 0 0 control 2 -> done
         output 0 0 data 8 -> no 10
         output 0 0 control 1 -> no 10
         output 0 0 control 2 -> done
         input 0 7 data -> token 0
         output 0 0 control 1 -> done",
    );
    assert_eq!(bench.input_all(0, 7), "01 02 03 04 05 06 07 !01");
}

/// "the sink is never full"
#[test]
fn output_to_the_local_sink_is_never_full() {
    let mut bench = Bench::fresh(1);
    for end in 0..6 {
        bench.play(&format!("aim 0 {end} channel 0 255 0"));
    }
    for _ in 0..30 {
        for end in 0..6 {
            bench.expect(&format!("output 0 {end} data 5"), "done");
        }
    }
    bench.expect("output 0 0 control 1", "done");
    bench.expect("output 0 1 control 2", "done");
}

// Input.

#[test]
fn input_no_such_empty_and_trap() {
    let mut bench = Bench::fresh(1);
    bench.play(
        "input 1 0 data -> no 2
         input 0 32 data -> no 2
         input 0 255 data -> no 2
         input 0 31 data -> no 11
         input 0 31 control -> no 11
         aim 0 0 channel 0 31 0
         output 0 0 data 1
         output 0 0 control 1
         input 0 31 control -> no 12
         input 0 31 control -> no 12
         input 0 31 data -> token 1
         input 0 31 data -> no 12
         input 0 31 control -> token 1
         input 0 31 control -> no 11",
    );
}

// Step.

#[test]
fn step_no_such() {
    let mut bench = Bench::fresh(2);
    bench.play(
        "step 2 0 -> no 2
         step 0 13 -> no 2
         step 18446744073709551615 18446744073709551615 -> no 2
         step 1 12 -> idle
         step 1 0 -> idle",
    );
}

// All of them.

/// Calls with places and values left open.
const FORMS: [&str; 15] = [
    "fresh A B",
    "blank A B",
    "wire A B C B",
    "set A number 0 C",
    "set A width 0 C",
    "set A direction C 3",
    "set A direction 3 C",
    "set A linkdirection B C",
    "set A network B C",
    "set A enable B C",
    "set A hello B 0",
    "aim A B channel C C 0",
    "aim A B control 1 0 C",
    "output A B control 2",
    "step A B",
];

/// Any arguments at all: each call answers, and a refused one changes nothing.
#[test]
fn no_argument_is_too_strange() {
    let places = "0 1 2 7 8 11 12 13 16 31 32 255 18446744073709551615";
    let values = "0 1 2 3 4 16 31 32 255 256 65535 65536 4294967295";
    let mut bench = Bench::line(2);
    for form in FORMS {
        for a in places.split(' ') {
            for b in places.split(' ') {
                for c in values.split(' ') {
                    let call = form.replace('A', a).replace('B', b).replace('C', c);
                    bench.call(&call);
                }
            }
        }
    }
}
